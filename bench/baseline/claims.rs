//! Claims and certificates: queries, solutions, cuts, potentials and labels.

use crate::network::NodeSet;
use crate::text::{refuse, refuse_if, Declared, Reading, Record, Refusal};

/// Queries for all distances from some nodes.
#[derive(Default)]
pub struct Queries {
    declared: Declared,
    pub sources: Vec<u32>,
}

impl Reading for Queries {
    fn take(&mut self, record: &Record, _line: u64) -> Result<(), Refusal> {
        let numbers = &record.numbers;
        if record.letter == b'p' {
            return self.declared.declare(numbers[3]);
        }
        self.declared.test()?;
        self.declared.test_one_more(self.sources.len())?;
        self.sources.push(numbers[0] as u32);
        Ok(())
    }

    fn finish(&self) -> Result<(), Refusal> {
        self.declared.test_full(self.sources.len())
    }
}

#[derive(Default)]
pub struct Solution {
    value: Option<(i128, u64)>,
    pub entries: Vec<Entry>,
    /// The line of each entry; empty while entry k, counted from 0, stands on line k + 2.
    lines: Vec<u64>,
}

pub struct Entry {
    pub ends: (u32, u32),
    pub flow: i64,
}

impl Solution {
    /// VALUE.
    pub fn value(&self) -> i128 {
        self.value.unwrap().0
    }

    /// The line of the VALUE.
    pub fn value_line(&self) -> u64 {
        self.value.unwrap().1
    }

    pub fn entry_line(&self, entry: usize) -> u64 {
        self.lines.get(entry).copied().unwrap_or(usual_line(entry))
    }
}

fn usual_line(entry: usize) -> u64 {
    entry as u64 + 2
}

impl Reading for Solution {
    #[inline(always)]
    fn take(&mut self, record: &Record, line: u64) -> Result<(), Refusal> {
        if record.letter == b's' {
            refuse_if(self.value.is_some(), 0, "SolutionTwice")?;
            self.value = Some((record.wide, line));
            return Ok(());
        }
        let entry = self.entries.len();
        if !self.lines.is_empty() || line != usual_line(entry) {
            if self.lines.is_empty() {
                self.lines = (0..entry).map(usual_line).collect();
            }
            self.lines.push(line);
        }
        let numbers = &record.numbers;
        self.entries.push(Entry { ends: (numbers[0] as u32, numbers[1] as u32), flow: numbers[2] });
        Ok(())
    }

    fn finish(&self) -> Result<(), Refusal> {
        refuse_if(self.value.is_none(), 0, "SolutionMissing")
    }
}

/// The named nodes of a cut or of potentials.
#[derive(Default)]
pub struct Cut {
    pub nodes: u32,
    declared: Declared,
    count: usize,
    pub named: NodeSet,
}

impl Reading for Cut {
    #[inline(always)]
    fn take(&mut self, record: &Record, _line: u64) -> Result<(), Refusal> {
        let numbers = &record.numbers;
        if record.letter == b'p' {
            self.declared.declare(numbers[2])?;
            self.nodes = numbers[1] as u32;
            self.named = NodeSet::new(self.nodes);
            return Ok(());
        }
        self.declared.test()?;
        let node = numbers[0] as u32;
        refuse_if(node > self.nodes, 2, "NodeRange")?;
        refuse_if(!self.named.insert(node), 2, "NodeTwice")?;
        self.declared.test_one_more(self.count)?;
        self.count += 1;
        Ok(())
    }

    fn finish(&self) -> Result<(), Refusal> {
        self.declared.test_full(self.count)
    }
}

#[derive(Default)]
pub struct Potentials {
    pub named: Cut,
    /// By node.
    pub values: Vec<i128>,
}

impl Reading for Potentials {
    #[inline(always)]
    fn take(&mut self, record: &Record, line: u64) -> Result<(), Refusal> {
        self.named.take(record, line)?;
        if record.letter == b'p' {
            self.values = vec![0; self.named.nodes as usize + 1];
        } else {
            self.values[record.numbers[0] as usize] = record.wide;
        }
        Ok(())
    }

    fn finish(&self) -> Result<(), Refusal> {
        self.named.finish()
    }
}

/// Beyond all distances that are read: that of a node without a label.
pub const NO_DISTANCE: i64 = i64::MAX;

pub struct Label {
    pub distance: i64,
    pub id: u32,
    pub pred: u32,
}

pub struct Block {
    pub source: u32,
    declared: usize,
    first_label: usize,
}

#[derive(Default)]
pub struct Labels {
    pub nodes: u32,
    declared_blocks: Declared,
    pub blocks: Vec<Block>,
    /// The labels of all blocks.
    labels: Vec<Label>,
    sources: NodeSet,
    /// By node, the last block that labels it, counted from 1.
    labelled_in: Vec<u32>,
}

impl Labels {
    /// The labels of a block. Every block is full, once a text is read.
    pub fn labels_of(&self, block: &Block) -> &[Label] {
        &self.labels[block.first_label..block.first_label + block.declared]
    }

    fn take_problem(&mut self, numbers: &[i64; 5]) -> Result<(), Refusal> {
        self.declared_blocks.declare(numbers[2])?;
        self.nodes = numbers[1] as u32;
        self.labelled_in = vec![0; self.nodes as usize + 1];
        self.sources = NodeSet::new(self.nodes);
        Ok(())
    }

    fn take_block(&mut self, numbers: &[i64; 5]) -> Result<(), Refusal> {
        self.declared_blocks.test()?;
        let source = numbers[0] as u32;
        refuse_if(source > self.nodes, 2, "NodeRange")?;
        refuse_if(!self.sources.insert(source), 2, "NodeTwice")?;
        self.declared_blocks.test_one_more(self.blocks.len())?;
        refuse_if(self.last_block_is_short(), 0, "TooFew")?;
        self.blocks.push(Block { source, declared: numbers[1] as usize, first_label: self.labels.len() });
        self.labelled_in[source as usize] = self.blocks.len() as u32;
        Ok(())
    }

    #[inline(always)]
    fn take_label(&mut self, numbers: &[i64; 5], distance: i128) -> Result<(), Refusal> {
        self.declared_blocks.test()?;
        let Some(block) = self.blocks.last() else {
            return refuse(0, "RecordOrder");
        };
        let (id, pred) = (numbers[0] as u32, numbers[2] as u32);
        refuse_if(id > self.nodes, 2, "NodeRange")?;
        refuse_if(pred > self.nodes, 4, "NodeRange")?;
        let this_block = self.blocks.len() as u32;
        refuse_if(self.labelled_in[id as usize] == this_block, 2, "NodeTwice")?;
        refuse_if(self.labels.len() - block.first_label == block.declared, 0, "TooMany")?;
        refuse_if(self.labelled_in[pred as usize] != this_block, 0, "PredUnknown")?;
        self.labelled_in[id as usize] = this_block;
        if distance.abs() >= 1 << 61 {
            beyond_61_bits();
        }
        self.labels.push(Label { distance: distance as i64, id, pred });
        Ok(())
    }

    fn last_block_is_short(&self) -> bool {
        self.blocks.last().is_some_and(|block| self.labels.len() - block.first_label < block.declared)
    }
}

impl Reading for Labels {
    #[inline(always)]
    fn take(&mut self, record: &Record, _line: u64) -> Result<(), Refusal> {
        match record.letter {
            b'd' => self.take_label(&record.numbers, record.wide),
            b'p' => self.take_problem(&record.numbers),
            _ => self.take_block(&record.numbers),
        }
    }

    fn finish(&self) -> Result<(), Refusal> {
        self.declared_blocks.test_full(self.blocks.len())?;
        refuse_if(self.last_block_is_short(), 0, "TooFew")
    }
}

fn beyond_61_bits() -> ! {
    eprintln!("baseline: a label of more than 61 bits");
    std::process::exit(2)
}
