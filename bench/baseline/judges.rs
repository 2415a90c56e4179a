//! The judges. A yes is what is printed, and so is a no: the line of the first fault or of the first test that fails.

use crate::claims::{Cut, Labels, Potentials, Queries, Solution, NO_DISTANCE};
use crate::network::{ArcIndex, Network, NetworkKind};
use crate::text::{self, Fault, Reading};
use std::collections::HashSet;

/// What is printed: of a yes the lines of the verdict, of a no the line of the refusal.
pub type Outcome = Result<String, String>;

/// The line of a text's fault.
fn refusal_line(text: &str, fault: Fault) -> String {
    format!("x {} {} {} {}\n", text, fault.line, fault.refusal.field, fault.refusal.reason)
}

fn at_arc(arc: usize, reason: &str) -> String {
    format!("x arc {} {}\n", arc + 1, reason)
}

fn at_node(node: u32, reason: &str) -> String {
    format!("x node {node} {reason}\n")
}

fn at_solution(line: u64, field: u32, reason: &str) -> String {
    format!("x solution {line} {field} {reason}\n")
}

fn at_certificate(reason: &str) -> String {
    format!("x certificate 0 0 {reason}\n")
}

/// Refuses by this line, if this holds.
#[inline(always)]
fn refuse_if(is_so: bool, line: impl FnOnce() -> String) -> Result<(), String> {
    (!is_so).then_some(()).ok_or_else(line)
}

fn read<R: Reading>(text: &str, kind: text::Kind, path: &str, mut reading: R) -> Result<R, String> {
    text::read(kind, path, &mut reading).map_err(|fault| refusal_line(text, fault))?;
    Ok(reading)
}

pub fn read_instance(kind: NetworkKind, path: &str) -> Result<Network, String> {
    read("instance", kind.text_kind(), path, Network::new(kind))
}

pub fn judge_max(instance: &str, solution: &str, cut: &str) -> Outcome {
    let network = read_instance(NetworkKind::Max, instance)?;
    let solution = read("solution", text::SOLUTION, solution, Solution::default())?;
    let cut = read("certificate", text::CUT, cut, Cut::default())?;
    let flows = flows_of(&network, &solution)?;
    test_bounds(&flows, network.values.iter().map(|&cap| (0, cap)))?;
    let nets = nets_of(&network, &flows);
    for node in 1..=network.nodes {
        let is_end = node == network.source || node == network.sink;
        refuse_if(!is_end && nets[node as usize] != 0, || at_node(node, "Balance"))?;
    }
    let value = nets[network.source as usize];
    refuse_if(value != solution.value(), || at_solution(solution.value_line(), 2, "ValueDiffers"))?;
    test_cut(&network, &flows, &cut)?;
    Ok(format!("v max {}\n", solution.value()))
}

fn test_bounds(flows: &[i64], bounds: impl Iterator<Item = (i64, i64)>) -> Result<(), String> {
    for (arc, (&flow, (low, cap))) in flows.iter().zip(bounds).enumerate() {
        refuse_if(flow < low, || at_arc(arc, "BelowLow"))?;
        refuse_if(flow > cap, || at_arc(arc, "AboveCap"))?;
    }
    Ok(())
}

fn test_cut(network: &Network, flows: &[i64], cut: &Cut) -> Result<(), String> {
    refuse_if(cut.nodes != network.nodes, || at_certificate("NodesDiffer"))?;
    refuse_if(!cut.named.contains(network.source), || at_node(network.source, "SourceOutside"))?;
    refuse_if(cut.named.contains(network.sink), || at_node(network.sink, "SinkInside"))?;
    for (arc, &(tail, head)) in network.ends.iter().enumerate() {
        let (from, to) = (cut.named.contains(tail), cut.named.contains(head));
        refuse_if(from && !to && flows[arc] != network.values[arc], || at_arc(arc, "NotSaturated"))?;
        refuse_if(!from && to && flows[arc] != 0, || at_arc(arc, "BackFlow"))?;
    }
    Ok(())
}

pub fn judge_min(instance: &str, solution: &str, potentials: &str) -> Outcome {
    let network = read_instance(NetworkKind::Min, instance)?;
    let solution = read("solution", text::SOLUTION, solution, Solution::default())?;
    let potentials = read("certificate", text::POTENTIALS, potentials, Potentials::default())?;
    let flows = flows_of(&network, &solution)?;
    test_bounds(&flows, network.bounds.iter().copied())?;
    let nets = nets_of(&network, &flows);
    for node in 1..=network.nodes {
        refuse_if(nets[node as usize] != network.supplies[node as usize] as i128, || at_node(node, "Balance"))?;
    }
    test_cost(&network, &flows, &solution)?;
    test_reduced_costs(&network, &flows, &potentials)?;
    Ok(format!("v min {}\n", solution.value()))
}

fn test_cost(network: &Network, flows: &[i64], solution: &Solution) -> Result<(), String> {
    let mut cost = 0i128;
    for (arc, (&flow, &unit_cost)) in flows.iter().zip(&network.values).enumerate() {
        cost += unit_cost as i128 * flow as i128;
        refuse_if(cost.unsigned_abs() > 10u128.pow(30), || at_arc(arc, "CostRange"))?;
    }
    refuse_if(cost != solution.value(), || at_solution(solution.value_line(), 2, "ValueDiffers"))
}

fn test_reduced_costs(network: &Network, flows: &[i64], potentials: &Potentials) -> Result<(), String> {
    refuse_if(potentials.named.nodes != network.nodes, || at_certificate("NodesDiffer"))?;
    let y = &potentials.values;
    for (arc, &(tail, head)) in network.ends.iter().enumerate() {
        let reduced_cost = network.values[arc] as i128 - y[tail as usize] + y[head as usize];
        let (low, cap) = network.bounds[arc];
        let is_tight = (reduced_cost <= 0 || flows[arc] == low) && (reduced_cost >= 0 || flows[arc] == cap);
        refuse_if(!is_tight, || at_arc(arc, "NotTight"))?;
    }
    Ok(())
}

/// The flow of each arc. The k-th entry with given ends belongs to the k-th arc with them. Where the entries leave the
/// order of the arcs, an index is built for the others.
fn flows_of(network: &Network, solution: &Solution) -> Result<Vec<i64>, String> {
    let mut flows = vec![0i64; network.ends.len()];
    let entries = &solution.entries;
    let both = entries.iter().zip(&network.ends);
    let in_order = both.take_while(|&(entry, &ends)| entry.ends == ends).count();
    for (flow, entry) in flows.iter_mut().zip(&entries[..in_order]) {
        *flow = entry.flow;
    }
    if in_order < entries.len() {
        let index = ArcIndex::build(network);
        if index.has_parallel_arcs(network) {
            put_others(network, &index, solution, in_order, &mut flows)?;
        } else {
            put_others_alone(network, &index, solution, in_order, &mut flows)?;
        }
    }
    Ok(flows)
}

/// Puts the entries that come after those in order on their arcs.
fn put_others(
    network: &Network, index: &ArcIndex, solution: &Solution, in_order: usize, flows: &mut [i64],
) -> Result<(), String> {
    let mut came = vec![0u32; network.ends.len()];
    for (k, entry) in solution.entries.iter().enumerate().skip(in_order) {
        let arc_at = |place| index.arc_at(network, entry.ends, place);
        let at_entry = |reason| at_solution(solution.entry_line(k), 0, reason);
        let first = index.first_place(network, entry.ends).ok_or_else(|| at_entry("UnknownArc"))?;
        if came[first] == 0 {
            let arcs = (first..).map_while(arc_at);
            came[first] = arcs.take_while(|&arc| arc < in_order).count() as u32;
        }
        let arc = arc_at(first + came[first] as usize).ok_or_else(|| at_entry("ArcTwice"))?;
        flows[arc] = entry.flow;
        came[first] += 1;
    }
    Ok(())
}

/// How many arcs after the last one are compared with an entry before it is searched.
const NEAR: usize = 8;

/// The same where no two arcs have the same ends. Most entries stand in the order of the arcs, with some left out.
fn put_others_alone(
    network: &Network, index: &ArcIndex, solution: &Solution, in_order: usize, flows: &mut [i64],
) -> Result<(), String> {
    let mut came = vec![false; network.ends.len()];
    came[..in_order].fill(true);
    let mut next = in_order;
    for (k, entry) in solution.entries.iter().enumerate().skip(in_order) {
        let arc_at = |place| index.arc_at(network, entry.ends, place);
        let near = network.ends[next..].iter().take(NEAR);
        let found = match near.copied().position(|ends| ends == entry.ends) {
            Some(skipped) => Some(next + skipped),
            None => index.first_place(network, entry.ends).and_then(arc_at),
        };
        let at_entry = |reason| at_solution(solution.entry_line(k), 0, reason);
        let arc = found.ok_or_else(|| at_entry("UnknownArc"))?;
        refuse_if(came[arc], || at_entry("ArcTwice"))?;
        came[arc] = true;
        flows[arc] = entry.flow;
        next = arc + 1;
    }
    Ok(())
}

/// What leaves each node, minus what enters it.
fn nets_of(network: &Network, flows: &[i64]) -> Vec<i128> {
    let mut nets = vec![0i128; network.nodes as usize + 1];
    for (&(tail, head), &flow) in network.ends.iter().zip(flows) {
        nets[tail as usize] += flow as i128;
        nets[head as usize] -= flow as i128;
    }
    nets
}

pub fn judge_paths(graph: &str, queries: &str, labels: &str) -> Outcome {
    let graph = read_instance(NetworkKind::Graph, graph)?;
    let queries = read("query", text::QUERIES, queries, Queries::default())?;
    let labels = read("certificate", text::LABELS, labels, Labels::default())?;
    refuse_if(labels.nodes != graph.nodes, || at_certificate("NodesDiffer"))?;
    for &node in &queries.sources {
        refuse_if(node > graph.nodes, || at_node(node, "QueryNode"))?;
    }
    let labelled: HashSet<u32> = labels.blocks.iter().map(|block| block.source).collect();
    for &node in &queries.sources {
        refuse_if(!labelled.contains(&node), || at_node(node, "BlockMissing"))?;
    }
    let mut nodes = vec![LabelledNode::NONE; graph.nodes as usize + 1];
    for block in 0..labels.blocks.len() {
        test_block(&graph, &labels, block, &mut nodes)?;
    }
    Ok(format!("v sp ss {}\n", queries.sources.len()))
}

#[derive(Clone, Copy)]
struct LabelledNode {
    distance: i64,
    pred: u32,
    /// Whether an arc from `pred` gives the distance.
    has_arc: bool,
}

impl LabelledNode {
    const NONE: LabelledNode = LabelledNode { distance: NO_DISTANCE, pred: 0, has_arc: false };
}

/// Tests a block in one pass over the arcs, and leaves its labels in the table of nodes.
fn test_block(graph: &Network, labels: &Labels, block: usize, nodes: &mut [LabelledNode]) -> Result<(), String> {
    if block > 0 {
        nodes.fill(LabelledNode::NONE);
    }
    let block = &labels.blocks[block];
    nodes[block.source as usize].distance = 0;
    for label in labels.labels_of(block) {
        nodes[label.id as usize] = LabelledNode { distance: label.distance, pred: label.pred, has_arc: false };
    }
    let mut failed = None; // reported only if every label has its arc
    for (arc, &(tail, head)) in graph.ends.iter().enumerate() {
        let from = nodes[tail as usize].distance;
        if from == NO_DISTANCE {
            continue;
        }
        let through = from as i128 + graph.values[arc] as i128;
        let node = &mut nodes[head as usize];
        if node.distance == NO_DISTANCE {
            failed = failed.or(Some((arc, "Escapes")));
        } else if node.distance as i128 > through {
            failed = failed.or(Some((arc, "NotShortest")));
        } else if node.distance as i128 == through && node.pred == tail {
            node.has_arc = true;
        }
    }
    for label in labels.labels_of(block) {
        refuse_if(!nodes[label.id as usize].has_arc, || at_node(label.id, "NoTightArc"))?;
    }
    failed.map_or(Ok(()), |(arc, reason)| Err(at_arc(arc, reason)))
}
