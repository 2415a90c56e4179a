//! Reading a text record by record: a window over the file, a fast path for lines in the usual form, and a slow path
//! with the whole grammar for all others. Safe Rust, no crates, no intrinsics.

use std::fs::File;
use std::io::Read;

/// Why a line is refused: its field, 0 being the whole line, and the reason.
pub struct Refusal {
    pub field: u32,
    pub reason: &'static str,
}

#[inline(always)]
pub fn refuse<T>(field: u32, reason: &'static str) -> Result<T, Refusal> {
    Err(Refusal { field, reason })
}

/// Refuses a line of which this holds.
#[inline(always)]
pub fn refuse_if(is_so: bool, field: u32, reason: &'static str) -> Result<(), Refusal> {
    (!is_so).then_some(()).ok_or(Refusal { field, reason })
}

/// The fault of a text.
pub struct Fault {
    pub line: u64,
    pub refusal: Refusal,
}

const LINE_MAX: usize = 1 << 20;
const NODES_MAX: i128 = 1 << 27;
const COUNT_MAX: i128 = 1 << 28;
const WIDE_MAX: i128 = 10i128.pow(30);

/// The type of a field after the letter.
#[derive(Clone, Copy)]
pub enum FieldType {
    /// One of these words.
    Word(&'static [&'static str]),
    Nodes,
    Count,
    Id,
    Whole,
    Wide,
}

pub struct Form {
    pub letter: u8,
    pub types: &'static [FieldType],
}

/// The lines of a kind of text. Most lines have the first form, whose fields are numbers alone: the fast path reads it.
pub type Kind = &'static [Form];

use FieldType::*;

const fn form(letter: u8, types: &'static [FieldType]) -> Form {
    Form { letter, types }
}

pub static MAX: Kind =
    &[form(b'a', &[Id, Id, Whole]), form(b'n', &[Id, Word(&["s", "t"])]), form(b'p', &[Word(&["max"]), Nodes, Count])];
pub static MIN: Kind = &[
    form(b'a', &[Id, Id, Whole, Whole, Whole]),
    form(b'n', &[Id, Whole]),
    form(b'p', &[Word(&["min"]), Nodes, Count]),
];
pub static GRAPH: Kind = &[form(b'a', &[Id, Id, Whole]), form(b'p', &[Word(&["sp"]), Nodes, Count])];
pub static QUERIES: Kind = &[form(b's', &[Id]), form(b'p', &[Word(&["aux"]), Word(&["sp"]), Word(&["ss"]), Count])];
pub static SOLUTION: Kind = &[form(b'f', &[Id, Id, Whole]), form(b's', &[Wide])];
pub static CUT: Kind = &[form(b'u', &[Id]), form(b'p', &[Word(&["cut"]), Nodes, Count])];
pub static POTENTIALS: Kind = &[form(b'y', &[Id, Wide]), form(b'p', &[Word(&["pot"]), Nodes, Count])];
pub static LABELS: Kind =
    &[form(b'd', &[Id, Wide, Id]), form(b't', &[Id, Count]), form(b'p', &[Word(&["dist"]), Nodes, Count])];

const FIELDS_MAX: usize = 5;

/// A line that has one of the forms.
pub struct Record {
    pub letter: u8,
    /// The fields after the letter; a word is its place among those that are allowed.
    pub numbers: [i64; FIELDS_MAX],
    /// The field of type `Wide`, if there is one.
    pub wide: i128,
}

/// What a text is read into.
pub trait Reading {
    fn take(&mut self, record: &Record, line: u64) -> Result<(), Refusal>;
    fn finish(&self) -> Result<(), Refusal>;
}

/// How many records of one sort follow a problem line, once it came.
#[derive(Default)]
pub struct Declared {
    is_there: bool,
    pub count: usize,
}

impl Declared {
    pub fn declare(&mut self, count: i64) -> Result<(), Refusal> {
        refuse_if(self.is_there, 0, "ProblemTwice")?;
        self.is_there = true;
        self.count = count as usize;
        Ok(())
    }

    #[inline(always)]
    pub fn test(&self) -> Result<(), Refusal> {
        refuse_if(!self.is_there, 0, "ProblemMissing")
    }

    /// Whether one may follow these.
    #[inline(always)]
    pub fn test_one_more(&self, found: usize) -> Result<(), Refusal> {
        refuse_if(found == self.count, 0, "TooMany")
    }

    pub fn test_full(&self, found: usize) -> Result<(), Refusal> {
        self.test()?;
        refuse_if(found < self.count, 0, "TooFew")
    }
}

/// Gives all records of a file to the reading, up to the first fault.
pub fn read<R: Reading>(kind: Kind, path: &str, reading: &mut R) -> Result<(), Fault> {
    match kind[0].types.len() {
        1 => read_usual::<R, 1>(kind, path, reading),
        2 => read_usual::<R, 2>(kind, path, reading),
        3 => read_usual::<R, 3>(kind, path, reading),
        _ => read_usual::<R, 5>(kind, path, reading),
    }
}

/// The same, where `K` is the number of fields after the letter of a usual line.
fn read_usual<R: Reading, const K: usize>(kind: Kind, path: &str, reading: &mut R) -> Result<(), Fault> {
    let usual = &kind[0];
    let mut is_id = [false; FIELDS_MAX];
    for i in 0..K {
        is_id[i] = matches!(usual.types[i], Id);
    }
    // beyond the fields where there is none
    let wide_place = usual.types.iter().position(|t| matches!(t, Wide)).unwrap_or(FIELDS_MAX);
    let mut window = Window::open(path);
    let mut line = 0;
    loop {
        if window.can_fill_up_to(room(K)) {
            window.fill();
        }
        while let Some((numbers, length)) = usual_line::<K>(window.bytes(), usual.letter, &is_id) {
            line += 1;
            window.start += length;
            let wide = numbers.get(wide_place).map_or(0, |&number| number as i128);
            let record = Record { letter: usual.letter, numbers, wide };
            reading.take(&record, line).map_err(|refusal| Fault { line, refusal })?;
        }
        if window.can_fill_up_to(room(K)) {
            continue;
        }
        let Some(bytes) = window.next_line() else {
            break;
        };
        line += 1;
        take_line(kind, bytes, reading, line).map_err(|refusal| Fault { line, refusal })?;
    }
    reading.finish().map_err(|refusal| Fault { line: line + 1, refusal })
}

/// Bytes that are looked at for a usual line: a letter, K times a blank, a sign and 16 digits, and a line end, with
/// eight bytes to spare.
const fn room(k: usize) -> usize {
    16 + 18 * k
}

/// A usual line, and its length with its end: the letter, then K times a blank, an optional minus and 1 to 16 digits.
#[inline(always)]
fn usual_line<const K: usize>(
    bytes: &[u8], letter: u8, is_id: &[bool; FIELDS_MAX],
) -> Option<([i64; FIELDS_MAX], usize)> {
    if bytes.len() < room(K) || bytes[0] != letter {
        return None;
    }
    let mut numbers = [0i64; FIELDS_MAX];
    let mut at = 1;
    for i in 0..K {
        if bytes[at] != b' ' {
            return None;
        }
        at += 1;
        let negative = !is_id[i] && bytes[at] == b'-';
        at += negative as usize;
        let (mut value, digits) = leading_digits(bytes, at);
        if digits == 0 {
            return None;
        }
        at += digits;
        if digits == 8 && bytes[at].is_ascii_digit() {
            let (low, digits) = leading_digits(bytes, at);
            value = value * POWERS_OF_TEN[digits] + low;
            at += digits;
        }
        let value = value as i64;
        if is_id[i] && (value < 1 || value > NODES_MAX as i64) {
            return None;
        }
        numbers[i] = if negative { -value } else { value };
    }
    // a 17th digit stands here too
    if bytes[at] != b'\n' {
        return None;
    }
    Some((numbers, at + 1))
}

static POWERS_OF_TEN: [u64; 9] = [1, 10, 100, 1000, 10000, 100000, 1000000, 10000000, 100000000];

/// What the digits at the beginning of eight bytes spell, and how many they are. There is no branch on their number: a
/// loop over the digits mispredicts at the end of nearly every number.
#[inline(always)]
fn leading_digits(bytes: &[u8], at: usize) -> (u64, usize) {
    let word = u64::from_le_bytes(bytes[at..at + 8].try_into().unwrap()) ^ 0x3030303030303030;
    let no_digit = (((word & 0x7f7f7f7f7f7f7f7f) + 0x7676767676767676) | word) & 0x8080808080808080;
    let count = (no_digit.trailing_zeros() / 8) as usize;
    let digits = word.checked_shl(64 - 8 * count as u32).unwrap_or(0);
    // pairs of digits, then fours, then all eight
    let pairs = (digits & 0x0f0f0f0f0f0f0f0f).wrapping_mul(2561) >> 8;
    let fours = (pairs & 0x00ff00ff00ff00ff).wrapping_mul(6553601) >> 16;
    ((fours & 0x0000ffff0000ffff).wrapping_mul(42949672960001) >> 32, count)
}

/// Any line: skipped, refused, or given to the reading.
fn take_line<R: Reading>(kind: Kind, bytes: &[u8], reading: &mut R, line: u64) -> Result<(), Refusal> {
    record(kind, bytes)?.map_or(Ok(()), |record| reading.take(&record, line))
}

fn record(kind: Kind, line: &[u8]) -> Result<Option<Record>, Refusal> {
    refuse_if(line.len() > LINE_MAX, 0, "LineTooLong")?;
    let mut fields = line.split(|&b| b == b' ' || b == 9 || b == 13).filter(|field| !field.is_empty());
    let Some(first) = fields.next() else {
        return Ok(None);
    };
    if first[0] == b'c' {
        return Ok(None);
    }
    let Some(form) = kind.iter().find(|form| first == [form.letter]) else {
        return refuse(1, "UnknownLine");
    };
    let mut texts: [&[u8]; FIELDS_MAX] = [b""; FIELDS_MAX];
    let mut count = 0;
    for field in fields {
        if count < FIELDS_MAX {
            texts[count] = field;
        }
        count += 1;
    }
    refuse_if(count != form.types.len(), 0, "FieldCount")?;
    let mut record = Record { letter: form.letter, numbers: [0; FIELDS_MAX], wide: 0 };
    for (i, (&field_type, text)) in form.types.iter().zip(texts).enumerate() {
        let value = field(field_type, text).or_else(|reason| refuse(i as u32 + 2, reason))?;
        record.numbers[i] = value as i64;
        if let Wide = field_type {
            record.wide = value;
        }
    }
    Ok(Some(record))
}

fn field(field_type: FieldType, text: &[u8]) -> Result<i128, &'static str> {
    match field_type {
        Word(words) => {
            let place = words.iter().position(|word| word.as_bytes() == text);
            place.map(|place| place as i128).ok_or("BadWord")
        }
        Nodes => number(text, 0, NODES_MAX),
        Count => number(text, 0, COUNT_MAX),
        Id => number(text, 1, NODES_MAX),
        Whole => number(text, i64::MIN as i128, i64::MAX as i128),
        Wide => number(text, -WIDE_MAX, WIDE_MAX),
    }
}

fn number(text: &[u8], least: i128, greatest: i128) -> Result<i128, &'static str> {
    let (negative, digits) = match text[0] {
        b'-' => (true, &text[1..]),
        b'+' => (false, &text[1..]),
        _ => (false, text),
    };
    if digits.is_empty() || !digits.iter().all(u8::is_ascii_digit) {
        return Err("BadNumber");
    }
    let mut size: i128 = 0;
    for digit in digits {
        size = size * 10 + (digit - b'0') as i128;
        if size > WIDE_MAX {
            return Err("NumberRange");
        }
    }
    let value = if negative { -size } else { size };
    (least..=greatest).contains(&value).then_some(value).ok_or("NumberRange")
}

/// A piece of a file: what was pulled and not yet looked at lies from `start` to `end`.
struct Window {
    file: File,
    buffer: Vec<u8>,
    start: usize,
    end: usize,
    is_last: bool,
}

impl Window {
    fn open(path: &str) -> Window {
        let file = File::open(path).unwrap_or_else(|_| device_fault());
        Window { file, buffer: vec![0; 256 * 1024], start: 0, end: 0, is_last: false }
    }

    #[inline(always)]
    fn bytes(&self) -> &[u8] {
        &self.buffer[self.start..self.end]
    }

    #[inline(always)]
    fn can_fill_up_to(&self, count: usize) -> bool {
        self.end - self.start < count && !self.is_last
    }

    #[cold]
    fn fill(&mut self) {
        self.buffer.copy_within(self.start..self.end, 0);
        self.end -= self.start;
        self.start = 0;
        if self.end == self.buffer.len() {
            self.buffer.resize(self.buffer.len() * 2, 0);
        }
        match self.file.read(&mut self.buffer[self.end..]) {
            Ok(0) => self.is_last = true,
            Ok(count) => self.end += count,
            Err(_) => device_fault(),
        }
    }

    /// The next line without its end. A line that is too long is given as far as it was pulled.
    fn next_line(&mut self) -> Option<&[u8]> {
        let mut searched = 0;
        loop {
            if let Some(more) = self.bytes()[searched..].iter().position(|&b| b == b'\n') {
                let length = searched + more;
                return Some(self.give(length, 1));
            }
            searched = self.end - self.start;
            if self.is_last && searched == 0 {
                return None;
            }
            if self.is_last || searched > LINE_MAX {
                return Some(self.give(searched, 0));
            }
            self.fill();
        }
    }

    /// The next bytes, which are a line whose end has this many bytes.
    fn give(&mut self, length: usize, end: usize) -> &[u8] {
        let start = self.start;
        self.start += length + end;
        &self.buffer[start..start + length]
    }
}

pub fn device_fault() -> ! {
    eprintln!("baseline: device fault");
    std::process::exit(3)
}
