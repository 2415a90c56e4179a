//! Runs the program over the rows of texts, judges, certifiers and solvers in `rows`, whose first lines say what cells are.
//! In a cell `;` ends a line of a text, and `any` is any text that the judge accepts.

use std::path::{Path, PathBuf};
use std::process::Command;
use std::{env, fs, process};

/// Each command and the files that it reads and makes, in the order of the cells of its rows, after the names of both.
const COMMANDS: [&str; 13] = [
    "judge-max I S C |", "judge-min I S C |", "judge-infeasible I C |", "judge-paths I S C |",
    "certify-max I S | C", "certify-min I S | C", "certify-infeasible I | C", "certify-paths I S | C",
    "solve-max I | S C", "solve-min I | S C", "solve-paths I S | C", "spread-max I S | C", "spread-min I S | C",
];

/// Each kind of text, and what a refusal calls it.
const KINDS: [&str; 9] = [
    "max instance", "min instance", "gr instance", "query query", "solution solution", "cut certificate", "pot certificate",
    "dist certificate", "distances distances",
];

/// The rows of a table, each the bytes of its cells.
fn rows(table: &str) -> Vec<Vec<Vec<u8>>> {
    let place = Path::new(env!("CARGO_MANIFEST_DIR")).join("tests/rows").join(table);
    let text = fs::read_to_string(&place).unwrap_or_else(|why| panic!("{}: {why}", place.display()));
    let rows = text.lines().filter(|line| !line.starts_with("# "));
    rows.map(|line| format!("{line} ").split(" | ").map(bytes).collect()).collect()
}

/// The bytes of a cell.
fn bytes(cell: &str) -> Vec<u8> {
    let cell = cell.strip_suffix(' ').unwrap_or(cell);
    let (mut made, mut rest) = (Vec::new(), cell.chars());
    while let Some(it) = rest.next() {
        made.push(match (it, if it == '\\' { rest.next() } else { None }) {
            (';', _) => b'\n',
            (_, Some('r')) => b'\r',
            (_, Some('t')) => b'\t',
            (_, Some('x')) => u8::from_str_radix(&rest.by_ref().take(2).collect::<String>(), 16).unwrap(),
            (_, Some(other)) => panic!("\\{other} in {cell:?}"),
            (plain, None) => u8::try_from(plain).unwrap(),
        });
    }
    made
}

/// Runs of the program in a folder of their own.
struct Runs(PathBuf);

impl Runs {
    fn new(name: &str) -> Runs {
        let folder = env::temp_dir().join(format!("dimacs-rows-{name}-{}", process::id()));
        fs::create_dir_all(&folder).unwrap();
        Runs(folder)
    }

    fn write(&self, name: &str, text: &[u8]) {
        fs::write(self.0.join(name), text).unwrap();
    }

    /// Whether a command prints this, and ends with the status that belongs to it.
    fn prints(&self, words: &str, output: &[u8]) -> Result<(), String> {
        let ran = Command::new(env!("CARGO_BIN_EXE_dimacs")).args(words.split(' ')).current_dir(&self.0).output().unwrap();
        let status = match output.first() {
            Some(b'x') => 1,
            Some(b'g') => 5,
            _ => 0,
        };
        if ran.stdout == output && ran.status.code() == Some(status) {
            return Ok(());
        }
        Err(format!("{words} ends with {} and prints {:?}", ran.status, String::from_utf8_lossy(&ran.stdout)))
    }
}

impl Drop for Runs {
    fn drop(&mut self) {
        let _ = fs::remove_dir_all(&self.0);
    }
}

/// Runs a command over a row: cells of what it reads, of what it makes, and what it prints.
fn command(runs: &Runs, words: &str, read: &[&str], made: &[&str], cells: &[Vec<u8>]) -> Result<(), String> {
    let (given, wanted) = cells.split_at(read.len());
    let output = &wanted[made.len()];
    read.iter().zip(given).for_each(|(name, text)| runs.write(name, text));
    made.iter().for_each(|name| runs.write(name, b""));
    runs.prints(words, output)?;
    for (name, wanted) in made.iter().zip(wanted) {
        let text = fs::read(runs.0.join(name)).unwrap();
        if text != *wanted && (wanted != b"any" || text.is_empty()) {
            return Err(format!("{words} makes {:?}", String::from_utf8_lossy(&text)));
        }
    }
    let judges = words.starts_with("certify-") || words.starts_with("solve-");
    let judge = match output.as_slice() {
        b"v infeasible\n" => "judge-infeasible I C".to_owned(),
        _ => words.split(" --").next().unwrap().replace("certify-", "judge-").replace("solve-", "judge-"),
    };
    if judges && output.starts_with(b"v") && words != "certify-paths I S C" { runs.prints(&judge, output) } else { Ok(()) }
}

#[test]
fn commands() {
    let runs = Runs::new("commands");
    for line in COMMANDS {
        let (read, made) = line.split_once(" |").unwrap();
        let (verb, read) = read.split_once(' ').unwrap();
        let (read, made): (Vec<_>, Vec<_>) = (read.split(' ').collect(), made.split_whitespace().collect());
        for row in rows(verb) {
            let limited = verb == "solve-max" || verb == "solve-min";
            let limit = if limited { format!(" --limit {}", String::from_utf8_lossy(&row[1])) } else { String::new() };
            let words = format!("{verb} {}{limit}", [&read[..], &made[..]].concat().join(" "));
            let done = command(&runs, &words, &read, &made, &row[1 + usize::from(limited)..]);
            done.unwrap_or_else(|why| panic!("{}: {why}", String::from_utf8_lossy(&row[0])));
        }
    }
}

#[test]
fn texts() {
    let runs = Runs::new("texts");
    for line in KINDS {
        let (kind, called) = line.split_once(' ').unwrap();
        for row in rows(kind) {
            runs.write("T", &row[1]);
            let done = match row[2].as_slice() {
                b"refused" => {
                    let refusal = [b"x ", called.as_bytes(), b" ", &row[3], b"\n"].concat();
                    runs.prints(&format!("convert {kind} T"), &refusal)
                }
                b"shown" => runs.prints(&format!("show {kind} T"), &row[3]),
                _ => runs.prints(&format!("convert {kind} T"), &row[3]),
            };
            done.unwrap_or_else(|why| panic!("{kind}, {}: {why}", String::from_utf8_lossy(&row[0])));
        }
    }
}
