//! What a plain Rust program takes for the work of `dimacs`, without contracts and proofs: the measure of its speed.
//!
//! It reads with one window over the file, eight digits at a time, keeps 16 bytes for an arc of a graph, and makes
//! all tests of `dimacs` in the same order, so that it prints the same lines. What it leaves out: it doesn't count
//! lines against a limit; it reads no queries for pairs; it takes the memory for a table by node as soon as NODES is
//! declared; and where there is no memory, or a label has more than 61 bits, it is ended.
//!
//! ```text
//! baseline convert max|min|gr FILE
//! baseline show max|min|gr FILE
//! baseline judge-max INSTANCE SOLUTION CUT
//! baseline judge-min INSTANCE SOLUTION POTENTIALS
//! baseline judge-paths GRAPH QUERY LABELS
//! ```

mod by_node;
mod claims;
mod judges;
mod network;
mod output;
mod text;

use judges::{judge_max, judge_min, judge_paths, read_instance};
use network::{print, summary, NetworkKind};

fn main() {
    let words: Vec<String> = std::env::args().skip(1).collect();
    let words: Vec<&str> = words.iter().map(String::as_str).collect();
    let outcome = match words[..] {
        ["convert", kind, file] => read_instance(network_kind(kind), file).map(|network| print(&network)),
        ["show", kind, file] => read_instance(network_kind(kind), file).map(|network| summary(&network) + "\n"),
        ["judge-max", instance, solution, cut] => judge_max(instance, solution, cut),
        ["judge-min", instance, solution, potentials] => judge_min(instance, solution, potentials),
        ["judge-paths", graph, queries, labels] => judge_paths(graph, queries, labels),
        _ => usage(),
    };
    let status = outcome.is_err().into();
    print!("{}", outcome.unwrap_or_else(|line| line));
    std::process::exit(status)
}

fn usage() -> ! {
    eprintln!("baseline: usage");
    std::process::exit(2)
}

fn network_kind(word: &str) -> NetworkKind {
    match word {
        "max" => NetworkKind::Max,
        "min" => NetworkKind::Min,
        "gr" => NetworkKind::Graph,
        _ => usage(),
    }
}
