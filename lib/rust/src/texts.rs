//! The calls over DIMACS texts in memory: `&str`, bytes, or anything else that has bytes. They return each text as a
//! `String`.
//!
//! Each call returns [`Error::Refused`] for the fault of the first text that has one, else for the first test that fails,
//! [`Error::OutOfMemory`], and [`Error::UnknownAnswer`]. Its documentation names the other variants that it returns.
//! [`command`] and [`explain`], which take the words of a command, return what it prints after a refusal too.

pub use crate::commands::{command, explain, request, Access, File, Form, Ran, Request, Status};

use crate::error::NoAnswer;
use crate::ffi::{self, call};
use crate::rooms::{Room, LINE};
use crate::words::{is_feasible, is_infeasible, is_not_optimal, known, line_of, value, words};

/// Why a call over texts doesn't answer yes. A flow is the text of a solution, or `None` if its cost is out of the
/// range of such texts. A set is a text too.
pub type Error = crate::Error<Option<String>, String>;

/// A kind of text.
#[derive(Clone, Copy, Debug, PartialEq, Eq)]
pub enum Kind {
    /// A maximum flow instance.
    Max = 0,
    /// A minimum cost flow instance.
    Min = 1,
    /// A graph.
    Gr = 2,
    /// Queries.
    Query = 3,
    /// A claimed flow.
    Solution = 4,
    /// A set of nodes.
    Cut = 5,
    /// Potentials.
    Pot = 6,
    /// Labels: distances and predecessors.
    Dist = 7,
    /// Distances alone.
    Distances = 8,
}

/// A value or a cost, and the text of a cut or of potentials that shows it.
#[derive(Clone, Debug, PartialEq, Eq)]
pub struct Certified {
    /// The value of the flow, or its cost.
    pub value: i128,
    /// The text.
    pub certificate: String,
}

/// The texts of a solution and of its certificate.
#[derive(Clone, Debug, PartialEq, Eq)]
pub struct Solved {
    /// The value of the flow, or its cost.
    pub value: i128,
    /// The solution.
    pub solution: String,
    /// A cut or potentials.
    pub certificate: String,
}

/// The distance from one node to another.
#[derive(Clone, Copy, Debug, PartialEq, Eq)]
pub enum Distance {
    /// The least weight of a walk.
    Is(i128),
    /// No walk that weighs at most this radius.
    Beyond(i128),
    /// No walk.
    Unreachable,
}

/// The answer to a query from one node to another.
#[derive(Clone, Copy, Debug, PartialEq, Eq)]
pub struct Pair {
    /// FROM.
    pub source: u32,
    /// TO.
    pub target: u32,
    /// The distance.
    pub distance: Distance,
}

/// The answers to queries.
#[derive(Clone, Debug, PartialEq, Eq)]
pub enum Paths {
    /// All distances from so many sources.
    Sources(u64),
    /// From one node to another, in the order of the queries.
    Pairs(Vec<Pair>),
}

const MAX: u32 = 0;
const MIN: u32 = 1;
const INFEASIBLE: u32 = 2;
const PATHS: u32 = 3;

fn judge(kind: u32, texts: [&[u8]; 3], room: usize) -> Result<String, Error> {
    let mut lines = Room::new(room)?;
    let [instance, claim, certificate] = texts;
    let status = call!(ffi::dimacs_judge: kind, [instance], [claim], [certificate], {lines});
    line_of(status, lines)
}

/// A line, or what the status means, and the text that comes with it.
fn certify(kind: u32, instance: &[u8], claim: &[u8]) -> Result<(Result<String, Error>, String), Error> {
    let (mut line, mut shown) = (Room::new(LINE)?, Room::new(LINE + instance.len() + claim.len())?);
    let status = call!(ffi::dimacs_certify: kind, [instance], [claim], {line}, {shown});
    Ok((line_of(status, line), shown.text()?))
}

fn spread(kind: u32, instance: &[u8], solution: &[u8]) -> Result<String, Error> {
    let (mut line, mut spread) = (Room::new(LINE)?, Room::new(LINE + instance.len() + solution.len())?);
    let status = call!(ffi::dimacs_spread: kind, [instance], [solution], {line}, {spread});
    line_of(status, line)?;
    Ok(spread.text()?)
}

fn certify_flow(kind: u32, instance: &[u8], solution: &[u8]) -> Result<Certified, Error> {
    match certify(kind, instance, solution)? {
        (Ok(line), certificate) => Ok(Certified { value: value(&line)?, certificate }),
        (Err(Error::Refused(it)), better) if is_not_optimal(&it) => {
            Err(Error::NotOptimal(Some(better).filter(|it| !it.is_empty())))
        }
        (Err(error), _) => Err(error),
    }
}

/// The lines, and the texts of a solution and a certificate.
fn solve(kind: u32, instance: &[u8], queries: &[u8], limit: u64) -> Result<(String, String, String), Error> {
    // An answer to a query is a longer line than the query, and a potential or a label may be one than an arc.
    let mut lines = Room::new(LINE + 4 * queries.len())?;
    let (mut solution, mut shown) = (Room::new(LINE + instance.len())?, Room::new(LINE + 2 * instance.len())?);
    let status = call!(ffi::dimacs_solve: kind, [instance], [queries], limit, {lines}, {solution}, {shown});
    Ok((line_of(status, lines)?, solution.text()?, shown.text()?))
}

fn pair(line: &str) -> Option<Pair> {
    let (source, target, distance) = match words(line) {
        [Some("v"), Some(source), Some(target), Some("unreachable"), None, None] => {
            (source, target, Distance::Unreachable)
        }
        [Some("v"), Some(source), Some(target), Some("more"), Some(radius), None] => {
            (source, target, Distance::Beyond(radius.parse().ok()?))
        }
        [Some("v"), Some(source), Some(target), Some(distance), None, None] => {
            (source, target, Distance::Is(distance.parse().ok()?))
        }
        _ => return None,
    };
    Some(Pair { source: source.parse().ok()?, target: target.parse().ok()?, distance })
}

fn paths(lines: &str) -> Result<Paths, NoAnswer> {
    if let Some(count) = lines.strip_prefix("v sp ss ") {
        return known(count.trim_end().parse().ok(), lines).map(Paths::Sources);
    }
    let mut pairs = Vec::new();
    pairs.try_reserve_exact(lines.lines().count())?;
    for line in lines.lines() {
        pairs.push(known(pair(line), line)?);
    }
    Ok(Paths::Pairs(pairs))
}

/// Judges that a solution's flow is maximum, by a cut. Returns its value.
///
/// ```
/// # use dimacs::texts::judge_max;
/// let pipe = "p max 2 1\nn 1 s\nn 2 t\na 1 2 7\n";
/// assert_eq!(judge_max(pipe, "s 7\nf 1 2 7\n", "p cut 2 1\nu 1\n"), Ok(7));
/// assert_eq!(judge_max(pipe, "s six\n", "").unwrap_err().to_string(), "x solution 1 2 BadNumber");
/// ```
pub fn judge_max(instance: impl AsRef<[u8]>, solution: impl AsRef<[u8]>, cut: impl AsRef<[u8]>) -> Result<i128, Error> {
    Ok(value(&judge(MAX, [instance.as_ref(), solution.as_ref(), cut.as_ref()], LINE)?)?)
}

/// Judges that a solution's flow costs least, by potentials. Returns its cost.
///
/// ```
/// # use dimacs::texts::judge_min;
/// let road = "p min 2 1\nn 1 3\nn 2 -3\na 1 2 0 5 2\n";
/// assert_eq!(judge_min(road, "s 6\nf 1 2 3\n", "p pot 2 1\ny 1 2\n"), Ok(6));
/// ```
pub fn judge_min(
    instance: impl AsRef<[u8]>, solution: impl AsRef<[u8]>, potentials: impl AsRef<[u8]>,
) -> Result<i128, Error> {
    Ok(value(&judge(MIN, [instance.as_ref(), solution.as_ref(), potentials.as_ref()], LINE)?)?)
}

/// Judges that an instance has no feasible flow, by a set of nodes.
///
/// ```
/// # use dimacs::texts::judge_infeasible;
/// let road = "p min 2 1\nn 1 6\nn 2 -6\na 1 2 0 5 2\n";
/// assert_eq!(judge_infeasible(road, "p cut 2 1\nu 1\n"), Ok(()));
/// ```
pub fn judge_infeasible(instance: impl AsRef<[u8]>, set: impl AsRef<[u8]>) -> Result<(), Error> {
    judge(INFEASIBLE, [instance.as_ref(), &[], set.as_ref()], LINE).map(drop)
}

/// Judges labels, and answers queries by them.
///
/// ```
/// # use dimacs::texts::{judge_paths, Distance, Pair, Paths};
/// let answers = judge_paths("p sp 2 1\na 1 2 7\n", "p aux sp p2p 1\nq 1 2\n", "p dist 2 1\nt 1 1\nd 2 7 1\n");
/// assert_eq!(answers, Ok(Paths::Pairs(vec![Pair { source: 1, target: 2, distance: Distance::Is(7) }])));
/// ```
pub fn judge_paths(
    graph: impl AsRef<[u8]>, queries: impl AsRef<[u8]>, labels: impl AsRef<[u8]>,
) -> Result<Paths, Error> {
    let room = LINE + 4 * queries.as_ref().len();
    Ok(paths(&judge(PATHS, [graph.as_ref(), queries.as_ref(), labels.as_ref()], room)?)?)
}

/// Decides whether a solution's flow is maximum. Returns its value and a cut that [`judge_max`] accepts.
/// [`Error::NotOptimal`] if the flow is feasible and has the claimed value, but isn't maximum.
///
/// ```
/// # use dimacs::texts::{certify_max, Error};
/// let pipe = "p max 2 1\nn 1 s\nn 2 t\na 1 2 7\n";
/// assert_eq!(certify_max(pipe, "s 7\nf 1 2 7\n").unwrap().certificate, "p cut 2 1\nu 1\n");
/// assert_eq!(certify_max(pipe, "s 6\nf 1 2 6\n"), Err(Error::NotOptimal(Some("s 7\nf 1 2 7\n".to_owned()))));
/// ```
pub fn certify_max(instance: impl AsRef<[u8]>, solution: impl AsRef<[u8]>) -> Result<Certified, Error> {
    certify_flow(MAX, instance.as_ref(), solution.as_ref())
}

/// Decides whether a solution's flow costs least. Returns its cost and potentials that [`judge_min`] accepts.
/// [`Error::NotOptimal`] if the flow is feasible and has the claimed cost, but doesn't cost least.
///
/// ```
/// # use dimacs::texts::certify_min;
/// let road = "p min 2 1\nn 1 3\nn 2 -3\na 1 2 0 5 2\n";
/// assert_eq!(certify_min(road, "s 6\nf 1 2 3\n").unwrap().value, 6);
/// assert_eq!(certify_min(road, "s 7\nf 1 2 3\n").unwrap_err().to_string(), "x solution 1 2 ValueDiffers");
/// ```
pub fn certify_min(instance: impl AsRef<[u8]>, solution: impl AsRef<[u8]>) -> Result<Certified, Error> {
    certify_flow(MIN, instance.as_ref(), solution.as_ref())
}

/// Decides whether an instance has no feasible flow. Returns the text of a set that [`judge_infeasible`] accepts.
/// [`Error::Feasible`] with a solution, if there is a feasible flow.
///
/// ```
/// # use dimacs::texts::{certify_infeasible, Error};
/// assert_eq!(certify_infeasible("p min 1 0\nn 1 3\n").unwrap(), "p cut 1 1\nu 1\n");
/// assert_eq!(certify_infeasible("p min 1 0\n"), Err(Error::Feasible(Some("s 0\n".to_owned()))));
/// ```
pub fn certify_infeasible(instance: impl AsRef<[u8]>) -> Result<String, Error> {
    match certify(INFEASIBLE, instance.as_ref(), &[])? {
        (Ok(_), set) => Ok(set),
        (Err(Error::Refused(it)), flow) if is_feasible(&it) => {
            Err(Error::Feasible(Some(flow).filter(|it| !it.is_empty())))
        }
        (Err(error), _) => Err(error),
    }
}

/// Decides, block by block, whether distances are right and nodes without one unreachable. Returns the text of labels
/// that [`judge_paths`] accepts for each source.
///
/// ```
/// # use dimacs::texts::certify_paths;
/// let graph = "p sp 2 1\na 1 2 7\n";
/// assert_eq!(certify_paths(graph, "p distances 2 1\nt 1 1\nd 2 7\n").unwrap(), "p dist 2 1\nt 1 1\nd 2 7 1\n");
/// assert_eq!(certify_paths(graph, "p distances 2 1\nt 1 0\n").unwrap_err().to_string(), "x arc 1 Escapes");
/// ```
pub fn certify_paths(graph: impl AsRef<[u8]>, distances: impl AsRef<[u8]>) -> Result<String, Error> {
    let (line, labels) = certify(PATHS, graph.as_ref(), distances.as_ref())?;
    line.map(|_| labels)
}

/// Makes a maximum flow: the texts of a solution and of a cut. [`Error::GaveUp`] after `limit` flows that aren't maximum.
///
/// ```
/// let solved = dimacs::texts::solve_max("p max 2 1\nn 1 s\nn 2 t\na 1 2 7\n", dimacs::LIMIT).unwrap();
/// assert_eq!((solved.value, solved.solution.as_str()), (7, "s 7\nf 1 2 7\n"));
/// ```
pub fn solve_max(instance: impl AsRef<[u8]>, limit: u64) -> Result<Solved, Error> {
    let (line, solution, certificate) = solve(MAX, instance.as_ref(), &[], limit)?;
    Ok(Solved { value: value(&line)?, solution, certificate })
}

/// Makes a flow of least cost: the texts of a solution and of potentials. [`Error::Infeasible`] with the text of a set
/// if no flow is feasible. [`Error::GaveUp`] after `limit` steps to better flows, or if the least cost is out of range.
///
/// ```
/// # use dimacs::texts::{solve_min, Error};
/// assert_eq!(solve_min("p min 2 1\nn 1 3\nn 2 -3\na 1 2 0 5 2\n", dimacs::LIMIT).unwrap().value, 6);
/// assert!(matches!(solve_min("p min 1 0\nn 1 3\n", dimacs::LIMIT), Err(Error::Infeasible(_))));
/// ```
pub fn solve_min(instance: impl AsRef<[u8]>, limit: u64) -> Result<Solved, Error> {
    let (line, solution, certificate) = solve(MIN, instance.as_ref(), &[], limit)?;
    if is_infeasible(&line) {
        return Err(Error::Infeasible(certificate));
    }
    Ok(Solved { value: value(&line)?, solution, certificate })
}

/// Makes labels, and answers queries by them. [`Error::Refused`] also if a query names an unknown node, or a weight is
/// negative.
///
/// ```
/// # use dimacs::texts::{solve_paths, Paths};
/// let (paths, labels) = solve_paths("p sp 2 1\na 1 2 7\n", "p aux sp ss 1\ns 1\n").unwrap();
/// assert_eq!((paths, labels.as_str()), (Paths::Sources(1), "p dist 2 1\nt 1 1\nd 2 7 1\n"));
/// ```
pub fn solve_paths(graph: impl AsRef<[u8]>, queries: impl AsRef<[u8]>) -> Result<(Paths, String), Error> {
    let (lines, _, labels) = solve(PATHS, graph.as_ref(), queries.as_ref(), crate::LIMIT)?;
    Ok((paths(&lines)?, labels))
}

/// Deals a solution out to parallel arcs: adds up the entries with the same ends, and gives each arc with these ends
/// its share, within its bounds if possible. Returns the text of a solution with the claimed value and an entry for
/// every arc. [`Error::Refused`] also for an entry without an arc, and if the first arc with the same ends, which gets
/// what is too much or too little, would carry more than 64 bits.
///
/// ```
/// # use dimacs::texts::spread_max;
/// let instance = "p max 2 2\nn 1 s\nn 2 t\na 1 2 3\na 1 2 5\n";
/// assert_eq!(spread_max(instance, "s 6\nf 1 2 6\n").unwrap(), "s 6\nf 1 2 3\nf 1 2 3\n");
/// ```
pub fn spread_max(instance: impl AsRef<[u8]>, solution: impl AsRef<[u8]>) -> Result<String, Error> {
    spread(MAX, instance.as_ref(), solution.as_ref())
}

/// The same for least cost: of all such flows within the bounds, one that costs least.
///
/// ```
/// # use dimacs::texts::spread_min;
/// let instance = "p min 2 2\na 1 2 0 3 9\na 1 2 0 5 1\n";
/// assert_eq!(spread_min(instance, "s 0\nf 1 2 6\n").unwrap(), "s 0\nf 1 2 1\nf 1 2 5\n");
/// ```
pub fn spread_min(instance: impl AsRef<[u8]>, solution: impl AsRef<[u8]>) -> Result<String, Error> {
    spread(MIN, instance.as_ref(), solution.as_ref())
}

/// The canonical form of a text.
///
/// ```
/// # use dimacs::texts::{convert, Kind};
/// assert_eq!(convert(Kind::Cut, "c mine\np  cut 4 1\nu 2").unwrap(), "p cut 4 1\nu 2\n");
/// ```
pub fn convert(kind: Kind, text: impl AsRef<[u8]>) -> Result<String, Error> {
    let text = text.as_ref();
    let mut out = Room::new(LINE + text.len())?;
    let status = call!(ffi::dimacs_convert: kind as u32, [text], {out});
    line_of(status, out)
}

/// A line that describes a text.
///
/// ```
/// # use dimacs::texts::{show, Kind};
/// assert_eq!(show(Kind::Cut, "p cut 4 1\nu 2\n").unwrap(), "i cut 4 1\n");
/// ```
pub fn show(kind: Kind, text: impl AsRef<[u8]>) -> Result<String, Error> {
    let text = text.as_ref();
    let mut out = Room::new(LINE)?;
    let status = call!(ffi::dimacs_show: kind as u32, [text], {out});
    line_of(status, out)
}

#[cfg(test)]
mod tests {
    use super::*;

    #[test]
    fn answers_of_another_version_are_unknown() {
        let lines = "v 1 2|v 1 2 far|v 1 2 more|v 1 2 less 3|v 1 x 3|v sp ss|v sp ss x|v 1 4294967296 3";
        for line in lines.split('|') {
            assert_eq!(paths(line), Err(NoAnswer::Unknown(line.to_owned())));
        }
        assert_eq!(paths("v 1 2 3\n\nv 1 3 4\n"), Err(NoAnswer::Unknown(String::new())));
        assert_eq!(line_of(9, Room::new(0).unwrap()), Err(Error::UnknownAnswer("the status 9".to_owned())));
        assert_eq!(paths("v sp ss 18446744073709551615\n"), Ok(Paths::Sources(u64::MAX)));
        assert_eq!(paths(""), Ok(Paths::Pairs(Vec::new())));
    }
}
