//! The calls that read DIMACS texts into vectors, and write them. Texts are `&str`, bytes, or anything else that has bytes.
//!
//! Nodes and arcs are numbered from 1, as in [`arrays`](crate::arrays), whose calls take what is read here. Each call that
//! reads returns [`Error::Refused`] for the fault of the text. Each call that writes returns the canonical text, which read
//! again is the same, or [`Error::PastLimit`] or [`Error::WrongLength`]. All may return [`Error::OutOfMemory`] and
//! [`Error::UnknownAnswer`].
//!
//! ```
//! # use dimacs::{arrays, reading};
//! let network = reading::read_max("p max 3 2\nn 1 s\nn 3 t\na 1 2 5\na 2 3 4\n")?;
//! let flows = vec![4; network.caps.len()]; // by a solver
//! let yes = arrays::certify_max(&network.instance(), &flows)?;
//! assert_eq!(yes.value, 4);
//! # Ok::<(), arrays::Error>(())
//! ```

use crate::arrays::{test, Error, Graph, MaxInstance, MinInstance, UNREACHED};
use crate::ffi::{self, bytes, call};
use crate::rooms::{Room, LINE};
use crate::words::line_of;

pub use crate::instances::{Arcs, GraphVectors, MaxVectors, MinVectors};

/// A solution over an instance.
#[derive(Clone, Debug, PartialEq, Eq)]
pub struct Solution {
    /// The value that it claims.
    pub value: i64,
    /// An amount for each arc.
    pub flows: Vec<i64>,
}

/// What queries ask for.
#[derive(Clone, Debug, PartialEq, Eq)]
pub enum Queries {
    /// The distances from each of these nodes to all nodes.
    Sources(Vec<u32>),
    /// The distances from one node to another.
    Pairs(Vec<(u32, u32)>),
}

/// The block of a source in labels.
#[derive(Clone, Debug, PartialEq, Eq)]
pub struct Labels {
    /// The distances, by node: [`UNREACHED`] for a node without a label.
    pub distances: Vec<i64>,
    /// The predecessors, by node: 0 at the source and for a node without a label.
    pub predecessors: Vec<u32>,
    /// If there is one, the nodes without a label are farther than that, and may be reached.
    pub radius: Option<i64>,
}

/// As many items as a text has at most, each of which takes so many bytes.
fn most(text: &[u8], bytes: usize) -> usize {
    (text.len() + 1) / bytes
}

/// Reads a maximum flow instance.
///
/// ```
/// # use dimacs::reading::read_max;
/// let pipe = read_max("p max 2 1\nn 1 s\nn 2 t\na 1 2 7\n").unwrap();
/// assert_eq!((pipe.nodes, pipe.source, pipe.sink, pipe.caps), (2, 1, 2, vec![7]));
/// assert_eq!(read_max("p max 2 1\nn 1 s\nn 2 t\na 1 3 7\n").unwrap_err().to_string(), "x instance 4 3 NodeRange");
/// ```
pub fn read_max(text: impl AsRef<[u8]>) -> Result<MaxVectors, Error> {
    let text = text.as_ref();
    let (mut line, most) = (Room::new(LINE)?, most(text, 8));
    let (mut tails, mut heads, mut caps) = (Room::new(most)?, Room::new(most)?, Room::new(most)?);
    let (mut nodes, mut source, mut sink, mut arcs) = (0, 0, 0, 0);
    let status = call!(ffi::dimacs_read_max: [text], {line}, &mut nodes, &mut source, &mut sink,
                       (tails), (heads), (caps), &mut arcs);
    line_of(status, line)?;
    let (tails, heads, caps) = (tails.first(arcs), heads.first(arcs), caps.first(arcs));
    Ok(MaxVectors { nodes, source, sink, tails, heads, caps })
}

/// Reads a minimum cost flow instance.
///
/// ```
/// # use dimacs::reading::read_min;
/// let road = read_min("p min 2 1\nn 1 3\nn 2 -3\na 1 2 0 5 2\n").unwrap();
/// assert_eq!((road.costs, road.supplies), (vec![2], vec![3, -3]));
/// ```
pub fn read_min(text: impl AsRef<[u8]>) -> Result<MinVectors, Error> {
    let text = text.as_ref();
    let most = most(text, 12);
    let (mut tails, mut heads) = (Room::new(most)?, Room::new(most)?);
    let (mut lows, mut caps, mut costs) = (Room::new(most)?, Room::new(most)?, Room::new(most)?);
    let (mut line, mut supplies) = (Room::new(LINE)?, Room::new(most)?);
    let (mut nodes, mut arcs) = (0, 0);
    let status = call!(ffi::dimacs_read_min: [text], {line}, &mut nodes,
                       (tails), (heads), (lows), (caps), (costs), &mut arcs, {supplies});
    line_of(status, line)?;
    let (tails, heads, lows) = (tails.first(arcs), heads.first(arcs), lows.first(arcs));
    let (caps, costs, supplies) = (caps.first(arcs), costs.first(arcs), supplies.take());
    Ok(MinVectors { nodes, tails, heads, lows, caps, costs, supplies })
}

/// Reads a graph.
///
/// ```
/// # use dimacs::reading::read_graph;
/// assert_eq!(read_graph("p sp 2 1\na 1 2 7\n").unwrap().weights, [7]);
/// ```
pub fn read_graph(text: impl AsRef<[u8]>) -> Result<GraphVectors, Error> {
    let text = text.as_ref();
    let (mut line, most) = (Room::new(LINE)?, most(text, 8));
    let (mut tails, mut heads, mut weights) = (Room::new(most)?, Room::new(most)?, Room::new(most)?);
    let (mut nodes, mut arcs) = (0, 0);
    let status = call!(ffi::dimacs_read_graph: [text], {line}, &mut nodes, (tails), (heads), (weights), &mut arcs);
    line_of(status, line)?;
    Ok(GraphVectors { nodes, tails: tails.first(arcs), heads: heads.first(arcs), weights: weights.first(arcs) })
}

/// Reads queries.
///
/// ```
/// # use dimacs::reading::{read_queries, Queries};
/// assert_eq!(read_queries("p aux sp p2p 1\nq 1 2\n"), Ok(Queries::Pairs(vec![(1, 2)])));
/// assert_eq!(read_queries("p aux sp ss 1\ns 1\n"), Ok(Queries::Sources(vec![1])));
/// ```
pub fn read_queries(text: impl AsRef<[u8]>) -> Result<Queries, Error> {
    let text = text.as_ref();
    let (mut line, most) = (Room::new(LINE)?, most(text, 4));
    let (mut froms, mut tos) = (Room::new(most)?, Room::new(most)?);
    let (mut pairs, mut count) = (0, 0);
    let status = call!(ffi::dimacs_read_queries: [text], {line}, &mut pairs, (froms), (tos), &mut count);
    line_of(status, line)?;
    let froms = froms.first(count);
    if pairs == 0 {
        return Ok(Queries::Sources(froms));
    }
    let mut found = Vec::new();
    found.try_reserve_exact(count).map_err(|_| Error::OutOfMemory)?;
    found.extend(froms.into_iter().zip(tos.first(count)));
    Ok(Queries::Pairs(found))
}

/// Reads a solution over the arcs of an instance. The k-th entry with given ends belongs to the k-th arc with them; an arc
/// without one carries 0. [`Error::Refused`] also for an entry that belongs to no arc, and for a value that doesn't fit in 64
/// bits. [`Error::WrongLength`] and [`Error::PastLimit`] of the arcs.
///
/// ```
/// # use dimacs::reading::{read_max, read_solution};
/// let pipe = read_max("p max 2 2\nn 1 s\nn 2 t\na 1 2 7\na 1 2 5\n").unwrap();
/// assert_eq!(read_solution("s 9\nf 1 2 7\nf 1 2 2\n", pipe.instance()).unwrap().flows, [7, 2]);
/// assert_eq!(read_solution("s 9\nf 2 1 9\n", pipe.instance()).unwrap_err().to_string(), "x solution 2 0 UnknownArc");
/// ```
pub fn read_solution<'a>(text: impl AsRef<[u8]>, arcs: impl Into<Arcs<'a>>) -> Result<Solution, Error> {
    let (text, Arcs { nodes, tails, heads }) = (text.as_ref(), arcs.into());
    test("heads", heads.len(), tails.len())?;
    let (mut line, mut flows, mut value) = (Room::new(LINE)?, Room::new(tails.len())?, 0);
    let status = call!(ffi::dimacs_read_solution: nodes, [tails], [heads], [text], {line}, &mut value, {flows});
    line_of(status, line)?;
    Ok(Solution { value, flows: flows.take() })
}

/// Reads a cut or a set: by node, whether it is inside.
///
/// ```
/// # use dimacs::reading::read_cut;
/// assert_eq!(read_cut("p cut 3 1\nu 2\n"), Ok(vec![false, true, false]));
/// ```
pub fn read_cut(text: impl AsRef<[u8]>) -> Result<Vec<bool>, Error> {
    let text = text.as_ref();
    let (mut line, mut inside) = (Room::new(LINE)?, Room::new(most(text, 8))?);
    let status = call!(ffi::dimacs_read_cut: [text], {line}, {inside});
    line_of(status, line)?;
    Ok(inside.marks()?)
}

/// Reads potentials, by node. [`Error::Refused`] also for the first one that doesn't fit in 64 bits.
///
/// ```
/// # use dimacs::reading::read_potentials;
/// assert_eq!(read_potentials("p pot 3 1\ny 2 -7\n"), Ok(vec![0, -7, 0]));
/// ```
pub fn read_potentials(text: impl AsRef<[u8]>) -> Result<Vec<i64>, Error> {
    let text = text.as_ref();
    let (mut line, mut potentials) = (Room::new(LINE)?, Room::new(most(text, 8))?);
    let status = call!(ffi::dimacs_read_potentials: [text], {line}, {potentials});
    line_of(status, line)?;
    Ok(potentials.take())
}

/// Reads the block of a source from distances, by node: [`UNREACHED`] for a node without a line.
/// [`Error::Refused`] also if the source has no block, or if a distance is 2^63 - 1 or more.
///
/// ```
/// # use dimacs::{arrays::UNREACHED, reading::read_distances};
/// let text = "p distances 3 1\nt 1 1\nd 2 7\n";
/// assert_eq!(read_distances(text, 1), Ok(vec![0, 7, UNREACHED]));
/// assert_eq!(read_distances(text, 2).unwrap_err().to_string(), "x node 2 BlockMissing");
/// ```
pub fn read_distances(text: impl AsRef<[u8]>, source: u32) -> Result<Vec<i64>, Error> {
    let text = text.as_ref();
    let (mut line, mut distances) = (Room::new(LINE)?, Room::new(most(text, 8))?);
    let status = call!(ffi::dimacs_read_distances: [text], source, {line}, {distances});
    line_of(status, line)?;
    Ok(distances.take())
}

/// Reads the block of a source from labels. [`Error::Refused`] as by [`read_distances`].
///
/// ```
/// # use dimacs::reading::{read_labels, Labels};
/// let text = "p dist 2 1\nt 1 1\nd 2 7 1\n";
/// assert_eq!(read_labels(text, 1), Ok(Labels { distances: vec![0, 7], predecessors: vec![0, 1], radius: None }));
/// ```
pub fn read_labels(text: impl AsRef<[u8]>, source: u32) -> Result<Labels, Error> {
    let text = text.as_ref();
    let (mut line, mut distances, mut radius) = (Room::new(LINE)?, Room::new(most(text, 8))?, 0);
    let mut predecessors = Room::new(most(text, 8))?;
    let status = call!(ffi::dimacs_read_labels: [text], source, {line}, &mut radius, {distances}, {predecessors});
    line_of(status, line)?;
    let radius = Some(radius).filter(|&it| it != UNREACHED);
    Ok(Labels { distances: distances.take(), predecessors: predecessors.take(), radius })
}

/// Makes a call that writes about so many lines.
fn write(lines: usize, call: impl FnOnce(&mut Room<u8>) -> Result<u32, Error>) -> Result<String, Error> {
    let mut text = Room::new(LINE + 32 * lines)?;
    let status = call(&mut text)?;
    line_of(status, text)
}

/// The text of a maximum flow instance.
///
/// ```
/// # use dimacs::{arrays::MaxInstance, reading::write_max};
/// let pipe = MaxInstance { nodes: 2, source: 1, sink: 2, tails: &[1], heads: &[2], caps: &[7] };
/// assert_eq!(write_max(&pipe).unwrap(), "p max 2 1\nn 1 s\nn 2 t\na 1 2 7\n");
/// ```
pub fn write_max(instance: &MaxInstance) -> Result<String, Error> {
    let raw = instance.raw()?;
    write(instance.tails.len(), |text| Ok(call!(ffi::dimacs_write_max: &raw, {text})))
}

/// The text of a minimum cost flow instance.
///
/// ```
/// # use dimacs::reading::{read_min, write_min};
/// let text = "p min 2 1\nn 1 3\nn 2 -3\na 1 2 0 5 2\n";
/// assert_eq!(write_min(&read_min(text).unwrap().instance()).unwrap(), text);
/// ```
pub fn write_min(instance: &MinInstance) -> Result<String, Error> {
    let (raw, lines) = (instance.raw()?, instance.tails.len() + instance.supplies.len());
    write(lines, |text| Ok(call!(ffi::dimacs_write_min: &raw, {text})))
}

/// The text of a graph.
///
/// ```
/// # use dimacs::{arrays::Graph, reading::write_graph};
/// let street = Graph { nodes: 2, tails: &[1], heads: &[2], weights: &[7] };
/// assert_eq!(write_graph(&street).unwrap(), "p sp 2 1\na 1 2 7\n");
/// ```
pub fn write_graph(graph: &Graph) -> Result<String, Error> {
    let raw = graph.raw()?;
    write(graph.tails.len(), |text| Ok(call!(ffi::dimacs_write_graph: &raw, {text})))
}

/// The text of a solution that claims a value, with an entry for each arc of an instance, in their order.
///
/// ```
/// # use dimacs::reading::{write_solution, Arcs};
/// let arcs = Arcs { nodes: 3, tails: &[1, 2], heads: &[2, 3] };
/// assert_eq!(write_solution(4, arcs, &[4, 4]).unwrap(), "s 4\nf 1 2 4\nf 2 3 4\n");
/// ```
pub fn write_solution<'a>(value: i64, arcs: impl Into<Arcs<'a>>, flows: &[i64]) -> Result<String, Error> {
    let Arcs { nodes, tails, heads } = arcs.into();
    test("heads", heads.len(), tails.len())?;
    test("flows", flows.len(), tails.len())?;
    write(flows.len(), |text| Ok(call!(ffi::dimacs_write_solution: value, nodes, [tails], [heads], [flows], {text})))
}

/// The text of a cut or a set, given by node.
///
/// ```
/// # use dimacs::reading::write_cut;
/// assert_eq!(write_cut(&[false, true]).unwrap(), "p cut 2 1\nu 2\n");
/// ```
pub fn write_cut(inside: &[bool]) -> Result<String, Error> {
    write(inside.len() / 4, |text| Ok(call!(ffi::dimacs_write_cut: [bytes(inside)], {text})))
}

/// The text of potentials, given by node.
///
/// ```
/// # use dimacs::reading::write_potentials;
/// assert_eq!(write_potentials(&[0, -7]).unwrap(), "p pot 2 1\ny 2 -7\n");
/// ```
pub fn write_potentials(potentials: &[i64]) -> Result<String, Error> {
    write(potentials.len(), |text| Ok(call!(ffi::dimacs_write_potentials: [potentials], {text})))
}

/// The text of queries.
///
/// ```
/// # use dimacs::reading::{write_queries, Queries};
/// assert_eq!(write_queries(&Queries::Pairs(vec![(1, 2)])).unwrap(), "p aux sp p2p 1\nq 1 2\n");
/// assert_eq!(write_queries(&Queries::Sources(vec![1])).unwrap(), "p aux sp ss 1\ns 1\n");
/// ```
pub fn write_queries(queries: &Queries) -> Result<String, Error> {
    let (mut froms, mut tos) = (Vec::new(), Vec::new());
    let froms = match queries {
        Queries::Sources(sources) => sources,
        Queries::Pairs(pairs) => {
            froms.try_reserve_exact(pairs.len()).map_err(|_| Error::OutOfMemory)?;
            tos.try_reserve_exact(pairs.len()).map_err(|_| Error::OutOfMemory)?;
            froms.extend(pairs.iter().map(|it| it.0));
            tos.extend(pairs.iter().map(|it| it.1));
            &froms
        }
    };
    let is_pairs = u32::from(matches!(queries, Queries::Pairs(_)));
    write(froms.len(), |text| Ok(call!(ffi::dimacs_write_queries: is_pairs, [froms], [tos], {text})))
}

/// The text of distances from a source, given by node: one block, with a line for each other node that is reached.
/// [`Error::Refused`] if the distance of the source isn't 0.
///
/// ```
/// # use dimacs::{arrays::UNREACHED, reading::write_distances};
/// assert_eq!(write_distances(1, &[0, 7, UNREACHED]).unwrap(), "p distances 3 1\nt 1 1\nd 2 7\n");
/// ```
pub fn write_distances(source: u32, distances: &[i64]) -> Result<String, Error> {
    write(distances.len(), |text| Ok(call!(ffi::dimacs_write_distances: source, [distances], {text})))
}

/// The same as labels, with predecessors that lead back to the source. [`Error::Refused`] as by
/// [`judge_paths`](crate::arrays::judge_paths), up to `PredUnknown`.
///
/// ```
/// # use dimacs::reading::write_labels;
/// assert_eq!(write_labels(1, &[0, 7], &[0, 1]).unwrap(), "p dist 2 1\nt 1 1\nd 2 7 1\n");
/// assert_eq!(write_labels(1, &[0, 7], &[0, 2]).unwrap_err().to_string(), "x node 2 PredUnknown");
/// ```
pub fn write_labels(source: u32, distances: &[i64], predecessors: &[u32]) -> Result<String, Error> {
    test("predecessors", predecessors.len(), distances.len())?;
    write(distances.len(), |text| Ok(call!(ffi::dimacs_write_labels: source, [distances], [predecessors], {text})))
}
