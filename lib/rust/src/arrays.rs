//! The calls over slices.
//!
//! Nodes and arcs are numbered from 1. The k-th items of the slices by arc describe the k-th arc, and the k-th item of a
//! slice by node belongs to node k. Each call returns [`Error::WrongLength`] if a slice has a wrong length,
//! [`Error::PastLimit`] if a number of the instance is past its limit, [`Error::OutOfMemory`], and
//! [`Error::UnknownAnswer`]. Its documentation names the other variants that it returns.

use crate::ffi::{self, bytes, call};
use crate::rooms::{room_for, Room, LINE};
use crate::words::{is_feasible, is_infeasible, is_not_optimal, line_of, value};

pub use crate::instances::{Graph, MaxInstance, MinInstance};

/// Why a call over slices doesn't answer yes. A flow is an amount for each arc, and a set has for each node whether it
/// is inside.
pub type Error = crate::Error<Vec<i64>, Vec<bool>>;

/// The distance of a node that isn't reached. Its predecessor is 0, as that of the source.
pub const UNREACHED: i64 = i64::MAX;

/// A maximum flow's value, and a cut that shows it: by node, whether it is on the source's side.
#[derive(Clone, Debug, PartialEq, Eq)]
pub struct CertifiedMax {
    /// The value, which may have more than 64 bits.
    pub value: i128,
    /// The cut.
    pub inside: Vec<bool>,
}

/// A least cost, and potentials that show it, by node.
#[derive(Clone, Debug, PartialEq, Eq)]
pub struct CertifiedMin {
    /// The cost, which may have more than 64 bits.
    pub value: i128,
    /// The potentials.
    pub potentials: Vec<i64>,
}

/// A maximum flow, with the cut that shows it.
#[derive(Clone, Debug, PartialEq, Eq)]
pub struct SolvedMax {
    /// The value.
    pub value: i128,
    /// An amount for each arc.
    pub flows: Vec<i64>,
    /// The cut.
    pub inside: Vec<bool>,
}

/// A flow of least cost, with the potentials that show it.
#[derive(Clone, Debug, PartialEq, Eq)]
pub struct SolvedMin {
    /// The cost.
    pub value: i128,
    /// An amount for each arc.
    pub flows: Vec<i64>,
    /// The potentials.
    pub potentials: Vec<i64>,
}

/// Distances from a source, by node, with the predecessors that show them.
#[derive(Clone, Debug, PartialEq, Eq)]
pub struct SolvedPaths {
    /// The distances, [`UNREACHED`] for a node that isn't reached.
    pub distances: Vec<i64>,
    /// The predecessors.
    pub predecessors: Vec<u32>,
}

/// The library tests lengths too, but doesn't report which one is wrong.
pub(crate) fn test(array: &'static str, items: usize, wanted: usize) -> Result<(), Error> {
    if items == wanted {
        return Ok(());
    }
    Err(Error::WrongLength { array, items, wanted })
}

/// The line of a call that hands out better flows.
fn line_or_better(status: u32, line: Room<u8>, better: Room<i64>) -> Result<String, Error> {
    match line_of(status, line) {
        Err(Error::Refused(it)) if is_not_optimal(&it) => Err(Error::NotOptimal(better.take())),
        other => other,
    }
}

/// Judges that a flow, by arc, is maximum, by a cut, by node. Returns its value. [`Error::Refused`] for the first test
/// that fails.
///
/// ```
/// # use dimacs::arrays::{judge_max, MaxInstance};
/// let pipe = MaxInstance { nodes: 2, source: 1, sink: 2, tails: &[1], heads: &[2], caps: &[7] };
/// assert_eq!(judge_max(&pipe, &[7], &[true, false]), Ok(7));
/// assert_eq!(judge_max(&pipe, &[6], &[true, false]).unwrap_err().to_string(), "x arc 1 NotSaturated");
/// ```
pub fn judge_max(instance: &MaxInstance, flows: &[i64], inside: &[bool]) -> Result<i128, Error> {
    test("flows", flows.len(), instance.tails.len())?;
    test("inside", inside.len(), instance.nodes as usize)?;
    let (instance, mut line) = (instance.raw()?, Room::new(LINE)?);
    let status = call!(ffi::dimacs_judge_max_arrays: &instance, [flows], [bytes(inside)], {line});
    Ok(value(&line_of(status, line)?)?)
}

/// Judges that a flow, by arc, costs least, by potentials of the nodes. Returns its cost. The reduced cost of an arc is
/// its cost, minus the potential of its tail, plus that of its head. [`Error::Refused`] for the first test that fails.
///
/// ```
/// # use dimacs::arrays::{judge_min, MinInstance};
/// let road = MinInstance {
///     nodes: 2, tails: &[1, 1], heads: &[2, 2], lows: &[0, 0], caps: &[3, 9], costs: &[1, 2], supplies: &[5, -5],
/// };
/// assert_eq!(judge_min(&road, &[3, 2], &[2, 0]), Ok(7));
/// assert_eq!(judge_min(&road, &[2, 3], &[2, 0]).unwrap_err().to_string(), "x arc 1 NotTight");
/// ```
pub fn judge_min(instance: &MinInstance, flows: &[i64], potentials: &[i64]) -> Result<i128, Error> {
    test("flows", flows.len(), instance.tails.len())?;
    test("potentials", potentials.len(), instance.nodes as usize)?;
    let (instance, mut line) = (instance.raw()?, Room::new(LINE)?);
    let status = call!(ffi::dimacs_judge_min_arrays: &instance, [flows], [potentials], {line});
    Ok(value(&line_of(status, line)?)?)
}

/// Judges that an instance has no feasible flow, by a set of nodes. [`Error::Refused`] if the set isn't violated. There
/// may still be no feasible flow, by another set.
///
/// ```
/// # use dimacs::arrays::{judge_infeasible, MinInstance};
/// let road = MinInstance {
///     nodes: 2, tails: &[1], heads: &[2], lows: &[0], caps: &[3], costs: &[1], supplies: &[5, -5],
/// };
/// assert_eq!(judge_infeasible(&road, &[true, false]), Ok(()));
/// ```
pub fn judge_infeasible(instance: &MinInstance, inside: &[bool]) -> Result<(), Error> {
    test("inside", inside.len(), instance.nodes as usize)?;
    let (instance, mut line) = (instance.raw()?, Room::new(LINE)?);
    let status = call!(ffi::dimacs_judge_infeasible_arrays: &instance, [bytes(inside)], {line});
    line_of(status, line).map(drop)
}

/// Judges that distances from the source, by node, are the least weights of walks, by predecessors of the nodes.
/// [`Error::Refused`] for the first test that fails.
///
/// ```
/// # use dimacs::arrays::{judge_paths, Graph, UNREACHED};
/// let street = Graph { nodes: 3, tails: &[1], heads: &[2], weights: &[300] };
/// assert_eq!(judge_paths(&street, 1, &[0, 300, UNREACHED], &[0, 1, 0]), Ok(()));
/// assert_eq!(judge_paths(&street, 1, &[0, 299, UNREACHED], &[0, 1, 0]).unwrap_err().to_string(), "x node 2 NoTightArc");
/// ```
pub fn judge_paths(graph: &Graph, source: u32, distances: &[i64], predecessors: &[u32]) -> Result<(), Error> {
    test("distances", distances.len(), graph.nodes as usize)?;
    test("predecessors", predecessors.len(), graph.nodes as usize)?;
    let (graph, mut line) = (graph.raw()?, Room::new(LINE)?);
    let status = call!(ffi::dimacs_judge_paths_arrays: &graph, source, [distances], [predecessors], {line});
    line_of(status, line).map(drop)
}

/// Decides whether a flow, by arc, is maximum. Returns its value and a cut that [`judge_max`] accepts.
/// [`Error::NotOptimal`] with a feasible flow of greater value, if the flow is feasible but not maximum.
/// [`Error::Refused`] if it isn't feasible. The number of arcs doesn't bound the time.
///
/// ```
/// # use dimacs::arrays::{certify_max, Error, MaxInstance};
/// let pipe = MaxInstance { nodes: 2, source: 1, sink: 2, tails: &[1], heads: &[2], caps: &[7] };
/// assert_eq!(certify_max(&pipe, &[7]).unwrap().inside, [true, false]);
/// assert_eq!(certify_max(&pipe, &[6]), Err(Error::NotOptimal(vec![7])));
/// assert_eq!(certify_max(&pipe, &[]), Err(Error::WrongLength { array: "flows", items: 0, wanted: 1 }));
/// ```
pub fn certify_max(instance: &MaxInstance, flows: &[i64]) -> Result<CertifiedMax, Error> {
    test("flows", flows.len(), instance.tails.len())?;
    let (mut line, mut inside) = (Room::new(LINE)?, Room::<u8>::new(room_for(instance.nodes))?);
    let (instance, mut better) = (instance.raw()?, Room::new(flows.len())?);
    let status = call!(ffi::dimacs_certify_max_arrays: &instance, [flows], {line}, {inside}, {better});
    let line = line_or_better(status, line, better)?;
    Ok(CertifiedMax { value: value(&line)?, inside: inside.marks()? })
}

/// Decides whether a flow, by arc, costs least. Returns its cost and potentials that [`judge_min`] accepts.
/// [`Error::GaveUp`] if the flow costs least, but the potentials found don't fit in 64 bits. [`Error::NotOptimal`] with
/// a cheaper feasible flow, if the flow is feasible but doesn't cost least. [`Error::Refused`] if it isn't feasible.
///
/// ```
/// # use dimacs::arrays::{certify_min, Error, MinInstance};
/// let road = MinInstance {
///     nodes: 2, tails: &[1, 1], heads: &[2, 2], lows: &[0, 0], caps: &[3, 9], costs: &[1, 2], supplies: &[5, -5],
/// };
/// assert_eq!(certify_min(&road, &[3, 2]).unwrap().value, 7);
/// assert_eq!(certify_min(&road, &[2, 3]), Err(Error::NotOptimal(vec![3, 2])));
/// assert_eq!(certify_min(&road, &[3, 3]).unwrap_err().to_string(), "x node 1 Balance");
/// ```
pub fn certify_min(instance: &MinInstance, flows: &[i64]) -> Result<CertifiedMin, Error> {
    test("flows", flows.len(), instance.tails.len())?;
    let (mut line, mut potentials) = (Room::new(LINE)?, Room::new(room_for(instance.nodes))?);
    let (instance, mut better) = (instance.raw()?, Room::new(flows.len())?);
    let status = call!(ffi::dimacs_certify_min_arrays: &instance, [flows], {line}, {potentials}, {better});
    let line = line_or_better(status, line, better)?;
    Ok(CertifiedMin { value: value(&line)?, potentials: potentials.take() })
}

/// Decides whether an instance has no feasible flow. Returns a set that [`judge_infeasible`] accepts.
/// [`Error::Feasible`] with a feasible flow, if there is one. The number of arcs doesn't bound the time.
///
/// ```
/// # use dimacs::arrays::{certify_infeasible, Error, MinInstance};
/// let mut road = MinInstance {
///     nodes: 2, tails: &[1], heads: &[2], lows: &[0], caps: &[3], costs: &[1], supplies: &[5, -5],
/// };
/// assert_eq!(certify_infeasible(&road), Ok(vec![true, false]));
/// road.supplies = &[2, -2];
/// assert_eq!(certify_infeasible(&road), Err(Error::Feasible(vec![2])));
/// ```
pub fn certify_infeasible(instance: &MinInstance) -> Result<Vec<bool>, Error> {
    let (mut line, mut inside) = (Room::new(LINE)?, Room::<u8>::new(room_for(instance.nodes))?);
    let (mut flows, instance) = (Room::new(instance.tails.len())?, instance.raw()?);
    let status = call!(ffi::dimacs_certify_infeasible_arrays: &instance, {line}, {inside}, {flows});
    match line_of(status, line) {
        Ok(_) => Ok(inside.marks()?),
        Err(Error::Refused(it)) if is_feasible(&it) => Err(Error::Feasible(flows.take())),
        Err(error) => Err(error),
    }
}

/// Decides whether distances from the source, by node, are the least weights of walks. Returns predecessors that
/// [`judge_paths`] accepts. [`Error::Refused`] for the first test that fails. The number of arcs and nodes bounds the
/// time.
///
/// ```
/// # use dimacs::arrays::{certify_paths, Graph, UNREACHED};
/// let street = Graph { nodes: 3, tails: &[1], heads: &[2], weights: &[300] };
/// assert_eq!(certify_paths(&street, 1, &[0, 300, UNREACHED]), Ok(vec![0, 1, 0]));
/// assert_eq!(certify_paths(&street, 1, &[0, 301, UNREACHED]).unwrap_err().to_string(), "x arc 1 NotShortest");
/// ```
pub fn certify_paths(graph: &Graph, source: u32, distances: &[i64]) -> Result<Vec<u32>, Error> {
    test("distances", distances.len(), graph.nodes as usize)?;
    let (mut line, mut predecessors) = (Room::new(LINE)?, Room::new(room_for(graph.nodes))?);
    let graph = graph.raw()?;
    let status = call!(ffi::dimacs_certify_paths_arrays: &graph, source, [distances], {line}, {predecessors});
    line_of(status, line)?;
    Ok(predecessors.take())
}

/// Makes a maximum flow, and a cut that [`judge_max`] accepts. [`Error::GaveUp`] after `limit` flows that aren't
/// maximum.
///
/// ```
/// # use dimacs::arrays::{solve_max, MaxInstance};
/// let pipes = MaxInstance { nodes: 3, source: 1, sink: 3, tails: &[1, 2], heads: &[2, 3], caps: &[5, 4] };
/// assert_eq!(solve_max(&pipes, dimacs::LIMIT).unwrap().flows, [4, 4]);
/// ```
pub fn solve_max(instance: &MaxInstance, limit: u64) -> Result<SolvedMax, Error> {
    let (mut line, mut flows) = (Room::new(LINE)?, Room::new(instance.tails.len())?);
    let (mut inside, instance) = (Room::<u8>::new(room_for(instance.nodes))?, instance.raw()?);
    let status = call!(ffi::dimacs_solve_max_arrays: &instance, limit, {line}, {flows}, {inside});
    let line = line_of(status, line)?;
    Ok(SolvedMax { value: value(&line)?, flows: flows.take(), inside: inside.marks()? })
}

/// Makes a flow of least cost, and potentials that [`judge_min`] accepts. [`Error::Infeasible`] with a set that
/// [`judge_infeasible`] accepts, if no flow is feasible. [`Error::GaveUp`] after `limit` steps to better flows, or if
/// the least cost or the potentials are out of range.
///
/// ```
/// # use dimacs::arrays::{solve_min, Error, MinInstance};
/// let mut road = MinInstance {
///     nodes: 2, tails: &[1, 1], heads: &[2, 2], lows: &[0, 0], caps: &[3, 9], costs: &[1, 2], supplies: &[5, -5],
/// };
/// assert_eq!(solve_min(&road, dimacs::LIMIT).unwrap().flows, [3, 2]);
/// road.supplies = &[13, -13];
/// assert!(matches!(solve_min(&road, dimacs::LIMIT), Err(Error::Infeasible(_))));
/// ```
pub fn solve_min(instance: &MinInstance, limit: u64) -> Result<SolvedMin, Error> {
    let (mut line, mut flows) = (Room::new(LINE)?, Room::new(instance.tails.len())?);
    let (mut potentials, mut inside) =
        (Room::new(room_for(instance.nodes))?, Room::<u8>::new(room_for(instance.nodes))?);
    let instance = instance.raw()?;
    let status = call!(ffi::dimacs_solve_min_arrays: &instance, limit, {line}, {flows}, {potentials}, {inside});
    let line = line_of(status, line)?;
    if is_infeasible(&line) {
        return Err(Error::Infeasible(inside.marks()?));
    }
    Ok(SolvedMin { value: value(&line)?, flows: flows.take(), potentials: potentials.take() })
}

/// Makes distances from the source, and predecessors that [`judge_paths`] accepts. [`Error::Refused`] for the first arc
/// of negative weight. [`Error::GaveUp`] if a distance is 2^63 - 1 or more.
///
/// ```
/// # use dimacs::arrays::{solve_paths, Graph, UNREACHED};
/// let street = Graph { nodes: 3, tails: &[1], heads: &[2], weights: &[300] };
/// assert_eq!(solve_paths(&street, 1).unwrap().distances, [0, 300, UNREACHED]);
/// ```
pub fn solve_paths(graph: &Graph, source: u32) -> Result<SolvedPaths, Error> {
    let (mut distances, mut predecessors) = (Room::new(room_for(graph.nodes))?, Room::new(room_for(graph.nodes))?);
    let (mut line, graph) = (Room::new(LINE)?, graph.raw()?);
    let status = call!(ffi::dimacs_solve_paths_arrays: &graph, source, {line}, {distances}, {predecessors});
    line_of(status, line)?;
    Ok(SolvedPaths { distances: distances.take(), predecessors: predecessors.take() })
}
