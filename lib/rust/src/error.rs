//! What isn't a yes.

use std::collections::TryReserveError;
use std::fmt;

/// Where a refusal points.
#[derive(Clone, Debug, PartialEq, Eq)]
pub enum Place {
    /// A line and a field of a text, from 1: "instance", "query", "solution", "distances" or "certificate". Field 0 is the
    /// whole line, and line 0 the whole text.
    Text {
        /// The text's name.
        text: String,
        /// The line.
        line: u64,
        /// The field.
        field: u64,
    },
    /// The number of an arc, from 1.
    Arc(u64),
    /// The ID of a node, from 1.
    Node(u64),
}

/// The fault of a text, the first test that fails, or the first number past its limit.
#[derive(Clone, Debug, PartialEq, Eq)]
pub struct Refused {
    /// The place.
    pub place: Place,
    /// The reason, in the command's word.
    pub reason: String,
}

/// The line that the command prints.
impl fmt::Display for Refused {
    fn fmt(&self, out: &mut fmt::Formatter<'_>) -> fmt::Result {
        match &self.place {
            Place::Text { text, line, field } => write!(out, "x {text} {line} {field} {}", self.reason),
            Place::Arc(arc) => write!(out, "x arc {arc} {}", self.reason),
            Place::Node(node) => write!(out, "x node {node} {}", self.reason),
        }
    }
}

/// Why a call doesn't answer yes. A call over arrays has an [`arrays::Error`](crate::arrays::Error), one over texts a
/// [`texts::Error`](crate::texts::Error).
#[derive(Clone, Debug, PartialEq, Eq)]
#[non_exhaustive]
pub enum Error<Flow, Set> {
    /// A text has a fault, or a test fails: the first one.
    Refused(Refused),
    /// The flow is feasible and has the claimed value, but this one is better.
    NotOptimal(Flow),
    /// No flow is feasible, as this set of nodes shows.
    Infeasible(Set),
    /// The instance that was claimed to have no feasible flow has this one.
    Feasible(Flow),
    /// A limit was reached, the least cost is out of range, or what was found doesn't fit in 64 bits.
    GaveUp,
    /// A number of an instance in arrays is past its limit: the first one. Nothing was judged.
    PastLimit(Refused),
    /// An array has a wrong length. Nothing was judged.
    WrongLength {
        /// The name of the array.
        array: &'static str,
        /// How many items it has.
        items: usize,
        /// How many there have to be: one for each arc, of which there are as many as tails, for each node, or for each
        /// word of a command.
        wanted: usize,
    },
    /// The words aren't a command with its files, or one isn't UTF-8 or has a byte 0.
    NoCommand,
    /// A command comes to its text at this place, from 1, which can't be read.
    Unread(u32),
    /// Out of memory: the claim is undecided.
    OutOfMemory,
    /// The library answers this, which the crate doesn't know: another version of it was linked. The claim is undecided.
    UnknownAnswer(String),
}

impl<Flow, Set> fmt::Display for Error<Flow, Set> {
    fn fmt(&self, out: &mut fmt::Formatter<'_>) -> fmt::Result {
        match self {
            Error::Refused(refused) => refused.fmt(out),
            Error::NotOptimal(_) => out.write_str("there is a better flow"),
            Error::Infeasible(_) => out.write_str("no flow is feasible"),
            Error::Feasible(_) => out.write_str("a flow is feasible"),
            Error::GaveUp => out.write_str("the limit was reached, or what was found is out of range"),
            Error::PastLimit(refused) => write!(out, "a number is past its limit: {refused}"),
            Error::WrongLength { array, items, wanted } => {
                write!(out, "{array} has {items} items, and there have to be {wanted}")
            }
            Error::NoCommand => out.write_str("the words aren't a command with its files"),
            Error::Unread(place) => write!(out, "text {place} of the command can't be read"),
            Error::OutOfMemory => out.write_str("there was not enough memory"),
            Error::UnknownAnswer(answer) => write!(out, "libdimacs answers what the crate doesn't know: {answer}"),
        }
    }
}

impl<Flow: fmt::Debug, Set: fmt::Debug> std::error::Error for Error<Flow, Set> {}

/// Why an answer can't be handed on.
#[derive(Debug, PartialEq, Eq)]
pub(crate) enum NoAnswer {
    OutOfMemory,
    Unknown(String),
}

impl From<TryReserveError> for NoAnswer {
    fn from(_: TryReserveError) -> Self {
        NoAnswer::OutOfMemory
    }
}

impl<Flow, Set> From<NoAnswer> for Error<Flow, Set> {
    fn from(it: NoAnswer) -> Self {
        match it {
            NoAnswer::OutOfMemory => Error::OutOfMemory,
            NoAnswer::Unknown(answer) => Error::UnknownAnswer(answer),
        }
    }
}
