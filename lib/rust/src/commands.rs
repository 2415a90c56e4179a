//! Commands over texts in memory, by their words.

use crate::error::NoAnswer;
use crate::ffi::{self, call, DEVICE, GAVE_UP, MISUSED, REFUSED, RUN};
use crate::rooms::{Room, LINE};
use crate::texts::Error;
use crate::words::{known, line_of, owned, unknown};

/// Room for a usage, or for lines that explain an answer.
const PAGE: usize = 16 * LINE;

/// What a run does with a file.
#[derive(Clone, Copy, Debug, PartialEq, Eq)]
pub enum Access {
    /// Reads it.
    Read,
    /// Creates or empties it before it reads others.
    Create,
    /// Writes it once it has a text for it.
    Write,
}

/// A file that a word names.
#[derive(Clone, Debug, PartialEq, Eq)]
pub struct File {
    /// What the run does with it.
    pub access: Access,
    /// Its name as messages have it: without control characters.
    pub shown: String,
}

/// What the words of a command ask for.
#[derive(Clone, Debug, PartialEq, Eq)]
pub enum Request {
    /// A run.
    Run {
        /// For each word the file that it names, if it names one.
        plan: Vec<Option<File>>,
        /// For the standard error after the run; mostly empty.
        told: String,
    },
    /// Help or the version: a text for the standard output.
    Help(String),
    /// Nothing, or what is likely a slip, as to replace what the run reads. For the standard error: what is wrong, and the
    /// usage.
    Complaint(String),
}

/// What the texts of a command are. It decides how lines that explain an answer refer to them; dimacs.h has how.
#[derive(Clone, Copy, Debug, PartialEq, Eq)]
pub enum Form {
    /// Those of files.
    Files = 0,
    /// In no file.
    Texts = 1,
    /// Made of arrays.
    Arrays = 2,
}

/// How a command ended. As a number it is the exit status.
#[derive(Clone, Copy, Debug, PartialEq, Eq)]
pub enum Status {
    /// Done, or a yes.
    Done = 0,
    /// A no.
    Refused = 1,
    /// A limit was reached, or the least cost is out of range.
    GaveUp = 5,
}

/// What a command prints, and the texts that it makes for files, in order, also if its words name none for them. A text
/// that it doesn't make is empty.
#[derive(Clone, Debug, PartialEq, Eq)]
pub struct Ran {
    /// How it ended.
    pub status: Status,
    /// What it prints.
    pub report: String,
    /// The first text.
    pub made: String,
    /// The second text.
    pub more: String,
}

/// The words of a command as the library takes them.
fn ended(words: &[impl AsRef<[u8]>]) -> Result<Vec<u8>, Error> {
    let mut ended = Vec::new();
    for word in words.iter().map(AsRef::as_ref) {
        if word.contains(&0) {
            return Err(Error::NoCommand);
        }
        ended.try_reserve(word.len() + 1).map_err(NoAnswer::from)?;
        ended.extend_from_slice(word);
        ended.push(0);
    }
    Ok(ended)
}

/// The plan of so many words: a mark for each, a line for each file, and what is told after the run.
fn run(lines: &str, words: usize) -> Result<Request, NoAnswer> {
    let (marks, mut rest) = known(lines.split_once('\n').filter(|it| it.0.len() == words), lines)?;
    let mut plan = Vec::new();
    plan.try_reserve_exact(words)?;
    for mark in marks.chars() {
        let access = match mark {
            'r' => Access::Read,
            'c' => Access::Create,
            'w' => Access::Write,
            '-' => {
                plan.push(None);
                continue;
            }
            _ => return unknown(marks),
        };
        let (shown, others) = known(rest.split_once('\n'), lines)?;
        rest = others;
        plan.push(Some(File { access, shown: owned(shown)? }));
    }
    Ok(Request::Run { plan, told: owned(rest)? })
}

/// What the words of a command ask for; a [`Request::Complaint`] also if a word isn't UTF-8. `same` has for each word the
/// place, from 0, of the first that names the same regular file, or its own; if it is empty, each word names another file.
/// [`Error::WrongLength`] if `same` has another length. [`Error::NoCommand`] if a word has a byte 0.
///
/// ```
/// # use dimacs::texts::{request, Access, Request};
/// let Request::Run { plan, .. } = request(&["show", "cut", "my cut"], &[]).unwrap() else { panic!() };
/// assert_eq!(plan[..2], [None, None]);
/// assert_eq!(plan[2].as_ref().map(|it| it.access), Some(Access::Read));
/// ```
pub fn request(words: &[impl AsRef<[u8]>], same: &[u32]) -> Result<Request, Error> {
    let ended = ended(words)?;
    if !same.is_empty() && same.len() != words.len() {
        return Err(Error::WrongLength { array: "same", items: same.len(), wanted: words.len() });
    }
    let mut text = Room::new(PAGE)?;
    let status = call!(ffi::dimacs_request: [ended], [same], {text});
    match status {
        RUN => Ok(run(&text.text()?, words.len())?),
        MISUSED => Ok(Request::Complaint(text.text()?)),
        _ => line_of(status, text).map(Request::Help),
    }
}

/// Room for what a command prints, and for what it makes of texts of these lengths, as by the calls of each kind.
fn rooms(words: &[impl AsRef<[u8]>], first: usize, second: usize) -> [usize; 3] {
    match words.iter().map(AsRef::as_ref).find(|it| it != b"explain").unwrap_or_default() {
        b"convert" => [PAGE + first, 0, 0],
        b"judge-paths" => [PAGE + 4 * second, 0, 0],
        b"solve-paths" => [PAGE + 4 * second, LINE + 2 * first, 0],
        b"solve-max" | b"solve-min" => [PAGE, LINE + first, LINE + 2 * first],
        verb if verb.starts_with(b"certify") || verb.starts_with(b"spread") => [PAGE, LINE + first + second, 0],
        _ => [PAGE, 0, 0],
    }
}

/// Runs a command over the texts of the files that its words name, in order; `None` for one that can't be read. Opens no
/// file, and runs in spite of a slip, of which [`request`] complains. [`Error::Unread`] if it comes to a text that can't be
/// read. [`Error::NoCommand`] if the words ask for no run, or one isn't UTF-8 or has a byte 0.
///
/// ```
/// # use dimacs::texts::{command, Form, Status};
/// let pipe = "p max 2 1\nn 1 s\nn 2 t\na 1 2 7\n";
/// let ran = command(&["solve-max", "pipe", "flow", "cut"], [Some(pipe.as_ref()), None, None], Form::Texts).unwrap();
/// assert_eq!((ran.status, ran.report.as_str(), ran.more.as_str()), (Status::Done, "v max 7\n", "p cut 2 1\nu 1\n"));
/// ```
pub fn command(words: &[impl AsRef<[u8]>], texts: [Option<&[u8]>; 3], form: Form) -> Result<Ran, Error> {
    let ended = ended(words)?;
    let unread = (1..).zip(texts).find(|it| it.1.is_none()).map_or(0, |it| it.0);
    let [first, second, third] = texts.map(Option::unwrap_or_default);
    let [report, made, more] = rooms(words, first.len(), second.len());
    let (mut report, mut made, mut more) = (Room::new(report)?, Room::new(made)?, Room::new(more)?);
    let status = call!(ffi::dimacs_command: form as u32, [ended], unread, [first], [second], [third],
        {report}, {made}, {more});
    let status = match status {
        REFUSED => Status::Refused,
        GAVE_UP => Status::GaveUp,
        MISUSED => return Err(Error::NoCommand),
        DEVICE => return Err(Error::Unread(unread)),
        _ => line_of(status, Room::new(0)?).map(|_| Status::Done)?,
    };
    Ok(Ran { status, report: report.text()?, made: made.text()?, more: more.text()? })
}

/// The lines that `dimacs explain` prints for a command over texts, which its words name in order: its own, after a refusal
/// too, then what explains them. A text that isn't read may be empty. [`Error::NoCommand`] as from [`command`].
///
/// ```
/// # use dimacs::texts::explain;
/// let pipe = "p max 2 1\nn 1 s\nn 2 t\na 1 2 7\n";
/// let lines = explain(&["judge-max", "my pipe", "flow", "cut"], pipe, "s 8\nf 1 2 8\n", "p cut 2 1\nu 1\n").unwrap();
/// assert!(lines.starts_with("x arc 1 AboveCap\nmy pipe:4: a 1 2 7\n"));
/// ```
pub fn explain(
    words: &[impl AsRef<[u8]>], first: impl AsRef<[u8]>, second: impl AsRef<[u8]>, third: impl AsRef<[u8]>,
) -> Result<String, Error> {
    let mut explained: Vec<&[u8]> = Vec::new();
    explained.try_reserve_exact(words.len() + 1).map_err(NoAnswer::from)?;
    explained.push(b"explain");
    explained.extend(words.iter().map(AsRef::as_ref));
    let texts = [first.as_ref(), second.as_ref(), third.as_ref()].map(Some);
    Ok(command(&explained, texts, Form::Texts)?.report)
}

#[cfg(test)]
mod tests {
    use super::*;

    #[test]
    fn plans_of_another_version_are_unknown() {
        for lines in ["", "-r", "-r\n", "-rr\na\nb\n", "-x\na\n"] {
            assert!(matches!(run(lines, 2), Err(NoAnswer::Unknown(_))), "{lines}");
        }
    }
}
