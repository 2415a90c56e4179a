//! The fields of the lines that calls hand out.

use crate::error::{Error, NoAnswer, Place, Refused};
use crate::ffi::{DONE, GAVE_UP, MISUSED, NO_MEMORY, REFUSED};
use crate::rooms::Room;

/// A copy, if there is memory for it.
pub fn owned(text: &str) -> Result<String, NoAnswer> {
    let mut copy = String::new();
    copy.try_reserve_exact(text.len())?;
    copy.push_str(text);
    Ok(copy)
}

/// For an answer that isn't known.
pub fn unknown<T>(answer: &str) -> Result<T, NoAnswer> {
    Err(NoAnswer::Unknown(owned(answer.trim_end())?))
}

/// What was read of a line, if it could be read.
pub fn known<T>(read: Option<T>, line: &str) -> Result<T, NoAnswer> {
    match read {
        Some(it) => Ok(it),
        None => unknown(line),
    }
}

/// The lines of a yes, or what the status means.
pub fn line_of<Flow, Set>(status: u32, line: Room<u8>) -> Result<String, Error<Flow, Set>> {
    let line = line.text()?;
    match status {
        DONE => Ok(line),
        GAVE_UP => Err(Error::GaveUp),
        NO_MEMORY => Err(Error::OutOfMemory),
        MISUSED if !line.is_empty() => Err(Error::PastLimit(refused(&line)?)),
        REFUSED => Err(Error::Refused(refused(&line)?)),
        _ => Ok(unknown(&format!("the status {status}"))?),
    }
}

/// The words of a line, none of which has more than five, and at least one that isn't there.
pub fn words(line: &str) -> [Option<&str>; 6] {
    let mut words = line.split_whitespace();
    std::array::from_fn(|_| words.next())
}

/// The fields of a line that begins with x.
pub fn refused(line: &str) -> Result<Refused, NoAnswer> {
    let number = |word: &str| known(word.parse().ok(), line);
    let (place, reason) = match words(line) {
        [Some("x"), Some("arc"), Some(arc), Some(reason), None, None] => (Place::Arc(number(arc)?), reason),
        [Some("x"), Some("node"), Some(node), Some(reason), None, None] => (Place::Node(number(node)?), reason),
        [Some("x"), Some("arc" | "node"), ..] => return unknown(line),
        [Some("x"), Some(text), Some(of_text), Some(field), Some(reason), None] => {
            let (of_text, field) = (number(of_text)?, number(field)?);
            (Place::Text { text: owned(text)?, line: of_text, field }, reason)
        }
        _ => return unknown(line),
    };
    Ok(Refused { place, reason: owned(reason)? })
}

/// The number that a verdict ends with. It has at most 31 digits.
pub fn value(line: &str) -> Result<i128, NoAnswer> {
    let number = match words(line) {
        [Some("v"), Some("max" | "min"), Some(number), None, None, None] => number.parse().ok(),
        _ => None,
    };
    known(number, line)
}

pub fn is_infeasible(line: &str) -> bool {
    line.starts_with("v infeasible")
}

/// Whether a flow was found to be feasible, but not optimal.
pub fn is_not_optimal(refused: &Refused) -> bool {
    matches!(refused.reason.as_str(), "NotMaximum" | "NotLeast")
}

/// Whether a flow was found to be feasible, though none was claimed to be.
pub fn is_feasible(refused: &Refused) -> bool {
    refused.reason == "Feasible"
}

#[cfg(test)]
mod tests {
    use super::*;

    #[test]
    fn lines_of_another_version_are_unknown() {
        let refusals = "|x|x arc 3|x arc three AboveCap|x arc 3 0 AboveCap|y arc 3 AboveCap|x arc -3 AboveCap|\
             x arc 18446744073709551616 AboveCap|x solution 2 NotMaximum|x solution 2 two NotMaximum|v max 3";
        for line in refusals.split('|') {
            assert_eq!(refused(line), Err(NoAnswer::Unknown(line.to_owned())));
        }
        for line in "|v max|v max six|v max 6.0|v max -|v max 6 7|x max 6|v sp ss 6".split('|') {
            assert_eq!(value(line), Err(NoAnswer::Unknown(line.to_owned())));
        }
    }

    #[test]
    fn its_own_lines_are_known() {
        assert_eq!(refused("x node 7 Balance\n").map(|it| it.to_string()), Ok("x node 7 Balance".to_owned()));
        assert_eq!(refused("x query 1 0 TooFew\n").map(|it| it.to_string()), Ok("x query 1 0 TooFew".to_owned()));
        assert_eq!(value("v min -1000000000000000000000000000000\n"), Ok(-10_i128.pow(30)));
    }
}
