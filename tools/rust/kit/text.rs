//! Text that grows fallibly.
use crate::alloc::{AllocError, Global};
use std::fmt;
use std::fmt::Write;

/// Rust's `String`, which grows fallibly.
#[derive(PartialEq, Eq, PartialOrd, Ord, Hash)]
pub struct String(pub(crate) std::string::String);

impl String {
    pub fn new(_: Global) -> String {
        String(std::string::String::new())
    }

    pub fn from_str(alloc: Global, text: &str) -> Result<String, AllocError> {
        let mut made = String::new(alloc);
        made.push_str(text)?;
        Ok(made)
    }

    /// The text of bytes, with a replacement character for each part that is no UTF-8.
    pub fn from_utf8_lossy(alloc: Global, bytes: &[u8]) -> Result<String, AllocError> {
        let mut made = String::new(alloc);
        for part in bytes.utf8_chunks() {
            made.push_str(part.valid())?;
            if !part.invalid().is_empty() {
                made.push_str("\u{fffd}")?;
            }
        }
        Ok(made)
    }

    pub fn push_str(&mut self, text: &str) -> Result<(), AllocError> {
        self.0.try_reserve(text.len())?;
        self.0.push_str(text);
        Ok(())
    }

    pub fn push(&mut self, c: char) -> Result<(), AllocError> {
        self.push_str(c.encode_utf8(&mut [0; 4]))
    }

    pub fn as_str(&self) -> &str {
        &self.0
    }

    /// What `write!` calls. Its only error is that there is no memory.
    pub fn write_fmt(&mut self, text: fmt::Arguments<'_>) -> Result<(), AllocError> {
        Growing(self).write_fmt(text).map_err(|_| AllocError)
    }
}

/// Formats into a text.
struct Growing<'a>(&'a mut String);

impl fmt::Write for Growing<'_> {
    fn write_str(&mut self, text: &str) -> fmt::Result {
        Ok(self.0.push_str(text)?)
    }
}

crate::holds!(String, std::string::String);

impl fmt::Display for String {
    fn fmt(&self, f: &mut fmt::Formatter<'_>) -> fmt::Result {
        self.0.fmt(f)
    }
}

impl fmt::Debug for String {
    fn fmt(&self, f: &mut fmt::Formatter<'_>) -> fmt::Result {
        self.0.fmt(f)
    }
}

/// Methods of text that take memory.
pub trait StrIn {
    fn repeat_by(&self, alloc: Global, count: usize) -> Result<String, AllocError>;
    fn to_ascii_lowercase_by(&self, alloc: Global) -> Result<String, AllocError>;
}

impl StrIn for str {
    fn repeat_by(&self, alloc: Global, count: usize) -> Result<String, AllocError> {
        let mut made = String::new(alloc);
        for _ in 0..count {
            made.push_str(self)?;
        }
        Ok(made)
    }

    fn to_ascii_lowercase_by(&self, alloc: Global) -> Result<String, AllocError> {
        let mut made = String::from_str(alloc, self)?;
        made.0.make_ascii_lowercase();
        Ok(made)
    }
}
