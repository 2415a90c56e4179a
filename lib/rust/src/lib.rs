//! Claims about flows and distances judged, certified and made in memory, by functions that are proved.
//!
//! [`arrays`] has the calls over slices, [`texts`] those over DIMACS texts, and [`reading`] those from texts to vectors and
//! back. A yes is `Ok`, and each no a variant of
//! [`Error`] with its evidence: a better flow, a set whose supplies no flow can meet, or the first test that fails.
//!
//! ```
//! use dimacs::arrays::{certify_max, Error, MaxInstance};
//!
//! let pipes = MaxInstance { nodes: 3, source: 1, sink: 3, tails: &[1, 2], heads: &[2, 3], caps: &[5, 4] };
//! let yes = certify_max(&pipes, &[4, 4]).unwrap();
//! assert_eq!((yes.value, yes.inside), (4, vec![true, true, false]));
//! match certify_max(&pipes, &[3, 3]) {
//!     Err(Error::NotOptimal(better)) => assert_eq!(better, [4, 4]),
//!     other => panic!("{other:?}"),
//! }
//! assert_eq!(certify_max(&pipes, &[5, 4]).unwrap_err().to_string(), "x node 2 Balance");
//! ```
//!
//! The library is linked statically: `DIMACS_LIB_DIR` names the folder of `libdimacs.a`, or pkg-config finds it. A call
//! keeps nothing, opens no file and starts no thread. Callers answer for the premises of dimacs.h on signals, fork and the
//! stack alone. This crate itself isn't proved: it is a layer over calls that are.

pub mod arrays;
mod commands;
mod error;
mod ffi;
mod instances;
pub mod reading;
mod rooms;
pub mod texts;
mod words;

pub use error::{Error, Place, Refused};
use ffi::call;

/// The command's default limit, for the calls that solve for flows.
pub const LIMIT: u64 = 1_000_000;

/// The number of the version of the library that was linked: 10000 times the first number, 100 times the second, and the
/// third.
///
/// ```
/// assert_eq!(dimacs::version() / 10_000, 0);
/// ```
pub fn version() -> u32 {
    // It takes nothing and reads nothing that changes.
    unsafe { ffi::dimacs_version() }
}

/// Whether that library is proved: the kit that built it had proved that each function meets its contract.
pub fn proved() -> bool {
    // As for the version.
    unsafe { ffi::dimacs_proved() != 0 }
}

/// The version with what proved the library, as `dimacs --version` prints it, or that it isn't proved.
///
/// ```
/// let text = dimacs::version_text().unwrap();
/// assert!(text.starts_with("0."));
/// assert_eq!(dimacs::proved(), !text.ends_with(" (not proved)"));
/// ```
pub fn version_text() -> Result<String, texts::Error> {
    let mut text = rooms::Room::new(rooms::LINE)?;
    let status = call!(ffi::dimacs_version_text: {text});
    words::line_of(status, text)
}
