//! What the sources use of the kit's std, over Rust's: `std` there is this crate.
//!
//! Growth is fallible, as the kit's is: each call that takes memory returns an error where there is none. Indices are
//! tested, as always in Rust. The only unsafe code is in `ffi`, for callers in C and for the start of a program.
#![deny(unsafe_code)]
#![allow(clippy::new_without_default, clippy::should_implement_trait)]

#[cfg(not(target_pointer_width = "64"))]
compile_error!("dimacs is for 64-bit systems: of a shorter `usize` nothing is proved");

/// What a type has of the one that it holds.
macro_rules! holds {
    ($outer:ident $(<$T:ident>)?, $inner:ty) => {
        impl $(<$T>)? std::ops::Deref for $outer $(<$T>)? {
            type Target = $inner;

            #[inline(always)]
            fn deref(&self) -> &Self::Target {
                &self.0
            }
        }

        impl $(<$T>)? std::ops::DerefMut for $outer $(<$T>)? {
            #[inline(always)]
            fn deref_mut(&mut self) -> &mut Self::Target {
                &mut self.0
            }
        }
    };
}
pub(crate) use holds;

mod boxes;
pub mod clap;
pub mod collections;
pub mod ffi;
mod files;
mod ports;
mod printing;
pub mod simd;
mod text;

pub use std::{cmp, fmt, mem, num, ops};

/// What each file of the sources sees without an import.
pub mod prelude {
    pub use crate::HostRuntime;
    pub use crate::boxes::{IteratorIn, SliceIn, Vec};
    pub use crate::text::{StrIn, String};
}

pub mod alloc {
    /// The allocator that there is: Rust's.
    #[derive(Clone, Copy, Debug, Default, PartialEq, Eq)]
    pub struct Global;

    /// There is no memory.
    #[derive(Clone, Copy, Debug, PartialEq, Eq)]
    pub struct AllocError;

    /// There is no memory for a value, which comes back.
    #[derive(Clone, Copy, Debug, PartialEq, Eq)]
    pub struct AllocFailed<T> {
        pub value: T,
    }

    impl<T> From<AllocFailed<T>> for AllocError {
        fn from(_: AllocFailed<T>) -> AllocError {
            AllocError
        }
    }

    impl From<std::collections::TryReserveError> for AllocError {
        #[cold]
        fn from(_: std::collections::TryReserveError) -> AllocError {
            AllocError
        }
    }

    impl From<AllocError> for std::fmt::Error {
        fn from(_: AllocError) -> std::fmt::Error {
            std::fmt::Error
        }
    }

    impl std::fmt::Display for AllocError {
        fn fmt(&self, f: &mut std::fmt::Formatter<'_>) -> std::fmt::Result {
            f.write_str("memory allocation failed")
        }
    }
}

pub mod marker {
    pub use std::marker::PhantomData;

    /// Stands for the trait of contracts, whose impls are dropped.
    pub trait Model {}
}

pub mod env {
    pub use crate::files::{Args, args};
}

pub mod fs {
    pub use crate::files::{File, Metadata, metadata};
}

pub mod io {
    pub use crate::files::{Error, Printer, Read, Result, Write, writer};
    pub use std::io::ErrorKind;
}

pub mod os {
    pub mod fd {
        pub use crate::files::{AsRawFd, RawFd};
    }
    pub mod unix {
        pub mod fs {
            pub use crate::files::MetadataExt;
        }
    }
}

pub mod process {
    /// The exit status of a program.
    pub struct ExitCode(pub(crate) u8);

    impl From<u8> for ExitCode {
        fn from(status: u8) -> ExitCode {
            ExitCode(status)
        }
    }

    impl From<ExitCode> for std::process::ExitCode {
        fn from(code: ExitCode) -> std::process::ExitCode {
            std::process::ExitCode::from(code.0)
        }
    }
}

pub mod itoa {
    pub use crate::ports::Buffer;
}

pub mod memchr {
    pub use crate::ports::memchr;
}

pub mod strsim {
    use crate::alloc::{AllocError, Global};
    use crate::prelude::Vec;

    /// The number of edits between two texts, of which one may swap two characters side by side, which no other edits.
    pub fn osa_distance(alloc: Global, one: &str, other: &str) -> Result<usize, AllocError> {
        let width = other.chars().count() + 1;
        let mut before = Vec::from_elem(alloc, 0, width)?;
        let mut last = Vec::from_elem(alloc, 0, width)?;
        let mut row = Vec::from_elem(alloc, 0, width)?;
        for j in 0..width {
            row[j] = j;
        }
        let mut previous = None;
        for (i, a) in one.chars().enumerate() {
            (before, last, row) = (last, row, before);
            row[0] = i + 1;
            let mut back = None;
            for (j, b) in other.chars().enumerate() {
                let replaced = last[j] + usize::from(a != b);
                let mut edits = replaced.min(last[j + 1] + 1).min(row[j] + 1);
                if previous == Some(b) && back == Some(a) {
                    edits = edits.min(before[j - 1] + 1);
                }
                row[j + 1] = edits;
                back = Some(b);
            }
            previous = Some(a);
        }
        Ok(row[width - 1])
    }
}

/// Stands for the system. Only the start of a program makes one, with the arguments as C has them, if it does.
#[derive(Debug)]
pub struct HostRuntime(pub(crate) Option<ffi::Words>);

impl HostRuntime {
    #[doc(hidden)]
    pub fn of_main() -> HostRuntime {
        HostRuntime(None)
    }

    pub fn alloc(&self) -> alloc::Global {
        alloc::Global
    }
}

#[doc(hidden)]
pub use files::error_writer;
#[doc(hidden)]
pub use printing::{formatted, printed};
