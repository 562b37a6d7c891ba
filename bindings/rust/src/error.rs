//! Why there is no result.

use crate::library::{Info, NO_ERROR};
use crate::reply;
use crate::words::Kind;
use ima_verify_sys as c;
use std::fmt;

/// Why there is no result.
#[derive(Debug, Clone, PartialEq, Eq, Hash)]
#[non_exhaustive]
pub enum Error {
    /// An input or an argument is refused.
    #[non_exhaustive]
    Refused {
        /// What is refused.
        kind: Kind,
        /// The number of the error among those of its kind, or 0 if they have none (`docs/errors.txt`).
        number: u64,
        /// The number of the event, the entry or the line, if the error names one.
        place: Option<u64>,
        /// What is wrong, and what to do.
        text: String,
        /// What `ima-agent` prints, such as `refused: replay fault 1 at entry 5`.
        line: String,
    },
    /// There is no memory for the call.
    OutOfMemory,
    /// The library's answer is not as its header describes, so nothing is known of the inputs.
    #[non_exhaustive]
    Unexpected {
        /// What the function returned.
        result: i32,
        /// The size that it reported.
        size: usize,
        /// The text that it gave.
        text: Vec<u8>,
    },
    /// The library has this version of the interface, which is too old.
    Version(u32),
}

impl Error {
    pub(crate) fn unexpected(result: i32, text: &[u8]) -> Self {
        Self::Unexpected { result, size: text.len(), text: text.to_vec() }
    }

    /// The error of arguments that do not suit each other.
    pub(crate) fn argument() -> Self {
        reply::refused(&Info { error_kind: c::IMA_VERIFY_ARGUMENT, ..NO_ERROR }, "refused: command line".to_owned())
    }
}

impl fmt::Display for Error {
    fn fmt(&self, f: &mut fmt::Formatter<'_>) -> fmt::Result {
        match self {
            Self::Refused { text, .. } => f.write_str(text),
            Self::OutOfMemory => f.write_str("There is no memory for libima_verify."),
            Self::Unexpected { result, size, .. } => {
                write!(f, "libima_verify answered otherwise than its header says: with the result {result} and the size {size}.")
            }
            Self::Version(found) => write!(f, "libima_verify has version {found} of the interface. Install a newer one."),
        }
    }
}

impl std::error::Error for Error {}
