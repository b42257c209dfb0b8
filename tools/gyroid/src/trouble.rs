//! Why a command did not do what it was asked, as one sentence or a few, and the exit status that says so.

use std::fmt::Display;
use std::io;
use std::path::Path;

/// The sentence goes to standard error behind `gyroid: `.
#[derive(Debug, PartialEq)]
pub struct Trouble {
    pub exit: u8,
    pub text: String,
}

/// The library, or document 01's line, refuses what was asked.
pub const REFUSED: u8 = 1;
/// The words of the command are off, or a file cannot be read or written.
pub const USAGE: u8 = 2;

impl Trouble {
    pub fn refused(text: impl Into<String>) -> Self {
        Self { exit: REFUSED, text: text.into() }
    }

    pub fn usage(text: impl Into<String>) -> Self {
        Self { exit: USAGE, text: text.into() }
    }

    /// A file that cannot be read or written: `what` was tried with it.
    pub fn file(what: &str, path: &Path, error: impl Display) -> Self {
        Self::usage(format!("cannot {what} {}: {error}", path.display()))
    }
}

/// Standard output that cannot be written.
impl From<io::Error> for Trouble {
    fn from(error: io::Error) -> Self {
        Self::usage(format!("cannot write to standard output: {error}"))
    }
}
