//! What the eraser stops at.

use std::fmt;
use std::path::{Path, PathBuf};

/// A construct that the eraser doesn't know, at a place of a source.
#[derive(Debug)]
pub struct Fault {
    pub at: usize,
    pub what: String,
}

impl Fault {
    pub fn new(at: usize, what: impl Into<String>) -> Fault {
        let what = what.into();
        Fault { at, what }
    }
}

/// Why a crate isn't erased.
#[derive(Debug)]
pub enum Stop {
    File(PathBuf, std::io::Error),
    Source(PathBuf, usize, String),
}

impl Stop {
    pub fn at(path: &Path, source: &str, fault: Fault) -> Stop {
        let line = 1 + source[..fault.at].matches('\n').count();
        Stop::Source(path.to_owned(), line, fault.what)
    }

    /// For `map_err` of what reads and writes the file.
    pub fn of_file(path: &Path) -> impl FnOnce(std::io::Error) -> Stop {
        let path = path.to_owned();
        |error| Stop::File(path, error)
    }
}

impl fmt::Display for Stop {
    fn fmt(&self, f: &mut fmt::Formatter<'_>) -> fmt::Result {
        match self {
            Stop::File(path, error) => write!(f, "{}: {error}", path.display()),
            Stop::Source(path, line, what) => write!(f, "{}:{line}: {what}", path.display()),
        }
    }
}

impl std::error::Error for Stop {}
