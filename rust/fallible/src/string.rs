//! A text whose growth can fail.

use super::rust_alloc::string;
use crate::alloc::{AllocError, Global};
use core::fmt::{self, Write};
use core::ops::Deref;

/// Rattle's `String`: Rust's, but each call that grows it returns an error if an allocation fails.
///
/// It lends its text, and never Rust's `String`, which grows without an error.
#[derive(PartialEq, Eq, PartialOrd, Ord, Hash, Debug)]
#[repr(transparent)]
pub struct String(string::String);

impl String {
    /// Rattle's `String::new`: an empty text that holds no memory.
    pub const fn new(_alloc: Global) -> String {
        String(string::String::new())
    }

    /// Rattle's `String::from_str`: a copy of the text.
    pub fn from_str(alloc: Global, text: &str) -> Result<String, AllocError> {
        let mut made = String::new(alloc);
        made.push_str(text)?;
        Ok(made)
    }

    /// Rattle's `String::push`: appends the letter. An error leaves the text as it was.
    pub fn push(&mut self, letter: char) -> Result<(), AllocError> {
        self.push_str(letter.encode_utf8(&mut [0; 4]))
    }

    /// Rattle's `String::push_str`: appends the text. An error leaves this one as it was.
    pub fn push_str(&mut self, text: &str) -> Result<(), AllocError> {
        self.0.try_reserve(text.len())?;
        self.0.push_str(text);
        Ok(())
    }

    /// Rattle's `String::capacity`: the number of bytes that the text has room for.
    pub fn capacity(&self) -> usize {
        self.0.capacity()
    }

    /// Rattle's `String::as_str`: the text.
    pub fn as_str(&self) -> &str {
        &self.0
    }

    /// What Rattle's `write!` calls: appends what is shown, in parts, so that an error leaves those before it. A
    /// failed allocation is the only error, unless what is shown fails by itself.
    pub fn write_fmt(&mut self, shown: fmt::Arguments<'_>) -> Result<(), AllocError> {
        Growing(self).write_fmt(shown).map_err(|_error| AllocError)
    }
}

struct Growing<'a>(&'a mut String);

impl Write for Growing<'_> {
    fn write_str(&mut self, text: &str) -> fmt::Result {
        self.0.push_str(text).map_err(|_error| fmt::Error)
    }
}

impl Deref for String {
    type Target = str;

    fn deref(&self) -> &str {
        &self.0
    }
}

impl fmt::Display for String {
    fn fmt(&self, f: &mut fmt::Formatter<'_>) -> fmt::Result {
        self.0.fmt(f)
    }
}

impl From<string::String> for String {
    fn from(text: string::String) -> String {
        String(text)
    }
}
