//! What the program uses of Rattle's std, and neither Rust's nor the shim has.

use crate::erased::fallible::Vec;
use crate::erased::fallible::alloc::AllocError;
use std::io::{self, ErrorKind, Read};

/// How many bytes are read at once.
const PART: usize = 1 << 14;

/// Rattle's `read_to_end` of a reader. Rust's ends the program where some of its allocations fail.
pub trait FallibleRead: Read {
    /// Appends all bytes that are left. Memory is taken before the bytes that it is for are read, and where that fails,
    /// the error is `OutOfMemory`.
    fn fallible_read_to_end(&mut self, bytes: &mut Vec<u8>) -> io::Result<usize> {
        let start = bytes.len();
        let mut part = [0; PART];
        loop {
            if bytes.len() == bytes.capacity() {
                bytes.reserve(PART).map_err(no_memory)?;
            }
            let room = PART.min(bytes.capacity() - bytes.len());
            match self.read(&mut part[..room]) {
                Ok(0) => return Ok(bytes.len() - start),
                Ok(count) => bytes.extend_from_slice(&part[..count]).map_err(no_memory)?,
                Err(error) if error.kind() == ErrorKind::Interrupted => {}
                Err(error) => return Err(error),
            }
        }
    }
}

impl<R: Read + ?Sized> FallibleRead for R {}

fn no_memory(_error: AllocError) -> io::Error {
    ErrorKind::OutOfMemory.into()
}
