//! What the tests use of Rattle's std, and neither Rust's nor the shim has.

#[path = "../../i_shape_tool/src/host.rs"]
mod of_program;

pub use of_program::FallibleRead;

use crate::erased::fallible::alloc::{AllocError, AllocFailed, Global};
use crate::erased::fallible::{String, Vec};
use crate::growths;
use std::collections::btree_set;
use std::error::Error;
use std::fmt;
use std::io::{self, Write};
use std::ops::Deref;

/// Rattle's `Fail`: why a test fails.
pub type Fail = Box<dyn Error>;

/// Rattle's `HostRuntime`, which a test takes. While there is one, the growth that `REFUSED_GROWTH` numbers is refused.
pub struct HostRuntime;

impl HostRuntime {
    pub fn new() -> HostRuntime {
        // The harness has begun a line.
        std::println!();
        let growth = std::env::var("REFUSED_GROWTH").ok();
        growths::refuse(growth.map_or(0, |number| number.parse().unwrap_or(0)));
        HostRuntime
    }

    pub fn alloc(&self) -> Global {
        Global
    }
}

impl Drop for HostRuntime {
    fn drop(&mut self) {
        growths::refuse(0);
        tell_refusal();
    }
}

/// Rattle's `Abort`: what can stop a test.
pub trait Abort {}

impl Abort for HostRuntime {}

impl<R: Abort> Abort for &R {}

/// Rattle's `Print`: what can print.
pub trait Print {}

impl Print for HostRuntime {}

impl<R: Print> Print for &R {}

/// Prints the line, and in front of it whether a growth was refused.
pub fn print(line: fmt::Arguments<'_>) -> io::Result<()> {
    tell_refusal();
    std::println!("{line}");
    Ok(())
}

fn tell_refusal() {
    if growths::was_refused() {
        std::println!("growth refused");
    }
}

/// What `format!(in alloc; ..)` calls.
pub fn formatted(alloc: Global, shown: fmt::Arguments<'_>) -> Result<String, AllocError> {
    let mut text = String::new(alloc);
    text.write_fmt(shown)?;
    Ok(text)
}

// Rattle's macros, whose first argument is the runtime or the allocator.

macro_rules! assert {
    ($rt:expr; $($claim:tt)*) => { core::assert!($($claim)*) };
    ($($claim:tt)*) => { core::assert!($($claim)*) };
}

macro_rules! assert_eq {
    ($rt:expr; $($claim:tt)*) => { core::assert_eq!($($claim)*) };
    ($($claim:tt)*) => { core::assert_eq!($($claim)*) };
}

macro_rules! println {
    ($rt:expr; $($shown:tt)*) => { crate::host::print(format_args!($($shown)*)) };
}

macro_rules! format {
    (in $alloc:expr; $($shown:tt)*) => { crate::host::formatted($alloc, format_args!($($shown)*)) };
    ($($shown:tt)*) => { std::format!($($shown)*) };
}

/// Rattle's `to_vec` of a slice, which takes the allocator.
pub trait FallibleToVec<T> {
    fn fallible_to_vec(&self, alloc: Global) -> Result<Vec<T>, AllocError>;
}

impl<T: Clone> FallibleToVec<T> for [T] {
    fn fallible_to_vec(&self, alloc: Global) -> Result<Vec<T>, AllocError> {
        Vec::from_clones(alloc, self)
    }
}

/// Rattle's `repeat` of a text, which takes the allocator.
pub trait FallibleRepeat {
    fn fallible_repeat(&self, alloc: Global, times: usize) -> Result<String, AllocError>;
}

impl FallibleRepeat for str {
    fn fallible_repeat(&self, alloc: Global, times: usize) -> Result<String, AllocError> {
        let mut text = String::new(alloc);
        for _ in 0..times {
            text.push_str(self)?;
        }
        Ok(text)
    }
}

/// Rattle's `collect` of an iterator, which takes the allocator.
pub trait FallibleCollect: Iterator + Sized {
    fn fallible_collect(self, alloc: Global) -> Result<Vec<Self::Item>, AllocError> {
        let mut items = Vec::new(alloc);
        for item in self {
            items.push(item)?;
        }
        Ok(items)
    }
}

impl<I: Iterator> FallibleCollect for I {}

/// Rattle's `BTreeSet`, whose `insert` can be refused. Rust's can't, so this one never is.
pub struct BTreeSet<T>(btree_set::BTreeSet<T>);

impl<T: Ord> BTreeSet<T> {
    pub fn new(_alloc: Global) -> BTreeSet<T> {
        BTreeSet(btree_set::BTreeSet::new())
    }

    pub fn insert(&mut self, value: T) -> Result<bool, AllocFailed<T>> {
        Ok(self.0.insert(value))
    }
}

impl<T> Deref for BTreeSet<T> {
    type Target = btree_set::BTreeSet<T>;

    fn deref(&self) -> &btree_set::BTreeSet<T> {
        &self.0
    }
}

/// Rattle's `std::env`, which asks the runtime.
pub mod env {
    use super::HostRuntime;
    use std::env::VarError;

    pub fn var(_rt: &HostRuntime, name: &str) -> Result<std::string::String, VarError> {
        std::env::var(name)
    }
}

impl Write for Vec<u8> {
    fn write(&mut self, bytes: &[u8]) -> io::Result<usize> {
        self.extend_from_slice(bytes)?;
        Ok(bytes.len())
    }

    fn flush(&mut self) -> io::Result<()> {
        Ok(())
    }
}

impl From<AllocError> for io::Error {
    fn from(_error: AllocError) -> io::Error {
        io::ErrorKind::OutOfMemory.into()
    }
}

impl<T> From<AllocFailed<T>> for io::Error {
    fn from(_error: AllocFailed<T>) -> io::Error {
        io::ErrorKind::OutOfMemory.into()
    }
}

impl<T> From<AllocFailed<T>> for Fail {
    fn from(_error: AllocFailed<T>) -> Fail {
        AllocError.into()
    }
}
