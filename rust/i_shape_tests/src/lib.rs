//! The tests of `crates/*_tests`, and of `crates/callers` through them, over erased Rust; those of `crates/refusals`, with
//! each growth of memory refused in turn; those of reading the program's input; and one over points of no size.
#![cfg(test)]
#![deny(unsafe_code)]

#[macro_use]
mod host;
mod erased;
mod growths;
mod reading;
mod refusals;
mod too_many_points;
