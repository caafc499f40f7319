//! The tests and what they test without contracts, as the build script leaves it.
#![allow(unsafe_code, unused, clippy::all)]

include!(concat!(env!("OUT_DIR"), "/erased/mod.rs"));
