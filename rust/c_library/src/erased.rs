//! The source of the calls without its contracts, as the build script leaves it.
#![allow(unsafe_code, unused)]

include!(concat!(env!("OUT_DIR"), "/erased/mod.rs"));
