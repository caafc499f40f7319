//! The program's source without its contracts, as the build script leaves it.
#![allow(unsafe_code, unused)]

include!(concat!(env!("OUT_DIR"), "/erased/mod.rs"));
