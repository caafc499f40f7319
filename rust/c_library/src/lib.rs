//! The C library of include/i_shape.h, and the WebAssembly module of the package for JavaScript.
#![no_std]

mod erased;
#[cfg(not(all(target_arch = "wasm32", target_os = "unknown")))]
mod host;
#[cfg(all(target_arch = "wasm32", target_os = "unknown"))]
mod wasm;
