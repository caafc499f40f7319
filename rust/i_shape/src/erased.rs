//! The proved functions, without their contracts. In a clone the build script cuts these from their
//! source, and writes what is left below `OUT_DIR`.
#![allow(
    dead_code,
    unused_imports,
    reason = "of these functions the crate calls some, and C, the program and the tests the others"
)]
#![allow(
    unused_variables,
    reason = "not each implementation of a method reads all arguments"
)]
#![allow(
    clippy::assign_op_pattern,
    clippy::collapsible_if,
    clippy::explicit_auto_deref,
    clippy::manual_find,
    clippy::manual_map,
    clippy::needless_range_loop,
    clippy::nonminimal_bool,
    clippy::redundant_pattern_matching,
    clippy::too_many_arguments,
    clippy::type_complexity,
    reason = "the text is that of the proved source, which isn't changed for clippy"
)]

include!(concat!(env!("OUT_DIR"), "/erased/mod.rs"));
