//! Cuts the contracts from the proved functions, and writes these below `OUT_DIR`.

/// Rattle's own buffers, resources and macros, and what only C's calls use. The crate has its own.
const LEFT_OUT: [&str; 8] = [
    "i_shape::flat",
    "i_shape::int::area",
    "i_shape::int::canonical",
    "i_shape::int::winding",
    "i_shape::macros",
    "i_shape::source",
    "i_shape_c::compact",
    "i_shape_source::float",
];

fn main() {
    let crates = ["i_shape_c", "i_shape_contacts", "i_shape_touching"];
    erase::build_all(&crates, &LEFT_OUT);
}
