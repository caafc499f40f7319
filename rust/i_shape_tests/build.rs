//! Erases the crates of tests, and those that they test.

const CRATES: [&str; 7] = [
    "i_shape_core_tests",
    "i_shape_contacts_tests",
    "i_shape_tests",
    "i_shape_buffer_tests",
    "i_shape_tool_tests",
    "callers_tests",
    "refusals",
];

/// A law has no body, so a test that cites one has nothing to run.
const LEFT_OUT: [&str; 1] = ["i_shape_core_tests::laws"];

fn main() {
    erase::build_all(&CRATES, &LEFT_OUT);
}
