//! Erases the program's source.

fn main() {
    erase::build("i_shape_tool", &[]);
}
