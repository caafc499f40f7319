//! The first fault of each polygon of a batch, and the same if contours may touch.

use i_shape::flat::Shapes;
use i_shape::int::AsIntPoints;

fn main() {
    let square = [[0_i32, 0], [4, 0], [4, 4], [0, 4]];
    let hole_beside_it = [[6, 1], [6, 2], [7, 1]];
    let touching_hole = [[0, 2], [3, 2], [2, 3]];
    let points = [&square[..], &hole_beside_it, &square, &touching_hole].concat();
    let polygons = Shapes::new(points.as_int_points(), &[0, 4, 7, 11, 14], &[0, 2, 4]);
    println!("{:?}", polygons.validity());
    println!("{:?}", polygons.touching_validity());
}
