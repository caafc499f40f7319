//! The corners of a contour whose first edge holds a point of its own.

use i_shape::int::IntPoint;
use i_shape::int::simple::SimpleContour;

fn main() {
    let contour = [[0, 0], [2, 0], [4, 0], [4, 4], [0, 4]].map(|[x, y]| IntPoint::<i32>::new(x, y));
    for corner in contour.simplified().unwrap_or_default() {
        println!("{} {}", corner.x, corner.y);
    }
}
