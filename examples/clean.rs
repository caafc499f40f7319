//! Cleans contours, and shows each one that is left in a line.

use i_shape::int::IntPoint;
use i_shape::int::simple::SimpleContour;

fn main() {
    let contours: [&[[i32; 2]]; 3] = [
        &[[0, 0], [2, 0], [4, 0], [4, 4], [0, 4]], // a point on an edge
        &[[0, 0], [3, 3], [6, 6]],                 // no area: it collapses
        &[[9, 0], [9, 5], [4, 0]],
    ];
    for contour in contours {
        let points: Vec<_> = contour.iter().map(|&[x, y]| IntPoint::new(x, y)).collect();
        let Some(left) = points.canonical() else {
            println!("none");
            continue;
        };
        let shown: Vec<_> = left
            .iter()
            .map(|at| format!("({}, {})", at.x, at.y))
            .collect();
        println!("{}", shown.join(" "));
    }
}
