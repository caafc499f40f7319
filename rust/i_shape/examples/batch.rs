//! Many contours, cleaned by threads that take a part each.

use i_shape::Error;
use i_shape::flat::{Contours, OwnedContours, offsets};
use i_shape::int::IntPoint;
use std::thread;

fn simplified_by(threads: usize, contours: Contours<'_, i32>) -> Result<OwnedContours<i32>, Error> {
    let length = contours.len().div_ceil(threads).max(1);
    thread::scope(|scope| {
        let parts: Vec<_> = contours
            .chunks(length)
            .map(|part| scope.spawn(move || part.try_simplified()))
            .collect();
        let mut left = OwnedContours::new();
        for part in parts {
            let part = part.join().expect("no part panics")?;
            left.try_extend(part.as_contours())?;
        }
        Ok(left)
    })
}

fn main() -> Result<(), Error> {
    let square = [[0, 0], [2, 0], [4, 0], [4, 4], [0, 4]].map(|[x, y]| IntPoint::new(x, y));
    let points = square.repeat(1000);
    let offsets = offsets::try_from_lengths([square.len(); 1000])?;
    let left = simplified_by(4, Contours::try_new(&points, &offsets)?)?;
    println!(
        "{} of {} points are left",
        left.points().len(),
        points.len()
    );
    Ok(())
}
