//! Corners of a caller's own type, cleaned where they lie.
#![forbid(unsafe_code)]

use i_shape::Error;
use i_shape::int::simple::SimpleContour;
use i_shape::int::{AsIntPoints, from_int_points};

#[repr(C)]
#[derive(Clone, Copy, Debug)]
struct Corner {
    east: i32,
    north: i32,
}

i_shape::contour_point!(Corner { east, north }: i32);

fn corners(parcel: &[Corner]) -> Result<Vec<Corner>, Error> {
    let left = parcel.as_int_points().try_simplified()?;
    Ok(left.map(from_int_points).unwrap_or_default())
}

fn main() -> Result<(), Error> {
    let parcel = [[0, 0], [2, 0], [4, 0], [4, 4]].map(|[east, north]| Corner { east, north });
    for corner in corners(&parcel)? {
        println!("{} east, {} north", corner.east, corner.north);
    }
    Ok(())
}
