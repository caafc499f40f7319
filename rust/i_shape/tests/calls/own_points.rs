//! Points of a caller's own.

use i_shape::contour_point;
use i_shape::flat::Contours;
use i_shape::int::despike::DeSpikeContour;
use i_shape::int::simple::SimpleContour;
use i_shape::int::{AsIntPoints, ContourPoint, IntPoint, from_int_points};

/// The fields have names of their own.
#[repr(C)]
#[derive(Clone, Copy, Debug, PartialEq)]
struct Corner {
    east: i32,
    north: i32,
}

contour_point!(Corner { east, north }: i32);

/// The fields have no names.
#[repr(C)]
#[derive(Clone, Copy, Debug, PartialEq)]
struct Given(i64, i64);

contour_point!(Given { 0, 1 }: i64);

/// The coordinates' type is a parameter.
#[repr(C)]
#[derive(Clone, Copy, Debug, PartialEq)]
struct Vertex<T> {
    x: T,
    y: T,
}

contour_point!(Vertex<i16> { x, y }: i16);

mod foreign {
    #[repr(C)]
    #[derive(Clone, Copy, Debug, PartialEq)]
    pub struct Coord<T> {
        pub x: T,
        pub y: T,
    }
}

/// A point of another crate, in a type of one's own.
#[repr(transparent)]
#[derive(Clone, Copy, Debug, PartialEq)]
struct Wrapped(foreign::Coord<i64>);

contour_point!(Wrapped { 0: foreign::Coord<i64> { x, y } }: i64);

/// The field has a name.
#[repr(transparent)]
#[derive(Clone, Copy, Debug, PartialEq)]
struct Named {
    place: foreign::Coord<i16>,
}

contour_point!(Named { place: foreign::Coord<i16> { x, y } }: i16);

const STRAIGHT: [[i8; 2]; 5] = [[4, 4], [0, 4], [0, 0], [2, 0], [4, 0]];

/// The cleaners read such points where they lie and give such points back.
fn cleaned<P>(made: fn(i8, i8) -> P)
where
    P: ContourPoint + PartialEq + std::fmt::Debug,
    P::Coordinate: From<i8>,
{
    let points = STRAIGHT.map(|[x, y]| made(x, y));
    let corners = [0, 1, 2, 4].map(|place| points[place]);
    let lent = points.as_int_points();
    assert_eq!(lent.as_ptr().cast::<P>(), points.as_ptr());
    for (point, [x, y]) in lent.iter().zip(STRAIGHT) {
        assert!(*point == IntPoint::new(x.into(), y.into()));
    }

    let left = lent.simplified().expect("it has an area");
    let (place, room) = (left.as_ptr(), left.capacity());
    let left: Vec<P> = from_int_points(left);
    assert_eq!(left, corners);
    assert_eq!((left.as_ptr().cast(), left.capacity()), (place, room));

    let mut out = [points[0]; 5];
    let count = lent.simplify_into(out.as_int_points_mut());
    assert_eq!(out[..count], corners);
    assert!(lent.has_no_spikes());

    let batch = Contours::new(lent, &[0, 5]).simplified();
    let (batch, offsets) = batch.into_parts();
    assert_eq!(from_int_points::<P>(batch), corners);
    assert_eq!(offsets, [0, 4]);
}

#[test]
fn named_fields() {
    cleaned(|x, y| Corner {
        east: x.into(),
        north: y.into(),
    });
}

#[test]
fn fields_without_names() {
    cleaned(|x, y| Given(x.into(), y.into()));
}

#[test]
fn fields_of_a_type_parameter() {
    cleaned(|x, y| Vertex::<i16> {
        x: x.into(),
        y: y.into(),
    });
}

#[test]
fn points_of_another_crate() {
    cleaned(|x, y| {
        Wrapped(foreign::Coord {
            x: x.into(),
            y: y.into(),
        })
    });
    cleaned(|x, y| Named {
        place: foreign::Coord {
            x: x.into(),
            y: y.into(),
        },
    });
}

#[test]
fn arrays_of_two() {
    cleaned(|x, y| [i16::from(x), y.into()]);
    cleaned(|x, y| [i32::from(x), y.into()]);
    cleaned(|x, y| [i64::from(x), y.into()]);
}

#[test]
fn own_point_of_the_crate() {
    cleaned(|x, y| IntPoint::new(i32::from(x), y.into()));
}

#[test]
fn no_points() {
    let none: [Corner; 0] = [];
    assert_eq!(none.as_int_points(), []);
    assert_eq!(from_int_points::<Corner>(Vec::new()), []);
}
