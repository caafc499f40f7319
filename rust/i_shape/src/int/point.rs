//! Points: the crate's own, and those of a caller.

use super::IntNumber;
use super::shape::IntContour;
use crate::erased::i_shape_core::point::ContourPoint as _;
use alloc::vec::Vec;
use core::fmt;
use core::mem::{ManuallyDrop, offset_of};
use core::ops::{Add, Neg, Sub};
use core::slice;

/// A point, or the vector between two points, laid out as a C struct of x and y. Points are ordered
/// by x and then by y. Sums overflow where those of the coordinates do.
///
/// ```
/// use i_shape::int::IntPoint;
///
/// let point = IntPoint::from([5, -2]) - (1, 2).into() + IntPoint::default();
/// assert_eq!(point, -IntPoint::new(-4, 4));
/// assert_eq!(point.to_string(), "(4, -4)");
/// assert_eq!(<[i32; 2]>::from(point), [4, -4]);
/// ```
#[repr(C)]
#[derive(Clone, Copy, Default, PartialEq, Eq, PartialOrd, Ord, Hash, Debug)]
pub struct IntPoint<I> {
    /// To the right.
    pub x: I,
    /// Upwards.
    pub y: I,
}

impl<I> IntPoint<I> {
    /// Returns the point with these coordinates.
    #[must_use]
    pub const fn new(x: I, y: I) -> Self {
        IntPoint { x, y }
    }
}

impl<I: IntNumber> IntPoint<I> {
    /// The point whose coordinates are 0.
    pub const ZERO: Self = IntPoint::new(I::ZERO, I::ZERO);

    /// Returns whether both coordinates lie strictly between -2^(W-2) and 2^(W-2), where W is their
    /// number of bits.
    #[must_use]
    pub fn is_in_safe_range(&self) -> bool {
        self.to_point().is_in_safe_range()
    }

    /// Returns the cross product of two vectors, positive if `other` points to the left of this one. It
    /// always fits.
    ///
    /// ```
    /// use i_shape::int::IntPoint;
    ///
    /// let [east, up] = [(3_i16, 0), (1, 5)].map(IntPoint::from);
    /// assert_eq!(east.cross_product(up), 15_i32);
    /// assert_eq!(east.dot_product(up), 3);
    /// ```
    #[must_use]
    pub fn cross_product(self, other: Self) -> I::Wide {
        self.to_point().cross_product(other.to_point())
    }

    /// Returns the dot product of two vectors. It wraps only if all four coordinates are the least
    /// number.
    #[must_use]
    pub fn dot_product(self, other: Self) -> I::Wide {
        self.to_point().dot_product(other.to_point())
    }
}

impl<I> From<[I; 2]> for IntPoint<I> {
    fn from([x, y]: [I; 2]) -> Self {
        IntPoint { x, y }
    }
}

impl<I> From<(I, I)> for IntPoint<I> {
    fn from((x, y): (I, I)) -> Self {
        IntPoint { x, y }
    }
}

impl<I> From<IntPoint<I>> for [I; 2] {
    fn from(point: IntPoint<I>) -> Self {
        [point.x, point.y]
    }
}

impl<I> From<IntPoint<I>> for (I, I) {
    fn from(point: IntPoint<I>) -> Self {
        (point.x, point.y)
    }
}

impl<I: Add<Output = I>> Add for IntPoint<I> {
    type Output = Self;

    fn add(self, other: Self) -> Self {
        IntPoint::new(self.x + other.x, self.y + other.y)
    }
}

impl<I: Sub<Output = I>> Sub for IntPoint<I> {
    type Output = Self;

    fn sub(self, other: Self) -> Self {
        IntPoint::new(self.x - other.x, self.y - other.y)
    }
}

impl<I: Neg<Output = I>> Neg for IntPoint<I> {
    type Output = Self;

    fn neg(self) -> Self {
        IntPoint::new(-self.x, -self.y)
    }
}

impl<I: fmt::Display> fmt::Display for IntPoint<I> {
    fn fmt(&self, formatter: &mut fmt::Formatter<'_>) -> fmt::Result {
        write!(formatter, "({}, {})", self.x, self.y)
    }
}

/// A point type of a caller's own, whose slices are read and written as slices of [`IntPoint`],
/// without a copy.
///
/// [`contour_point!`](crate::contour_point) implements it for a struct after it has checked the
/// layout, so that a caller writes no `unsafe`. It is implemented for arrays of two coordinates.
///
/// # Safety
///
/// The type has the size, the alignment and the fields of `IntPoint<Self::Coordinate>`: x first,
/// then y, and nothing beside them. Whatever the two numbers are, they are a value of the type.
pub unsafe trait ContourPoint: Copy {
    /// The type of the coordinates.
    type Coordinate: IntNumber;
}

// SAFETY: it is the type itself.
unsafe impl<I: IntNumber> ContourPoint for IntPoint<I> {
    type Coordinate = I;
}

// SAFETY: an array has its items one after the other, as `IntPoint` has its fields by `repr(C)`.
unsafe impl<I: IntNumber> ContourPoint for [I; 2] {
    type Coordinate = I;
}

/// Returns whether points and arrays at a width are laid out as a C struct of two coordinates.
#[allow(dead_code, reason = "rustc 1.85 overlooks the assertion below")]
const fn is_laid_out<I>() -> bool {
    let size = size_of::<I>();
    size_of::<IntPoint<I>>() == 2 * size
        && size_of::<[I; 2]>() == 2 * size
        && align_of::<IntPoint<I>>() == align_of::<[I; 2]>()
        && offset_of!(IntPoint<I>, x) == 0
        && offset_of!(IntPoint<I>, y) == size
}

const _: () = assert!(is_laid_out::<i16>() && is_laid_out::<i32>() && is_laid_out::<i64>());

/// Implements [`ContourPoint`](crate::int::ContourPoint) for a struct with two coordinates, which
/// are named as x and y in turn.
///
/// ```
/// use i_shape::int::{AsIntPoints, from_int_points, simple::SimpleContour};
///
/// #[repr(C)]
/// #[derive(Clone, Copy, Debug, PartialEq)]
/// struct Corner {
///     east: i32,
///     north: i32,
/// }
///
/// i_shape::contour_point!(Corner { east, north }: i32);
///
/// let parcel = [[0, 0], [2, 0], [4, 0], [4, 4]].map(|[east, north]| Corner { east, north });
/// let left = parcel.as_int_points().simplified().expect("it has an area");
/// let corners: Vec<Corner> = from_int_points(left);
/// assert_eq!(corners, [parcel[0], parcel[2], parcel[3]]);
/// ```
///
/// The compiler rejects a struct with another layout. `repr(C)` is how a struct promises its
/// layout; without it the compiler may reject the struct one day. A third field is rejected, even
/// one without size:
///
/// ```compile_fail
/// #[repr(C)]
/// #[derive(Clone, Copy)]
/// struct Labelled { x: i32, y: i32, label: i32 }
/// i_shape::contour_point!(Labelled { x, y }: i32);
/// ```
///
/// ```compile_fail
/// #[derive(Clone, Copy)]
/// struct Permit(());
/// #[repr(C)]
/// #[derive(Clone, Copy)]
/// struct Permitted { x: i32, y: i32, permit: Permit }
/// i_shape::contour_point!(Permitted { x, y }: i32);
/// ```
///
/// A point of another crate goes into a struct of your own that is `repr(transparent)`, and its
/// type and its coordinates are named behind the field:
///
/// ```
/// # mod geo_types {
/// #     #[derive(Clone, Copy, Debug, PartialEq)]
/// #     pub struct Coord<T> { pub x: T, pub y: T }
/// # }
/// use geo_types::Coord;
/// use i_shape::int::{AsIntPoints, simple::SimpleContour};
///
/// #[repr(transparent)]
/// #[derive(Clone, Copy, Debug, PartialEq)]
/// struct Own(Coord<i32>);
///
/// i_shape::contour_point!(Own { 0: Coord<i32> { x, y } }: i32);
///
/// let parcel = [[0, 0], [2, 0], [4, 0], [4, 4]].map(|[x, y]| Own(Coord { x, y }));
/// assert!(!parcel.as_int_points().is_simple());
/// ```
///
/// ```compile_fail
/// #[repr(C)]
/// #[derive(Clone, Copy)]
/// struct Swapped { y: i32, x: i32 }
/// #[repr(transparent)]
/// #[derive(Clone, Copy)]
/// struct Own(Swapped);
/// i_shape::contour_point!(Own { 0: Swapped { x, y } }: i32);
/// ```
///
/// ```compile_fail
/// #[repr(C)]
/// #[derive(Clone, Copy)]
/// struct Labelled { x: i32, y: i32, label: () }
/// #[repr(transparent)]
/// #[derive(Clone, Copy)]
/// struct Own(Labelled);
/// i_shape::contour_point!(Own { 0: Labelled { x, y } }: i32);
/// ```
///
/// So are coordinates that aren't aligned, in another order, of another type, and references:
///
/// ```compile_fail
/// #[repr(C, packed)]
/// #[derive(Clone, Copy)]
/// struct Packed { x: i32, y: i32 }
/// i_shape::contour_point!(Packed { x, y }: i32);
/// ```
///
/// ```compile_fail
/// #[repr(C)]
/// #[derive(Clone, Copy)]
/// struct Swapped { y: i32, x: i32 }
/// i_shape::contour_point!(Swapped { x, y }: i32);
/// ```
///
/// ```compile_fail
/// #[repr(C)]
/// #[derive(Clone, Copy)]
/// struct Unsigned { x: u32, y: u32 }
/// i_shape::contour_point!(Unsigned { x, y }: i32);
/// ```
///
/// ```compile_fail
/// #[repr(C)]
/// #[derive(Clone, Copy)]
/// struct Lent { x: &'static i64, y: &'static i64 }
/// i_shape::contour_point!(Lent { x, y }: i64);
/// ```
///
/// It expands to an `unsafe impl` behind these tests, and compiles under
/// `#![forbid(unsafe_code)]` too.
#[macro_export]
macro_rules! contour_point {
    ($point:ty { $field:tt: $whole:ty { $x:tt, $y:tt } }: $number:ty) => {
        const _: () = {
            use ::core::mem::{align_of, offset_of, size_of};
            const SIZE: usize = size_of::<$number>();
            assert!(
                size_of::<$point>() == 2 * SIZE,
                "its size isn't that of two coordinates"
            );
            assert!(
                align_of::<$point>() == align_of::<$number>(),
                "its alignment isn't that of a coordinate"
            );
            assert!(
                offset_of!($point, $field) == 0
                    && offset_of!($whole, $x) == 0
                    && offset_of!($whole, $y) == SIZE,
                "the two fields don't lie one after the other, x first"
            );
            // by value, and of whole patterns, as below
            const fn _coordinates(point: $point) -> [$number; 2] {
                type __Point = $point;
                type __Whole = $whole;
                let __Point {
                    $field: __Whole { $x: x, $y: y },
                } = point;
                [x, y]
            }
        };
        // SAFETY: as below.
        unsafe impl $crate::int::ContourPoint for $point {
            type Coordinate = $number;
        }
    };
    ($point:ty { $x:tt, $y:tt }: $number:ty) => {
        const _: () = {
            use ::core::mem::{align_of, offset_of, size_of};
            const SIZE: usize = size_of::<$number>();
            assert!(
                size_of::<$point>() == 2 * SIZE,
                "its size isn't that of two coordinates"
            );
            assert!(
                align_of::<$point>() == align_of::<$number>(),
                "its alignment isn't that of a coordinate"
            );
            assert!(
                offset_of!($point, $x) == 0 && offset_of!($point, $y) == SIZE,
                "the two fields don't lie one after the other, x first"
            );
            // by value, and of a whole pattern: a third field, or what is no number of this type,
            // is rejected
            const fn _coordinates(point: $point) -> [$number; 2] {
                type __Point = $point;
                let __Point { $x: x, $y: y } = point;
                [x, y]
            }
        };
        // SAFETY: size, alignment, offsets and types of the fields are those of `IntPoint`, and of
        // two numbers each is a value.
        unsafe impl $crate::int::ContourPoint for $point {
            type Coordinate = $number;
        }
    };
}

/// Slices of points of a caller's own, as slices of [`IntPoint`].
pub trait AsIntPoints {
    /// The type of the coordinates.
    type Coordinate: IntNumber;

    /// Returns the same points, where they lie.
    #[must_use]
    fn as_int_points(&self) -> &[IntPoint<Self::Coordinate>];

    /// Returns the same points, to be written where they lie.
    #[must_use]
    fn as_int_points_mut(&mut self) -> &mut [IntPoint<Self::Coordinate>];
}

impl<P: ContourPoint> AsIntPoints for [P] {
    type Coordinate = P::Coordinate;

    fn as_int_points(&self) -> &[IntPoint<P::Coordinate>] {
        // SAFETY: by `ContourPoint` the layout is the same.
        unsafe { slice::from_raw_parts(self.as_ptr().cast(), self.len()) }
    }

    fn as_int_points_mut(&mut self) -> &mut [IntPoint<P::Coordinate>] {
        // SAFETY: by `ContourPoint` the layout is the same, and what is written is a value of P.
        unsafe { slice::from_raw_parts_mut(self.as_mut_ptr().cast(), self.len()) }
    }
}

/// Returns the points of a contour as points of a caller's own. Nothing is copied.
#[must_use]
pub fn from_int_points<P: ContourPoint>(contour: IntContour<P::Coordinate>) -> Vec<P> {
    let mut contour = ManuallyDrop::new(contour);
    let (start, count, room) = (contour.as_mut_ptr(), contour.len(), contour.capacity());
    // SAFETY: the block is that of a vector which isn't dropped; by `ContourPoint` size and
    // alignment are the same, and each point is a value of P.
    unsafe { Vec::from_raw_parts(start.cast(), count, room) }
}
