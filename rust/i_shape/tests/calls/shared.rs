//! Worked contours, at any width.

use i_shape::int::shape::{IntContour, IntShape, IntShapes};
use i_shape::int::{IntNumber, IntPoint};
use std::cell::Cell;
use std::fmt::Debug;

/// A coordinate that small numbers can be turned into.
pub trait Number: IntNumber + From<i8> + Debug {
    /// The least coordinate above the safe range.
    const ABOVE: Self;
}

impl Number for i16 {
    const ABOVE: i16 = 1 << 14;
}

impl Number for i32 {
    const ABOVE: i32 = 1 << 30;
}

impl Number for i64 {
    const ABOVE: i64 = 1 << 62;
}

/// A contour that is written out.
pub type Written = [[i8; 2]];

pub const SQUARE: [[i8; 2]; 4] = [[0, 0], [4, 0], [4, 4], [0, 4]];
/// A square from another start, with a point on an edge.
pub const STRAIGHT: [[i8; 2]; 5] = [[4, 4], [0, 4], [0, 0], [2, 0], [4, 0]];
/// What is left of it.
pub const TURNED: [[i8; 2]; 4] = [[4, 4], [0, 4], [0, 0], [4, 0]];
pub const FLAT: [[i8; 2]; 3] = [[0, 0], [0, 8], [0, 1]];
pub const SPIKED: [[i8; 2]; 6] = [[0, 0], [4, 0], [4, 4], [4, 8], [4, 4], [0, 4]];
pub const HOLE: [[i8; 2]; 3] = [[1, 1], [1, 2], [2, 1]];
/// It winds twice about its middle.
pub const STAR: [[i8; 2]; 5] = [[0, 9], [-6, -8], [9, 3], [-9, 3], [6, -8]];

pub fn point<I: Number>([x, y]: [i8; 2]) -> IntPoint<I> {
    IntPoint::new(I::from(x), I::from(y))
}

pub fn contour<I: Number>(points: &Written) -> IntContour<I> {
    points.iter().copied().map(point).collect()
}

pub fn shape<I: Number>(contours: &[&Written]) -> IntShape<I> {
    contours.iter().map(|points| contour(points)).collect()
}

pub fn shapes<I: Number>(shapes: &[&[&Written]]) -> IntShapes<I> {
    shapes.iter().map(|contours| shape(contours)).collect()
}

/// The way round a square of that side, with a point at each whole number.
pub fn walk_round<I: Number + TryFrom<i32>>(side: i32) -> IntContour<I> {
    let number = |whole: i32| I::try_from(whole).ok().expect("the side fits");
    let at = |x, y| IntPoint::new(number(x), number(y));
    let right = (0..side).map(|k| at(k, 0));
    let up = (0..side).map(|k| at(side, k));
    let left = (0..side).map(|k| at(side - k, side));
    let down = (0..side).map(|k| at(0, side - k));
    right.chain(up).chain(left).chain(down).collect()
}

/// A point of contours, and the index of the one that follows it.
pub struct Place {
    pub at: [i64; 2],
    pub next: usize,
}

impl Place {
    /// Those of the contours, end to end.
    pub fn of(contours: &[&Written]) -> Vec<Place> {
        let mut places = Vec::new();
        for contour in contours {
            let start = places.len();
            places.extend(contour.iter().enumerate().map(|(k, at)| Place {
                at: at.map(i64::from),
                next: start + (k + 1) % contour.len(),
            }));
        }
        places
    }
}

/// Numbers in no order to be seen, the same of each seed.
pub struct Numbers(u64);

impl Numbers {
    pub fn new(seed: u64) -> Self {
        Numbers(seed)
    }

    /// A number from 0 to below the bound.
    pub fn below(&mut self, bound: i8) -> i8 {
        self.0 = self.0.wrapping_mul(6_364_136_223_846_793_005);
        self.0 = self.0.wrapping_add(1_442_695_040_888_963_407);
        i8::try_from((self.0 >> 33) % u64::try_from(bound).unwrap()).unwrap()
    }

    /// A contour of at most so many points, on a grid of that side.
    pub fn contour(&mut self, most: i8, side: i8) -> Vec<[i8; 2]> {
        let count = self.below(most + 1);
        (0..count)
            .map(|_| [self.below(side), self.below(side)])
            .collect()
    }

    /// At most so many contours.
    pub fn contours(&mut self, count: i8, most: i8, side: i8) -> Vec<Vec<[i8; 2]>> {
        let count = self.below(count + 1);
        (0..count).map(|_| self.contour(most, side)).collect()
    }

    /// So many polygons, on small grids that lie at any place of one of that side.
    pub fn moved_polygons(&mut self, count: i8, side: i8) -> Vec<Vec<Vec<[i8; 2]>>> {
        let moved = |numbers: &mut Self| {
            let by = [numbers.below(side - 3), numbers.below(side - 3)];
            let mut contours = numbers.contours(3, 6, 4);
            for point in contours.iter_mut().flatten() {
                *point = [point[0] + by[0], point[1] + by[1]];
            }
            contours
        };
        (0..count).map(|_| moved(self)).collect()
    }
}

/// A test at each width.
macro_rules! at_each_width {
    ($($test:ident),* $(,)?) => {
        mod at_16_bits {
            $(#[test] fn $test() { super::$test::<i16>(); })*
        }
        mod at_32_bits {
            $(#[test] fn $test() { super::$test::<i32>(); })*
        }
        mod at_64_bits {
            $(#[test] fn $test() { super::$test::<i64>(); })*
        }
    };
}

pub(crate) use at_each_width;

/// A list that has one item more each time it is looked at.
pub struct Growing<'a, T> {
    items: &'a [T],
    looks: Cell<usize>,
}

impl<'a, T> Growing<'a, T> {
    pub fn new(items: &'a [T]) -> Self {
        let looks = Cell::new(0);
        Growing { items, looks }
    }
}

impl<T> AsRef<[T]> for Growing<'_, T> {
    fn as_ref(&self) -> &[T] {
        self.looks.set(self.looks.get() + 1);
        &self.items[..self.looks.get()]
    }
}
