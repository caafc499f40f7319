//! Buffers that grow: points end to end, and ranges that name contours and shapes. They are lists
//! of std and nothing else; what is cleaned is [`Contours`](super::Contours) of the same points, by
//! the offsets that [`from_ranges`](super::offsets::from_ranges) makes.
//!
//! ```
//! use i_shape::flat::buffer::FlatContoursBuffer;
//! use i_shape::int_path;
//!
//! let [wall, door] = [int_path![[0_i32, 0], [9, 0], [9, 3]], int_path![[2, 0], [3, 0], [3, 2], [2, 2]]];
//! let mut buffer = FlatContoursBuffer::default();
//! buffer.add_contour(&wall);
//! buffer.add_contour(&door);
//! assert_eq!(buffer.ranges, [0..3, 3..7]);
//! assert_eq!(buffer.to_contours(), vec![wall, door]);
//! ```

use super::offsets::ranges;
use super::{OwnedContours, OwnedShapes};
use crate::int::count::PointsCount;
use crate::int::shape::{IntContour, IntShape};
use crate::int::{IntNumber, IntPoint};
use alloc::vec::Vec;
use core::ops::Range;

/// Contours, each the range of its points.
#[derive(Clone, Debug, PartialEq, Eq)]
pub struct FlatContoursBuffer<I> {
    /// The points of all contours.
    pub points: Vec<IntPoint<I>>,
    /// The range of each contour.
    pub ranges: Vec<Range<usize>>,
}

impl<I> Default for FlatContoursBuffer<I> {
    fn default() -> Self {
        FlatContoursBuffer {
            points: Vec::new(),
            ranges: Vec::new(),
        }
    }
}

impl<I: IntNumber> FlatContoursBuffer<I> {
    /// Returns a buffer without a contour, with room for at least `capacity` points.
    #[must_use]
    pub fn with_capacity(capacity: usize) -> Self {
        FlatContoursBuffer {
            points: Vec::with_capacity(capacity),
            ranges: Vec::new(),
        }
    }

    /// Returns whether there is no point.
    #[must_use]
    pub fn is_empty(&self) -> bool {
        self.points.is_empty()
    }

    /// Returns whether there is one range.
    #[must_use]
    pub fn is_single_contour(&self) -> bool {
        self.ranges.len() == 1
    }

    /// Returns the points of the first range, or all points if there is no range.
    ///
    /// # Panics
    ///
    /// If the range runs backwards or doesn't lie within the points.
    #[must_use]
    pub fn as_first_contour(&self) -> &[IntPoint<I>] {
        &self.points[self.first_range()]
    }

    /// Returns the points of the first range, or all points if there is no range, to be written.
    ///
    /// # Panics
    ///
    /// If the range runs backwards or doesn't lie within the points.
    #[must_use]
    pub fn as_first_contour_mut(&mut self) -> &mut [IntPoint<I>] {
        let range = self.first_range();
        &mut self.points[range]
    }

    /// Replaces what the buffer holds by the contour.
    pub fn set_with_contour(&mut self, contour: &[IntPoint<I>]) {
        self.clear_and_reserve(contour.len(), 1);
        self.add_contour(contour);
    }

    /// Replaces what the buffer holds by the contours of the shape.
    pub fn set_with_shape(&mut self, shape: &[IntContour<I>]) {
        self.clear_and_reserve(shape.points_count(), shape.len());
        for contour in shape {
            self.add_contour(contour);
        }
    }

    /// Replaces what the buffer holds by the contours of the shapes.
    pub fn set_with_shapes(&mut self, shapes: &[IntShape<I>]) {
        self.clear_and_reserve(shapes.points_count(), shapes.iter().map(Vec::len).sum());
        for contour in shapes.iter().flatten() {
            self.add_contour(contour);
        }
    }

    /// Removes all contours, and makes room for at least `points` points and `contours` contours.
    pub fn clear_and_reserve(&mut self, points: usize, contours: usize) {
        clear_and_reserve(&mut self.points, points);
        clear_and_reserve(&mut self.ranges, contours);
    }

    /// Appends a contour.
    pub fn add_contour(&mut self, contour: &[IntPoint<I>]) {
        self.ranges.push(appended(&mut self.points, contour));
    }

    /// Returns a copy of each contour.
    ///
    /// # Panics
    ///
    /// If a range runs backwards or doesn't lie within the points.
    #[must_use]
    pub fn to_contours(&self) -> Vec<IntContour<I>> {
        self.ranges
            .iter()
            .map(|range| self.points[range.clone()].to_vec())
            .collect()
    }

    fn first_range(&self) -> Range<usize> {
        self.ranges.first().cloned().unwrap_or(0..self.points.len())
    }
}

impl<I: IntNumber> From<OwnedContours<I>> for FlatContoursBuffer<I> {
    fn from(contours: OwnedContours<I>) -> Self {
        let (points, offsets) = contours.into_parts();
        FlatContoursBuffer {
            points,
            ranges: ranges(&offsets).collect(),
        }
    }
}

/// Shapes, each the range of its contours, and each contour the range of its points.
#[derive(Clone, Debug, PartialEq, Eq)]
pub struct FlatShapesBuffer<I> {
    /// The points of all contours.
    pub points: Vec<IntPoint<I>>,
    /// The range of each contour, over the points.
    pub contour_ranges: Vec<Range<usize>>,
    /// The range of each shape, over the contours.
    pub shape_ranges: Vec<Range<usize>>,
}

impl<I> Default for FlatShapesBuffer<I> {
    fn default() -> Self {
        FlatShapesBuffer {
            points: Vec::new(),
            contour_ranges: Vec::new(),
            shape_ranges: Vec::new(),
        }
    }
}

impl<I: IntNumber> FlatShapesBuffer<I> {
    /// Returns a buffer without a shape, with room for at least `points` points, `contours` contours
    /// and `shapes` shapes.
    #[must_use]
    pub fn with_capacity(points: usize, contours: usize, shapes: usize) -> Self {
        FlatShapesBuffer {
            points: Vec::with_capacity(points),
            contour_ranges: Vec::with_capacity(contours),
            shape_ranges: Vec::with_capacity(shapes),
        }
    }

    /// Returns whether there is no point.
    #[must_use]
    pub fn is_empty(&self) -> bool {
        self.points.is_empty()
    }

    /// Replaces what the buffer holds by a shape of the contour.
    pub fn set_with_contour(&mut self, contour: &[IntPoint<I>]) {
        self.clear_and_reserve(contour.len(), 1, 1);
        self.append(&[contour]);
    }

    /// Replaces what the buffer holds by the shape.
    pub fn set_with_shape(&mut self, shape: &[IntContour<I>]) {
        self.clear_and_reserve(shape.points_count(), shape.len(), 1);
        self.add_shape(shape);
    }

    /// Replaces what the buffer holds by the shapes.
    pub fn set_with_shapes(&mut self, shapes: &[IntShape<I>]) {
        let contours = shapes.iter().map(Vec::len).sum();
        self.clear_and_reserve(shapes.points_count(), contours, shapes.len());
        for shape in shapes {
            self.add_shape(shape);
        }
    }

    /// Removes all shapes, and makes room for at least `points` points, `contours` contours and
    /// `shapes` shapes.
    pub fn clear_and_reserve(&mut self, points: usize, contours: usize, shapes: usize) {
        clear_and_reserve(&mut self.points, points);
        clear_and_reserve(&mut self.contour_ranges, contours);
        clear_and_reserve(&mut self.shape_ranges, shapes);
    }

    /// Appends a shape.
    pub fn add_shape(&mut self, shape: &[IntContour<I>]) {
        self.append(shape);
    }

    /// Returns a copy of each shape.
    ///
    /// # Panics
    ///
    /// If the range of a shape, or of one of its contours, runs backwards or doesn't lie within
    /// the contours, or the points.
    #[must_use]
    pub fn to_shapes(&self) -> Vec<IntShape<I>> {
        let contour = |range: &Range<usize>| self.points[range.clone()].to_vec();
        self.shape_ranges
            .iter()
            .map(|range| {
                self.contour_ranges[range.clone()]
                    .iter()
                    .map(contour)
                    .collect()
            })
            .collect()
    }

    fn append<C: AsRef<[IntPoint<I>]>>(&mut self, shape: &[C]) {
        let first = self.contour_ranges.len();
        for contour in shape {
            let range = appended(&mut self.points, contour.as_ref());
            self.contour_ranges.push(range);
        }
        self.shape_ranges.push(first..self.contour_ranges.len());
    }
}

impl<I: IntNumber> From<OwnedShapes<I>> for FlatShapesBuffer<I> {
    fn from(polygons: OwnedShapes<I>) -> Self {
        let (points, contours, shapes) = polygons.into_parts();
        FlatShapesBuffer {
            points,
            contour_ranges: ranges(&contours).collect(),
            shape_ranges: ranges(&shapes).collect(),
        }
    }
}

/// Appends a contour to the points, and returns its range.
fn appended<I: Copy>(points: &mut Vec<IntPoint<I>>, contour: &[IntPoint<I>]) -> Range<usize> {
    let start = points.len();
    points.extend_from_slice(contour);
    start..points.len()
}

/// Removes all items, and makes room for at least `count`.
fn clear_and_reserve<T>(items: &mut Vec<T>, count: usize) {
    items.clear();
    items.reserve(count);
}
