//! A flat buffer lends the path of each range of points.

use super::resource::IntShapeResource;
use crate::flat::buffer::{FlatContoursBuffer, FlatShapesBuffer};
use crate::int::{IntNumber, IntPoint};
use core::iter::FusedIterator;
use core::ops::Range;
use core::slice;

/// Iterator over the paths of a buffer. It panics at a range that runs backwards or doesn't lie
/// within the points.
#[derive(Clone, Debug)]
pub struct IntBufferResourceIterator<'a, I> {
    points: &'a [IntPoint<I>],
    ranges: slice::Iter<'a, Range<usize>>,
}

impl<'a, I> Iterator for IntBufferResourceIterator<'a, I> {
    type Item = &'a [IntPoint<I>];

    fn next(&mut self) -> Option<Self::Item> {
        let range = self.ranges.next()?;
        Some(&self.points[range.clone()])
    }

    fn size_hint(&self) -> (usize, Option<usize>) {
        self.ranges.size_hint()
    }
}

impl<I> ExactSizeIterator for IntBufferResourceIterator<'_, I> {}
impl<I> FusedIterator for IntBufferResourceIterator<'_, I> {}

impl<I: IntNumber> IntShapeResource<I> for FlatContoursBuffer<I> {
    type ResourceIter<'a> = IntBufferResourceIterator<'a, I>;

    fn iter_paths(&self) -> Self::ResourceIter<'_> {
        IntBufferResourceIterator {
            points: &self.points,
            ranges: self.ranges.iter(),
        }
    }
}

impl<I: IntNumber> IntShapeResource<I> for FlatShapesBuffer<I> {
    type ResourceIter<'a> = IntBufferResourceIterator<'a, I>;

    fn iter_paths(&self) -> Self::ResourceIter<'_> {
        IntBufferResourceIterator {
            points: &self.points,
            ranges: self.contour_ranges.iter(),
        }
    }
}
