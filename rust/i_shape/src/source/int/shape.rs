//! A list of paths lends them, whether it has them or borrows them.

use super::resource::IntShapeResource;
use crate::int::shape::IntContour;
use crate::int::{IntNumber, IntPoint};
use alloc::vec::Vec;
use core::{iter, slice};

/// Iterator over the paths of a list.
pub type ShapeResourceIterator<'a, P> =
    iter::Map<slice::Iter<'a, Vec<P>>, fn(&'a Vec<P>) -> &'a [P]>;

impl<I: IntNumber> IntShapeResource<I> for [IntContour<I>] {
    type ResourceIter<'a> = ShapeResourceIterator<'a, IntPoint<I>>;

    fn iter_paths(&self) -> Self::ResourceIter<'_> {
        self.iter().map(Vec::as_slice)
    }
}

impl<I: IntNumber> IntShapeResource<I> for [&[IntPoint<I>]] {
    type ResourceIter<'a>
        = iter::Copied<slice::Iter<'a, &'a [IntPoint<I>]>>
    where
        Self: 'a;

    fn iter_paths(&self) -> Self::ResourceIter<'_> {
        self.iter().copied()
    }
}
