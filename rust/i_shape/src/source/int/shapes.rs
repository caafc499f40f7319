//! A list of shapes lends their paths, one shape after the other.

use super::resource::IntShapeResource;
use crate::int::shape::IntShape;
use crate::int::{IntNumber, IntPoint};
use alloc::vec::Vec;
use core::{iter, slice};

/// Iterator over the paths of each shape of a list.
pub type ShapesResourceIterator<'a, P> =
    iter::Map<iter::Flatten<slice::Iter<'a, Vec<Vec<P>>>>, fn(&'a Vec<P>) -> &'a [P]>;

impl<I: IntNumber> IntShapeResource<I> for [IntShape<I>] {
    type ResourceIter<'a> = ShapesResourceIterator<'a, IntPoint<I>>;

    fn iter_paths(&self) -> Self::ResourceIter<'_> {
        self.iter().flatten().map(Vec::as_slice)
    }
}
