//! A path lends itself.

use super::resource::IntShapeResource;
use crate::int::{IntNumber, IntPoint};
use core::iter;

/// Iterator over the one path.
pub type ContourResourceIterator<'a, P> = iter::Once<&'a [P]>;

impl<I: IntNumber> IntShapeResource<I> for [IntPoint<I>] {
    type ResourceIter<'a> = ContourResourceIterator<'a, IntPoint<I>>;

    fn iter_paths(&self) -> Self::ResourceIter<'_> {
        iter::once(self)
    }
}
