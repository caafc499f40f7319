//! What lends paths: a path, a list of paths, a list of shapes, and the flat buffers.
//!
//! ```
//! use i_shape::int_path;
//! use i_shape::source::int::resource::IntShapeResource;
//!
//! let track = int_path![[0_i32, 0], [5, 0], [5, 8], [0, 8]];
//! assert_eq!(track.iter_paths().next(), Some(track.as_slice()));
//!
//! // several paths, without a copy of their points
//! let parts = [track.as_slice(), &track[..2], &track[2..]];
//! assert_eq!(parts.iter_paths().map(<[_]>::len).sum::<usize>(), 8);
//! ```

use crate::int::{IntNumber, IntPoint};
use alloc::vec::Vec;

pub use super::buffer::IntBufferResourceIterator as BufferPaths;

/// Lends its paths, in order and as often as it is asked, without a copy. Empty paths are lent too.
/// Of shapes the contours are lent, one shape after the other; of a flat buffer those of its
/// contours' ranges, in their order.
pub trait IntShapeResource<I: IntNumber> {
    /// Iterator over the paths.
    type ResourceIter<'a>: Iterator<Item = &'a [IntPoint<I>]>
    where
        I: 'a,
        Self: 'a;

    /// Returns the paths, in order.
    fn iter_paths(&self) -> Self::ResourceIter<'_>;
}

impl<I: IntNumber, T> IntShapeResource<I> for Vec<T>
where
    [T]: IntShapeResource<I>,
{
    type ResourceIter<'a>
        = <[T] as IntShapeResource<I>>::ResourceIter<'a>
    where
        Self: 'a;

    fn iter_paths(&self) -> Self::ResourceIter<'_> {
        self.as_slice().iter_paths()
    }
}

impl<I: IntNumber, T, const N: usize> IntShapeResource<I> for [T; N]
where
    [T]: IntShapeResource<I>,
{
    type ResourceIter<'a>
        = <[T] as IntShapeResource<I>>::ResourceIter<'a>
    where
        Self: 'a;

    fn iter_paths(&self) -> Self::ResourceIter<'_> {
        self.as_slice().iter_paths()
    }
}

impl<I: IntNumber, R: IntShapeResource<I> + ?Sized> IntShapeResource<I> for &R {
    type ResourceIter<'a>
        = R::ResourceIter<'a>
    where
        Self: 'a;

    fn iter_paths(&self) -> Self::ResourceIter<'_> {
        (**self).iter_paths()
    }
}

impl<I: IntNumber, R: IntShapeResource<I> + ?Sized> IntShapeResource<I> for &mut R {
    type ResourceIter<'a>
        = R::ResourceIter<'a>
    where
        Self: 'a;

    fn iter_paths(&self) -> Self::ResourceIter<'_> {
        (**self).iter_paths()
    }
}
