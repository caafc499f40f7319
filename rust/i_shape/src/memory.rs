//! Vectors whose growth returns an error if it fails.

use crate::Error;
use alloc::vec::Vec;

/// Returns an empty vector with room for at least `count` items.
pub(crate) fn try_with_capacity<T>(count: usize) -> Result<Vec<T>, Error> {
    let mut items = Vec::new();
    items
        .try_reserve_exact(count)
        .map_err(|_| Error::NoMemory)?;
    Ok(items)
}

/// Makes room for at least `count` more items.
pub(crate) fn try_reserve<T>(items: &mut Vec<T>, count: usize) -> Result<(), Error> {
    items.try_reserve(count).map_err(|_| Error::NoMemory)
}

/// Returns the items of a slice in a vector.
pub(crate) fn copied<T: Copy>(items: &[T]) -> Result<Vec<T>, Error> {
    let mut copy = try_with_capacity(items.len())?;
    copy.extend_from_slice(items);
    Ok(copy)
}

/// Returns `count` copies of an item.
pub(crate) fn try_filled<T: Copy>(item: T, count: usize) -> Result<Vec<T>, Error> {
    let mut items = try_with_capacity(count)?;
    items.resize(count, item);
    Ok(items)
}

/// Returns what is made of each item, in order.
pub(crate) fn made_of_each<T, U>(
    items: impl ExactSizeIterator<Item = T>,
    make: impl Fn(T) -> Result<U, Error>,
) -> Result<Vec<U>, Error> {
    let mut made = try_with_capacity(items.len())?;
    for item in items {
        made.push(make(item)?);
    }
    Ok(made)
}
