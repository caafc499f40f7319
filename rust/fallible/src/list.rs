//! A list whose growth can fail.

use super::rust_alloc::vec;
use crate::alloc::{AllocError, AllocFailed, Global};
use core::fmt;
use core::hint::black_box;
use core::ops::{Deref, DerefMut, Range};
use core::slice;

/// Rattle's `Vec`: Rust's, but a call that grows it returns an error if an allocation fails, and leaves it as it was.
///
/// It is a type of its own, since a method of Rust's `Vec` would go before one of a trait. It lends its items as a
/// slice, and never as Rust's `Vec`, which grows without an error.
#[derive(PartialEq, Eq, PartialOrd, Ord, Hash)]
#[repr(transparent)]
pub struct Vec<T>(vec::Vec<T>);

impl<T> Vec<T> {
    /// Rattle's `Vec::new`: an empty list that holds no memory.
    pub const fn new(_alloc: Global) -> Vec<T> {
        Vec(vec::Vec::new())
    }

    /// Rattle's `Vec::with_capacity`: an empty list with room for at least `capacity` items.
    pub fn with_capacity(_alloc: Global, capacity: usize) -> Result<Vec<T>, AllocError> {
        let mut items = vec::Vec::new();
        items.try_reserve_exact(capacity)?;
        Ok(Vec(items))
    }

    /// Rattle's `Vec::from_slice`: a copy of the items.
    pub fn from_slice(alloc: Global, items: &[T]) -> Result<Vec<T>, AllocError>
    where
        T: Copy,
    {
        Vec::from_clones(alloc, items)
    }

    /// Rattle's `Vec::from_clones`: a list of a clone of each item.
    pub fn from_clones(alloc: Global, items: &[T]) -> Result<Vec<T>, AllocError>
    where
        T: Clone,
    {
        let mut list = Vec::with_capacity(alloc, items.len())?;
        list.0.extend_from_slice(items);
        Ok(list)
    }

    /// Rattle's `Vec::from_array`, which `vec![in alloc; x, y]` calls: a list of these items.
    pub fn from_array<const N: usize>(alloc: Global, items: [T; N]) -> Result<Vec<T>, AllocError> {
        let mut list = Vec::with_capacity(alloc, N)?;
        list.0.extend(items);
        Ok(list)
    }

    /// Rattle's `Vec::from_elem`, which `vec![in alloc; x; n]` calls: a list of `count` clones of the item.
    pub fn from_elem(alloc: Global, item: T, count: usize) -> Result<Vec<T>, AllocError>
    where
        T: Clone,
    {
        let mut list = Vec::with_capacity(alloc, count)?;
        list.0.resize(count, item);
        Ok(list)
    }

    /// Rattle's `Vec::allocator`: the allocator, which is the only one.
    pub fn allocator(&self) -> &Global {
        &Global
    }

    /// Rattle's `Vec::push`: appends the item. An error holds the item.
    pub fn push(&mut self, value: T) -> Result<(), AllocFailed<T>> {
        if self.0.try_reserve(1).is_err() {
            return Err(AllocFailed { value });
        }
        self.0.push(value);
        Ok(())
    }

    /// Rattle's `Vec::push_reserved`, whose contract requires room: appends the item, and never grows the list.
    ///
    /// # Panics
    ///
    /// If there is no room for the item.
    #[inline]
    pub fn push_reserved(&mut self, value: T) {
        // Rust's `push` may grow the list, so without this test each loop would read its address and its room again.
        assert!(self.0.len() < self.0.capacity());
        self.0.push(value);
    }

    /// Rattle's `Vec::insert`: inserts the item at the index `at`, and moves the items from there on up by one. An
    /// error holds the item.
    ///
    /// # Panics
    ///
    /// If `at` is above the length.
    pub fn insert(&mut self, at: usize, value: T) -> Result<(), AllocFailed<T>> {
        if self.0.try_reserve(1).is_err() {
            return Err(AllocFailed { value });
        }
        self.0.insert(at, value);
        Ok(())
    }

    /// Rattle's `Vec::capacity`: the number of items that the list has room for.
    pub fn capacity(&self) -> usize {
        self.0.capacity()
    }

    /// Rattle's `Vec::as_slice`: the items.
    pub fn as_slice(&self) -> &[T] {
        &self.0
    }

    /// Rattle's `Vec::as_mut_slice`: the items, to change.
    pub fn as_mut_slice(&mut self) -> &mut [T] {
        &mut self.0
    }

    /// Rattle's `Vec::clear`: removes all items, and keeps their memory.
    pub fn clear(&mut self) {
        self.0.clear();
    }

    /// Rattle's `Vec::truncate`: removes the items from `len` on, and keeps their memory.
    pub fn truncate(&mut self, len: usize) {
        self.0.truncate(len);
    }

    /// Rattle's `Vec::pop`: removes the last item, if there is one, and returns it.
    pub fn pop(&mut self) -> Option<T> {
        self.0.pop()
    }

    /// Rattle's `Vec::remove`: removes the item at the index `at`, and returns it. Those behind it move down by one.
    ///
    /// # Panics
    ///
    /// If there is no item at `at`.
    pub fn remove(&mut self, at: usize) -> T {
        self.0.remove(at)
    }

    /// Rattle's `Vec::retain`: removes the items of which the test is false. The others stay in order.
    pub fn retain(&mut self, test: impl FnMut(&T) -> bool) {
        self.0.retain(test);
    }

    /// Rattle's `Vec::slice_mut`, for `&mut list[range]`: the items of the range, to change.
    ///
    /// # Panics
    ///
    /// If the range runs backwards or ends above the length.
    pub fn slice_mut(&mut self, range: Range<usize>) -> &mut [T] {
        &mut self.0[range]
    }

    /// Rattle's `Vec::reserve`: makes room for at least `additional` more items.
    pub fn reserve(&mut self, additional: usize) -> Result<(), AllocError> {
        Ok(self.0.try_reserve(additional)?)
    }

    /// Rattle's `Vec::extend_from_slice`: appends copies of all items or, with an error, none.
    pub fn extend_from_slice(&mut self, items: &[T]) -> Result<(), AllocError>
    where
        T: Copy,
    {
        self.reserve(items.len())?;
        self.0.extend_from_slice(items);
        Ok(())
    }

    /// Rattle's `Vec::sort_by_cached_key`: sorts by a key that is computed once for each item. Items of equal keys stay
    /// in order.
    ///
    /// It takes as much memory as Rattle's, so that both fail at the same calls: for more than 20 items also the
    /// room into which Rattle's sort merges, though Rust's sorts in place.
    pub fn sort_by_cached_key<K: Ord>(&mut self, key: impl FnMut(&T) -> K) -> Result<(), AllocError>
    where
        T: Copy,
    {
        const SORTED_IN_PLACE: usize = 20;
        let len = self.len();
        if len < 2 {
            return Ok(());
        }
        let mut keys = Vec::with_capacity(Global, len)?;
        keys.0.extend(self.iter().map(key).zip(0..));
        if len > SORTED_IN_PLACE {
            // it is never read, and without the black box a compiler may leave the allocation out
            black_box(Vec::<(K, usize)>::with_capacity(Global, len)?);
        }
        keys.sort_unstable();
        let items = Vec::from_slice(Global, self)?;
        for (place, (_key, from)) in self.iter_mut().zip(keys) {
            *place = items[from];
        }
        Ok(())
    }
}

impl<T> Deref for Vec<T> {
    type Target = [T];

    fn deref(&self) -> &[T] {
        &self.0
    }
}

impl<T> DerefMut for Vec<T> {
    fn deref_mut(&mut self) -> &mut [T] {
        &mut self.0
    }
}

impl<T: fmt::Debug> fmt::Debug for Vec<T> {
    fn fmt(&self, f: &mut fmt::Formatter<'_>) -> fmt::Result {
        self.0.fmt(f)
    }
}

impl<T> From<vec::Vec<T>> for Vec<T> {
    fn from(items: vec::Vec<T>) -> Vec<T> {
        Vec(items)
    }
}

impl<T> From<Vec<T>> for vec::Vec<T> {
    fn from(list: Vec<T>) -> vec::Vec<T> {
        list.0
    }
}

impl<T> IntoIterator for Vec<T> {
    type Item = T;
    type IntoIter = vec::IntoIter<T>;

    fn into_iter(self) -> vec::IntoIter<T> {
        self.0.into_iter()
    }
}

impl<'a, T> IntoIterator for &'a Vec<T> {
    type Item = &'a T;
    type IntoIter = slice::Iter<'a, T>;

    fn into_iter(self) -> slice::Iter<'a, T> {
        self.0.iter()
    }
}

impl<'a, T> IntoIterator for &'a mut Vec<T> {
    type Item = &'a mut T;
    type IntoIter = slice::IterMut<'a, T>;

    fn into_iter(self) -> slice::IterMut<'a, T> {
        self.0.iter_mut()
    }
}
