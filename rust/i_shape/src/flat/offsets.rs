//! Offsets: one before each part of a list, and one behind the last.

use crate::both_forms::both_forms;
use crate::calls::first_bad_offset;
use crate::memory::{try_reserve, try_with_capacity};
use crate::{BadOffset, Error};
use alloc::borrow::Cow;
use alloc::vec::Vec;
use core::ops::Range;

/// Returns whether the offsets divide a list of `count` items: there is one, none is below the one
/// before it, and the last is at most `count`. The first may be above 0.
#[must_use]
pub fn are_fit(offsets: &[usize], count: usize) -> bool {
    try_fit(offsets, count).is_ok()
}

/// Tests that the offsets divide a list of `count` items. The error is the first offset that doesn't,
/// `None` if there is no offset.
pub(super) fn try_fit(offsets: &[usize], count: usize) -> Result<(), Option<BadOffset>> {
    match first_bad_offset(offsets, count) {
        None if !offsets.is_empty() => Ok(()),
        place => Err(place.map(|index| BadOffset {
            index,
            offset: offsets[index],
            least: index.checked_sub(1).map_or(0, |before| offsets[before]),
            most: count,
        })),
    }
}

both_forms! {
    /// Returns the offsets of parts with these lengths, from 0 on.
    ///
    /// ```
    /// assert_eq!(i_shape::flat::offsets::from_lengths([3, 0, 4]), [0, 3, 3, 7]);
    /// ```
    from_lengths, must_use;
    /// Returns [`Error::NoMemory`] if the lengths add up to more than a `usize` holds, or an
    /// allocation fails.
    pub fn try_from_lengths(lengths: impl IntoIterator<Item = usize>) -> Result<Vec<usize>, Error> {
        let lengths = lengths.into_iter();
        let mut offsets = try_with_capacity(lengths.size_hint().0.saturating_add(1))?;
        let mut end: usize = 0;
        offsets.push(end);
        for length in lengths {
            end = end.checked_add(length).ok_or(Error::NoMemory)?;
            try_reserve(&mut offsets, 1)?;
            offsets.push(end);
        }
        Ok(offsets)
    }

    /// Returns the offsets of the parts that the ranges name, as a [`buffer`](super::buffer) has
    /// them: range k goes from offset k to offset k + 1. Of no range they are `[0]`.
    from_ranges, must_use;
    /// Returns [`Error::BadOffsets`] if a range ends before its start or starts elsewhere than
    /// where the one before it ends, [`Error::NoMemory`] if an allocation fails.
    ///
    /// ```
    /// use i_shape::flat::offsets::try_from_ranges;
    ///
    /// assert_eq!(try_from_ranges(&[2..5, 5..5]), Ok(vec![2, 5, 5]));
    /// let error = try_from_ranges(&[2..5, 6..7]).unwrap_err();
    /// assert_eq!(error.to_string(), "offset 1 is 6, and not 5");
    /// ```
    pub fn try_from_ranges(ranges: &[Range<usize>]) -> Result<Vec<usize>, Error> {
        let mut end = ranges.first().map_or(0, |range| range.start);
        let mut offsets = try_with_capacity(ranges.len().saturating_add(1))?;
        offsets.push(end);
        for (index, range) in ranges.iter().enumerate() {
            check_offset(index, range.start, end, end)?;
            check_offset(index + 1, range.end, end, usize::MAX)?;
            end = range.end;
            offsets.push(end);
        }
        Ok(offsets)
    }
}

/// Returns the error of an offset that isn't from `least` to `most`.
fn check_offset(index: usize, offset: usize, least: usize, most: usize) -> Result<(), Error> {
    if (least..=most).contains(&offset) {
        return Ok(());
    }
    Err(Error::BadOffsets(Some(BadOffset {
        index,
        offset,
        least,
        most,
    })))
}

/// Returns the sum of the lengths, [`Error::NoMemory`] if a `usize` doesn't hold it.
pub(super) fn try_sum(mut lengths: impl Iterator<Item = usize>) -> Result<usize, Error> {
    lengths
        .try_fold(0, usize::checked_add)
        .ok_or(Error::NoMemory)
}

/// Appends a part to the items, and its end. It takes no memory if there is room for both.
pub(super) fn try_append_part<T: Copy>(
    items: &mut Vec<T>,
    ends: &mut Vec<usize>,
    part: &[T],
) -> Result<(), Error> {
    try_reserve(items, part.len())?;
    try_reserve(ends, 1)?;
    items.extend_from_slice(part);
    ends.push(items.len());
    Ok(())
}

/// Returns an iterator over the range of each part.
pub(super) fn ranges(offsets: &[usize]) -> impl ExactSizeIterator<Item = Range<usize>> {
    offsets.windows(2).map(|ends| ends[0]..ends[1])
}

/// Returns the same offsets from 0 on, for a list that begins at the first of them.
pub(super) fn try_rebased(offsets: &[usize]) -> Result<Cow<'_, [usize]>, Error> {
    let first = offsets[0];
    if first == 0 {
        return Ok(Cow::Borrowed(offsets));
    }
    let mut rebased = try_with_capacity(offsets.len())?;
    rebased.extend(offsets.iter().map(|offset| offset - first));
    Ok(Cow::Owned(rebased))
}

/// Appends the ends of the parts that `more` parts, behind the last end of `offsets`. There is
/// room.
pub(super) fn append(offsets: &mut Vec<usize>, more: &[usize]) {
    let (end, first) = (offsets[offsets.len() - 1], more[0]);
    offsets.extend(more[1..].iter().map(|offset| end + (offset - first)));
}
