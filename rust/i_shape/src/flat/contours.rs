//! Contours end to end in one list of points.

use super::offsets::{append, ranges, try_append_part, try_fit, try_rebased, try_sum};
use crate::both_forms::both_forms;
use crate::calls::{
    Canonicalizer, CleanMany, ContourDeSpiker, ContourSimplifier, Filled, Located,
    UnorientedCanonicalizer, are_safe, clean_contours, clean_many, tell, windings,
};
use crate::int::{IntNumber, IntPoint};
use crate::memory::{copied, try_filled, try_reserve, try_with_capacity};
use crate::{Error, FillRule, Location};
use alloc::vec;
use alloc::vec::Vec;

/// Contours that lie end to end in borrowed points: contour k is `points[offsets[k]..offsets[k +
/// 1]]`.
#[derive(Debug, PartialEq, Eq)]
pub struct Contours<'a, I> {
    pub(super) points: &'a [IntPoint<I>],
    pub(super) offsets: &'a [usize],
}

impl<I> Clone for Contours<'_, I> {
    fn clone(&self) -> Self {
        *self
    }
}

impl<I> Copy for Contours<'_, I> {}

/// The methods of a cleaner: it, their names, that of the C library's call, and what it leaves of a
/// contour.
macro_rules! cleaners {
    ($(
        $cleaner:ident: $try_cleaned:ident, $cleaned:ident, $try_into:ident, $into:ident,
        $alias:literal, $leaves:literal;
    )*) => {
        both_forms! {
            $(
                #[doc = concat!("Returns each contour ", $leaves, ".")]
                /// A contour that [collapses](crate::int::simple) is left empty, at its index.
                #[doc(alias = $alias)]
                $cleaned, must_use;
                /// Returns [`Error::UnsafePoint`] if a point of a contour isn't safe,
                /// [`Error::NoMemory`] if an allocation fails.
                pub fn $try_cleaned(self) -> Result<OwnedContours<I>, Error> {
                    self.try_cleaned(clean_contours::<_, $cleaner>)
                }

                #[doc = concat!("Writes each contour ", $leaves, ",")]
                /// to the front of `out_points`, end to end, and the offsets from 0 on to the front
                /// of `out_offsets`. Returns the number of these points.
                $into;
                /// Returns [`Error::NoRoom`] if `out_points` is shorter than
                /// [`points`](Contours::points) or `out_offsets` than
                /// [`offsets`](Contours::offsets), [`Error::UnsafePoint`] if a point of a contour
                /// isn't safe, [`Error::NoMemory`] if an allocation fails. After an error nothing
                /// is written. It takes no memory if each contour is clean or has fewer than three
                /// points.
                pub fn $try_into(
                    self,
                    out_points: &mut [IntPoint<I>],
                    out_offsets: &mut [usize],
                ) -> Result<usize, Error> {
                    let call = clean_contours::<_, $cleaner>;
                    clean_many(call, self.points, self.offsets, out_points, out_offsets)
                }
            )*
        }
    };
}

impl<'a, I: IntNumber> Contours<'a, I> {
    both_forms! {
        /// Returns the contours that the offsets divide the points into. Points outside the offsets
        /// aren't read.
        new, must_use;
        /// Returns [`Error::BadOffsets`] if the offsets aren't [fit](super::offsets::are_fit) for
        /// the points.
        pub fn try_new(points: &'a [IntPoint<I>], offsets: &'a [usize]) -> Result<Self, Error> {
            try_fit(offsets, points.len()).map_err(Error::BadOffsets)?;
            let points = &points[..offsets[offsets.len() - 1]];
            Ok(Contours { points, offsets })
        }
    }

    /// Returns the points up to the last offset.
    #[must_use]
    pub fn points(self) -> &'a [IntPoint<I>] {
        self.points
    }

    /// Returns the offsets: one more than there are contours.
    #[must_use]
    pub fn offsets(self) -> &'a [usize] {
        self.offsets
    }

    /// Returns the number of contours.
    #[must_use]
    pub fn len(self) -> usize {
        self.offsets.len() - 1
    }

    /// Returns whether there is no contour.
    #[must_use]
    pub fn is_empty(self) -> bool {
        self.len() == 0
    }

    /// Returns the contour at an index, `None` if there is none.
    #[must_use]
    pub fn get(self, index: usize) -> Option<&'a [IntPoint<I>]> {
        let ends = self.offsets.get(index..)?.get(..2)?;
        Some(&self.points[ends[0]..ends[1]])
    }

    /// Returns an iterator over the contours, in order.
    pub fn iter(self) -> impl ExactSizeIterator<Item = &'a [IntPoint<I>]> {
        ranges(self.offsets).map(move |range| &self.points[range])
    }

    /// Returns an iterator over parts of `length` contours; the last part may have fewer. Nothing is
    /// copied.
    ///
    /// # Panics
    ///
    /// If `length` is 0.
    pub fn chunks(self, length: usize) -> impl Iterator<Item = Contours<'a, I>> {
        let count = self.len();
        (0..count).step_by(length).map(move |first| {
            let offsets = &self.offsets[first..=count.min(first.saturating_add(length))];
            Contours {
                points: &self.points[..offsets[offsets.len() - 1]],
                offsets,
            }
        })
    }

    /// Returns whether each point of a contour is safe.
    #[must_use]
    pub fn is_in_safe_range(self) -> bool {
        are_safe(&self.points[self.offsets[0]..])
    }

    cleaners! {
        ContourSimplifier: try_simplified, simplified, try_simplify_into, simplify_into,
            "simplify_contours", "without zero turns";
        ContourDeSpiker: try_despiked, despiked, try_despike_into, despike_into,
            "despike_contours",
            "without the points at which it turns back or repeats a point";
        Canonicalizer: try_canonical, canonical, try_canonical_into, canonical_into,
            "canonical_contours",
            "without zero turns, from the start at which it is least, by x and then y";
        UnorientedCanonicalizer: try_canonical_unoriented, canonical_unoriented,
            try_canonical_unoriented_into, canonical_unoriented_into,
            "canonical_unoriented_contours",
            "in canonical form without regard to direction, the lesser of the forms of both ways";
    }

    both_forms! {
        /// Returns the sum of the contours' winding numbers about each of the points. Of the contours
        /// of a shape it decides what a fill rule fills.
        winding_numbers, must_use;
        /// Returns [`Error::UnsafeAbout`] if one of `about` isn't safe, [`Error::UnsafePoint`] if a
        /// point of a contour isn't, [`Error::NoMemory`] if there is none for the result. It takes
        /// more memory where that saves time, and does without it if the allocation fails.
        pub fn try_winding_numbers(self, about: &[IntPoint<I>]) -> Result<Vec<isize>, Error> {
            let mut numbers = try_filled(0, about.len())?;
            windings(self.points, self.offsets, about, &mut numbers)?;
            Ok(numbers)
        }

        /// Writes the sum of the contours' winding numbers about each of the points to the front of
        /// `out`.
        winding_numbers_into;
        /// Returns [`Error::NoRoom`] if `out` is shorter than `about`, [`Error::UnsafeAbout`] if
        /// one of these isn't safe, [`Error::UnsafePoint`] if a point of a contour isn't. It takes
        /// memory where that saves time, and does without it if the allocation fails.
        pub fn try_winding_numbers_into(
            self,
            about: &[IntPoint<I>],
            out: &mut [isize],
        ) -> Result<(), Error> {
            windings(self.points, self.offsets, about, out)
        }

        /// Returns of each of the points whether a fill rule fills it.
        contains_points, must_use;
        /// Returns the errors of [`try_winding_numbers`](Contours::try_winding_numbers).
        pub fn try_contains_points(
            self,
            about: &[IntPoint<I>],
            rule: FillRule,
        ) -> Result<Vec<bool>, Error> {
            let mut are_filled = try_filled(false, about.len())?;
            tell::<Filled, I>(self.points, self.offsets, about, rule, &mut are_filled)?;
            Ok(are_filled)
        }

        /// Returns where each of the points lies, by a fill rule: also whether on an edge, which
        /// takes longer than [`contains_points`](Contours::contains_points) does.
        locate, must_use;
        /// Returns the errors of [`try_winding_numbers`](Contours::try_winding_numbers).
        pub fn try_locate(
            self,
            about: &[IntPoint<I>],
            rule: FillRule,
        ) -> Result<Vec<Location>, Error> {
            let mut locations = try_filled(Location::Outside, about.len())?;
            tell::<Located, I>(self.points, self.offsets, about, rule, &mut locations)?;
            Ok(locations)
        }
    }

    /// Returns whether a point lies on an edge.
    pub(crate) fn try_is_on_boundary(self, point: IntPoint<I>) -> Result<bool, Error> {
        let mut location = [Location::Outside];
        let rule = FillRule::EvenOdd;
        tell::<Located, I>(self.points, self.offsets, &[point], rule, &mut location)?;
        Ok(location == [Location::OnBoundary])
    }

    /// Returns what a call leaves of the contours. It is given the points from the first offset on.
    fn try_cleaned(self, call: CleanMany<I>) -> Result<OwnedContours<I>, Error> {
        let points = &self.points[self.offsets[0]..];
        let rebased = try_rebased(self.offsets)?;
        let mut left = OwnedContours {
            points: copied(points)?,
            offsets: copied(&rebased)?,
        };
        let count = clean_many(call, points, &rebased, &mut left.points, &mut left.offsets)
            .map_err(|error| error.behind(self.offsets[0]))?;
        left.points.truncate(count);
        Ok(left)
    }
}

/// Contours that lie end to end in points of their own, with offsets from 0 on.
#[derive(Clone, Debug, PartialEq, Eq)]
pub struct OwnedContours<I> {
    points: Vec<IntPoint<I>>,
    offsets: Vec<usize>,
}

impl<I: IntNumber> Default for OwnedContours<I> {
    fn default() -> Self {
        OwnedContours::new()
    }
}

impl<I: IntNumber> OwnedContours<I> {
    /// Returns a list without a contour.
    #[must_use]
    pub fn new() -> Self {
        OwnedContours {
            points: Vec::new(),
            offsets: vec![0],
        }
    }

    both_forms! {
        /// Returns a copy of the contours, end to end.
        from_contours, must_use;
        /// Returns [`Error::NoMemory`] if an allocation fails.
        pub fn try_from_contours[C: AsRef<[IntPoint<I>]>](contours: &[C]) -> Result<Self, Error> {
            let count = try_sum(contours.iter().map(|contour| contour.as_ref().len()))?;
            let mut points = try_with_capacity(count)?;
            let mut offsets = try_with_capacity(contours.len().saturating_add(1))?;
            offsets.push(0);
            for contour in contours {
                try_append_part(&mut points, &mut offsets, contour.as_ref())?;
            }
            Ok(OwnedContours { points, offsets })
        }

        /// Appends contours.
        extend;
        /// Returns [`Error::NoMemory`] if an allocation fails; then nothing is appended.
        pub fn try_extend(&mut self, contours: Contours<'_, I>) -> Result<(), Error> {
            let points = &contours.points[contours.offsets[0]..];
            try_reserve(&mut self.points, points.len())?;
            try_reserve(&mut self.offsets, contours.len())?;
            append(&mut self.offsets, contours.offsets);
            self.points.extend_from_slice(points);
            Ok(())
        }
    }

    /// Returns the same contours, borrowed.
    #[must_use]
    pub fn as_contours(&self) -> Contours<'_, I> {
        Contours {
            points: &self.points,
            offsets: &self.offsets,
        }
    }

    /// Returns the points of all contours.
    #[must_use]
    pub fn points(&self) -> &[IntPoint<I>] {
        &self.points
    }

    /// Returns the offsets: one more than there are contours.
    #[must_use]
    pub fn offsets(&self) -> &[usize] {
        &self.offsets
    }

    /// Returns the points and the offsets.
    #[must_use]
    pub fn into_parts(self) -> (Vec<IntPoint<I>>, Vec<usize>) {
        (self.points, self.offsets)
    }
}
