//! Polygons end to end in one list of points.

use super::contours::Contours;
use super::offsets::{append, ranges, try_append_part, try_fit, try_rebased, try_sum};
use crate::both_forms::both_forms;
use crate::calls::{
    Canonicalizer, CleanShapes, ContourSimplifier, Global, SpikeRemover, UnorientedCanonicalizer,
    are_safe, check_room, clean_shapes, first_containing, form_shapes, number_of_many,
};
use crate::int::shape::{IntContour, IntShapes};
use crate::int::{IntNumber, IntPoint};
use crate::memory::{copied, made_of_each, try_reserve, try_with_capacity};
use crate::{Error, FillRule, Location};
use alloc::vec;
use alloc::vec::Vec;

/// Polygons that lie end to end in borrowed points: polygon j has the contours from `shapes[j]` to
/// `shapes[j + 1]`, its outer contour first, and contour k is `points[contours[k]..contours[k +
/// 1]]`.
///
/// ```
/// use i_shape::flat::Shapes;
/// use i_shape::int::AsIntPoints;
///
/// // a square, and in it a hole without an area
/// let points = [[0_i32, 0], [9, 0], [9, 9], [0, 9], [2, 2], [2, 3], [2, 4]];
/// let polygons = Shapes::new(points.as_int_points(), &[0, 4, 7], &[0, 2]);
/// let left = polygons.simplified();
/// assert_eq!(left.points(), points[..4].as_int_points());
/// assert_eq!(left.contours(), [0, 4]);
/// assert_eq!(left.shapes(), [0, 1]);
/// ```
#[derive(Debug, PartialEq, Eq)]
pub struct Shapes<'a, I> {
    points: &'a [IntPoint<I>],
    contours: &'a [usize],
    shapes: &'a [usize],
}

impl<I> Clone for Shapes<'_, I> {
    fn clone(&self) -> Self {
        *self
    }
}

impl<I> Copy for Shapes<'_, I> {}

/// The methods of a cleaner: the call and the cleaner, their names, that of the C library's call, and
/// what is left of the polygons.
macro_rules! cleaners {
    ($(
        $call:ident::<$cleaner:ident>: $try_cleaned:ident, $cleaned:ident, $try_into:ident,
        $into:ident, $alias:literal, $leaves:literal;
    )*) => {
        both_forms! {
            $(
                #[doc = concat!("Returns the polygons ", $leaves, ".")]
                /// Holes that [collapse](crate::int::simple) are left out, and so are polygons whose
                /// outer contour collapses. An empty polygon stays.
                #[doc(alias = $alias)]
                $cleaned, must_use;
                /// Returns [`Error::UnsafePoint`] if a point of a polygon isn't safe,
                /// [`Error::NoMemory`] if an allocation fails.
                pub fn $try_cleaned(self) -> Result<OwnedShapes<I>, Error> {
                    self.try_cleaned($call::<_, $cleaner>)
                }

                #[doc = concat!("Writes the polygons ", $leaves, ",")]
                /// to the fronts of the three slices, with offsets from 0 on. Returns the number n of
                /// these polygons: they end at `out_shapes[n]`, and their contours at
                /// `out_contours[out_shapes[n]]`.
                $into;
                /// Returns [`Error::NoRoom`] if `out_points` is shorter than
                /// [`points`](Shapes::points), `out_contours` than [`contours`](Shapes::contours) or
                /// `out_shapes` than [`shapes`](Shapes::shapes), [`Error::UnsafePoint`] if a point
                /// of a contour isn't safe, also of one before the first polygon,
                /// [`Error::NoMemory`] if an allocation fails. After an error nothing is written.
                pub fn $try_into(
                    self,
                    out_points: &mut [IntPoint<I>],
                    out_contours: &mut [usize],
                    out_shapes: &mut [usize],
                ) -> Result<usize, Error> {
                    self.try_clean_into($call::<_, $cleaner>, out_points, out_contours, out_shapes)
                }
            )*
        }
    };
}

impl<'a, I: IntNumber> Shapes<'a, I> {
    both_forms! {
        /// Returns the polygons that the offsets `shapes` divide the contours into, which the offsets
        /// `contours` divide the points into. What lies outside the offsets isn't read.
        new, must_use;
        /// Returns [`Error::BadOffsets`] or [`Error::BadShapeOffsets`] if these aren't
        /// [fit](super::offsets::are_fit).
        pub fn try_new(
            points: &'a [IntPoint<I>],
            contours: &'a [usize],
            shapes: &'a [usize],
        ) -> Result<Self, Error> {
            try_fit(contours, points.len()).map_err(Error::BadOffsets)?;
            try_fit(shapes, contours.len() - 1).map_err(Error::BadShapeOffsets)?;
            let contours = &contours[..=shapes[shapes.len() - 1]];
            Ok(Shapes {
                points: &points[..contours[contours.len() - 1]],
                contours,
                shapes,
            })
        }
    }

    /// Returns the points up to the end of the last polygon.
    #[must_use]
    pub fn points(self) -> &'a [IntPoint<I>] {
        self.points
    }

    /// Returns the offsets of the contours up to the end of the last polygon.
    #[must_use]
    pub fn contours(self) -> &'a [usize] {
        self.contours
    }

    /// Returns the offsets of the polygons: one more than there are polygons.
    #[must_use]
    pub fn shapes(self) -> &'a [usize] {
        self.shapes
    }

    /// Returns the number of polygons.
    #[must_use]
    pub fn len(self) -> usize {
        self.shapes.len() - 1
    }

    /// Returns whether there is no polygon.
    #[must_use]
    pub fn is_empty(self) -> bool {
        self.len() == 0
    }

    /// Returns the contours of the polygon at an index, `None` if there is none.
    #[must_use]
    pub fn get(self, index: usize) -> Option<Contours<'a, I>> {
        let ends = self.shapes.get(index..)?.get(..2)?;
        Some(self.contours_of(ends))
    }

    /// Returns an iterator over the contours of each polygon, in order.
    pub fn iter(self) -> impl ExactSizeIterator<Item = Contours<'a, I>> {
        self.shapes
            .windows(2)
            .map(move |ends| self.contours_of(ends))
    }

    /// Returns the contours of all polygons, in order.
    #[must_use]
    pub fn as_contours(self) -> Contours<'a, I> {
        self.contours_of(&[self.shapes[0], self.shapes[self.len()]])
    }

    /// Returns an iterator over parts of `length` polygons; the last part may have fewer. Nothing is
    /// copied. Canonical forms of the parts, joined, are no canonical form of the list: that is
    /// sorted.
    ///
    /// # Panics
    ///
    /// If `length` is 0.
    pub fn chunks(self, length: usize) -> impl Iterator<Item = Shapes<'a, I>> {
        let count = self.len();
        (0..count).step_by(length).map(move |first| {
            let shapes = &self.shapes[first..=count.min(first.saturating_add(length))];
            let contours = &self.contours[..=shapes[shapes.len() - 1]];
            Shapes {
                points: &self.points[..contours[contours.len() - 1]],
                contours,
                shapes,
            }
        })
    }

    /// Returns whether each point of a polygon is safe.
    #[must_use]
    pub fn is_in_safe_range(self) -> bool {
        let first = self.contours[self.shapes[0]];
        are_safe(&self.points[first..])
    }

    cleaners! {
        clean_shapes::<ContourSimplifier>: try_simplified, simplified, try_simplify_into,
            simplify_into, "simplify_shapes", "without zero turns";
        clean_shapes::<SpikeRemover>: try_spikes_removed, spikes_removed, try_remove_spikes_into,
            remove_spikes_into, "despike_shapes",
            "without spikes: a contour that has none stays as it is, also with points that repeat, \
             and of the others nothing that turns back or repeats a point is left";
        form_shapes::<Canonicalizer>: try_canonical, canonical, try_canonical_into, canonical_into,
            "canonical_shapes",
            "in canonical form: that of each contour, the holes of each polygon sorted, and then the polygons";
        form_shapes::<UnorientedCanonicalizer>: try_canonical_unoriented, canonical_unoriented,
            try_canonical_unoriented_into, canonical_unoriented_into, "canonical_unoriented_shapes",
            "in canonical form without regard to direction: by the lesser of the forms of both ways";
    }

    both_forms! {
        /// Returns the sum of the winding numbers of the contours of all polygons about each of the
        /// points.
        winding_numbers, must_use;
        /// Returns the errors of [`Contours::try_winding_numbers`].
        pub fn try_winding_numbers(self, about: &[IntPoint<I>]) -> Result<Vec<isize>, Error> {
            self.as_contours().try_winding_numbers(about)
        }

        /// Returns of each of the points whether a fill rule fills it, by the contours of all
        /// polygons together.
        contains_points, must_use;
        /// Returns the errors of [`Contours::try_winding_numbers`].
        pub fn try_contains_points(
            self,
            about: &[IntPoint<I>],
            rule: FillRule,
        ) -> Result<Vec<bool>, Error> {
            self.as_contours().try_contains_points(about, rule)
        }

        /// Returns where each of the points lies, by a fill rule and the contours of all polygons
        /// together.
        locate, must_use;
        /// Returns the errors of [`Contours::try_winding_numbers`].
        pub fn try_locate(
            self,
            about: &[IntPoint<I>],
            rule: FillRule,
        ) -> Result<Vec<Location>, Error> {
            self.as_contours().try_locate(about, rule)
        }

        /// Returns of each of the points the index of the first polygon that a fill rule fills there,
        /// by the contours of that polygon; `None` where it fills none. Polygons whose bounding box a
        /// point isn't in are left out.
        ///
        /// ```
        /// use i_shape::FillRule;
        /// use i_shape::flat::Shapes;
        /// use i_shape::int::AsIntPoints;
        ///
        /// // two squares side by side
        /// let points = [[0_i32, 0], [4, 0], [4, 4], [0, 4], [4, 0], [8, 0], [8, 4], [4, 4]];
        /// let parcels = Shapes::new(points.as_int_points(), &[0, 4, 8], &[0, 1, 2]);
        /// let about = [[1_i32, 1], [4, 1], [9, 1]];
        /// let found = parcels.first_containing(about.as_int_points(), FillRule::EvenOdd);
        /// assert_eq!(found, [Some(0), Some(1), None]);
        /// ```
        #[doc(alias = "locate_in_shapes")]
        first_containing, must_use;
        /// Returns [`Error::UnsafeAbout`] if one of `about` isn't safe, [`Error::UnsafePoint`] if a
        /// point of a polygon isn't, [`Error::NoMemory`] if there is none for the result, or for a copy
        /// of the offsets of polygons, which is made if the first of them is above 0. It takes memory
        /// for the boxes, and does without them if that allocation fails.
        pub fn try_first_containing(
            self,
            about: &[IntPoint<I>],
            rule: FillRule,
        ) -> Result<Vec<Option<usize>>, Error> {
            let contours = &self.contours[self.shapes[0]..];
            let shapes = try_rebased(self.shapes)?;
            first_containing(self.points, contours, &shapes, about, rule)
        }
    }

    both_forms! {
        /// Returns the polygons without spikes.
        #[allow(deprecated)]
        #[deprecated(note = "renamed to `spikes_removed` and `try_spikes_removed`")]
        despiked, must_use;
        /// Returns the errors of [`try_spikes_removed`](Shapes::try_spikes_removed).
        pub fn try_despiked(self) -> Result<OwnedShapes<I>, Error> {
            self.try_spikes_removed()
        }

        /// Writes the polygons without spikes.
        #[allow(deprecated)]
        #[deprecated(note = "renamed to `remove_spikes_into` and `try_remove_spikes_into`")]
        despike_into;
        /// Returns the errors of [`try_remove_spikes_into`](Shapes::try_remove_spikes_into).
        pub fn try_despike_into(
            self,
            out_points: &mut [IntPoint<I>],
            out_contours: &mut [usize],
            out_shapes: &mut [usize],
        ) -> Result<usize, Error> {
            self.try_remove_spikes_into(out_points, out_contours, out_shapes)
        }
    }

    /// Returns the contours between two offsets of polygons.
    fn contours_of(self, ends: &[usize]) -> Contours<'a, I> {
        let offsets = &self.contours[ends[0]..=ends[1]];
        Contours {
            points: &self.points[..offsets[offsets.len() - 1]],
            offsets,
        }
    }

    /// Writes what a call leaves of the polygons to the fronts of the three slices.
    fn try_clean_into(
        self,
        call: CleanShapes<I>,
        out_points: &mut [IntPoint<I>],
        out_contours: &mut [usize],
        out_shapes: &mut [usize],
    ) -> Result<usize, Error> {
        let Shapes {
            points,
            contours,
            shapes,
        } = self;
        let returned = call(
            Global,
            points,
            contours,
            shapes,
            out_points,
            out_contours,
            out_shapes,
        );
        let slices = [
            (out_points.len(), points.len()),
            (out_contours.len(), contours.len()),
            (out_shapes.len(), shapes.len()),
        ];
        check_room(returned, &slices)?;
        number_of_many(returned, points, contours)
    }

    /// Returns what a call leaves of the polygons. It is given the points and contours from the first
    /// polygon on.
    fn try_cleaned(self, call: CleanShapes<I>) -> Result<OwnedShapes<I>, Error> {
        let contours = &self.contours[self.shapes[0]..];
        let points = &self.points[contours[0]..];
        let (contours, shapes) = (try_rebased(contours)?, try_rebased(self.shapes)?);
        let given = Shapes {
            points,
            contours: &contours,
            shapes: &shapes,
        };
        let mut left = OwnedShapes {
            points: copied(points)?,
            contours: copied(&contours)?,
            shapes: copied(&shapes)?,
        };
        let count = given
            .try_clean_into(call, &mut left.points, &mut left.contours, &mut left.shapes)
            .map_err(|error| error.behind(self.contours[self.shapes[0]]))?;
        left.shapes.truncate(count + 1);
        left.contours.truncate(left.shapes[count] + 1);
        left.points.truncate(left.contours[left.shapes[count]]);
        Ok(left)
    }
}

/// Polygons that lie end to end in points of their own, with offsets from 0 on.
#[derive(Clone, Debug, PartialEq, Eq)]
pub struct OwnedShapes<I> {
    points: Vec<IntPoint<I>>,
    contours: Vec<usize>,
    shapes: Vec<usize>,
}

impl<I: IntNumber> Default for OwnedShapes<I> {
    fn default() -> Self {
        OwnedShapes::new()
    }
}

impl<I: IntNumber> OwnedShapes<I> {
    /// Returns a list without a polygon.
    #[must_use]
    pub fn new() -> Self {
        OwnedShapes {
            points: Vec::new(),
            contours: vec![0],
            shapes: vec![0],
        }
    }

    both_forms! {
        /// Returns a copy of the polygons, end to end.
        from_shapes, must_use;
        /// Returns [`Error::NoMemory`] if an allocation fails.
        pub fn try_from_shapes[S: AsRef<[IntContour<I>]>](shapes: &[S]) -> Result<Self, Error> {
            let contour_count = try_sum(shapes.iter().map(|shape| shape.as_ref().len()))?;
            let count = try_sum(shapes.iter().flat_map(AsRef::as_ref).map(Vec::len))?;
            let mut points = try_with_capacity(count)?;
            let mut contours = try_with_capacity(contour_count.saturating_add(1))?;
            let mut ends = try_with_capacity(shapes.len().saturating_add(1))?;
            contours.push(0);
            ends.push(0);
            for shape in shapes {
                for contour in shape.as_ref() {
                    try_append_part(&mut points, &mut contours, contour)?;
                }
                ends.push(contours.len() - 1);
            }
            Ok(OwnedShapes {
                points,
                contours,
                shapes: ends,
            })
        }

        /// Appends polygons.
        extend;
        /// Returns [`Error::NoMemory`] if an allocation fails; then nothing is appended.
        pub fn try_extend(&mut self, polygons: Shapes<'_, I>) -> Result<(), Error> {
            let contours = &polygons.contours[polygons.shapes[0]..];
            let points = &polygons.points[contours[0]..];
            try_reserve(&mut self.points, points.len())?;
            try_reserve(&mut self.contours, contours.len() - 1)?;
            try_reserve(&mut self.shapes, polygons.len())?;
            append(&mut self.contours, contours);
            append(&mut self.shapes, polygons.shapes);
            self.points.extend_from_slice(points);
            Ok(())
        }

        /// Returns a copy of the polygons, each contour in a vector of its own.
        to_shapes, must_use;
        /// Returns [`Error::NoMemory`] if an allocation fails.
        pub fn try_to_shapes(&self) -> Result<IntShapes<I>, Error> {
            made_of_each(ranges(&self.shapes), |shape| {
                made_of_each(ranges(&self.contours[shape.start..=shape.end]), |contour| {
                    copied(&self.points[contour])
                })
            })
        }
    }

    /// Returns the same polygons, borrowed.
    #[must_use]
    pub fn as_shapes(&self) -> Shapes<'_, I> {
        Shapes {
            points: &self.points,
            contours: &self.contours,
            shapes: &self.shapes,
        }
    }

    /// Returns the points of all contours.
    #[must_use]
    pub fn points(&self) -> &[IntPoint<I>] {
        &self.points
    }

    /// Returns the offsets of the contours: one more than there are contours.
    #[must_use]
    pub fn contours(&self) -> &[usize] {
        &self.contours
    }

    /// Returns the offsets of the polygons: one more than there are polygons.
    #[must_use]
    pub fn shapes(&self) -> &[usize] {
        &self.shapes
    }

    /// Returns the points, the offsets of the contours, and those of the polygons.
    #[must_use]
    pub fn into_parts(self) -> (Vec<IntPoint<I>>, Vec<usize>, Vec<usize>) {
        (self.points, self.contours, self.shapes)
    }
}
