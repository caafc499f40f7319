//! Contacts of many contours, and of each of many polygons; which of these are valid.

use super::offsets::try_rebased;
use super::{Contours, Shapes};
use crate::Error;
use crate::both_forms::both_forms;
use crate::calls::{
    contacts_of_many, first_contact_of_many, kind_of_contact_of_many, kinds_of_contacts_of_many,
    touching_validity_of, validity_of,
};
use crate::int::IntNumber;
use crate::int::contacts::{Contact, ContactKind, TouchingValidity, Validity};
use crate::memory::made_of_each;
use alloc::vec::Vec;

impl<I: IntNumber> Contours<'_, I> {
    both_forms! {
        /// Returns the first [contact](crate::int::contacts) of the edges of all contours together,
        /// within a contour or between two. Its indices are of [`points`](Contours::points).
        ///
        /// ```
        /// use i_shape::flat::Contours;
        /// use i_shape::int::AsIntPoints;
        /// use i_shape::int::contacts::Contact;
        ///
        /// // a square, and in it a hole that touches its upper edge
        /// let points = [[0_i32, 0], [9, 0], [9, 9], [0, 9], [2, 2], [4, 9], [6, 2]];
        /// let contours = Contours::new(points.as_int_points(), &[0, 4, 7]);
        /// assert_eq!(contours.first_contact(), Some(Contact { first: 2, second: 4 }));
        /// ```
        first_contact, must_use;
        /// Returns [`Error::UnsafePoint`] if a point of a contour isn't safe. If the first offset is
        /// above 0, the offsets are copied: [`Error::NoMemory`] if that allocation fails.
        pub fn try_first_contact(self) -> Result<Option<Contact>, Error> {
            let before = self.offsets[0];
            let rebased = try_rebased(self.offsets)?;
            first_contact_of_many(&self.points[before..], &rebased, before)
        }

        /// Returns all [contacts](crate::int::contacts) of the edges of all contours together, within a
        /// contour or between two: by the first edge, and those of one edge by the second. Indices are
        /// of [`points`](Contours::points). It searches again if there are more contacts than points.
        contacts, must_use;
        /// Returns [`Error::UnsafePoint`] if a point of a contour isn't safe, [`Error::NoMemory`] if
        /// there is none for as many contacts as points, for all contacts, or for a copy of the
        /// offsets, which is made if the first of them is above 0.
        pub fn try_contacts(self) -> Result<Vec<Contact>, Error> {
            let before = self.offsets[0];
            let rebased = try_rebased(self.offsets)?;
            contacts_of_many(&self.points[before..], &rebased, before)
        }

        /// Returns whether two edges cross, touch or overlap, by indices of
        /// [`points`](Contours::points). `None` if they aren't in contact, `first` isn't below
        /// `second`, or no contour has a point. Each call tests all points: of many contacts take
        /// [`kinds_of_contacts`](Contours::kinds_of_contacts).
        kind_of_contact, must_use;
        /// Returns [`Error::UnsafePoint`] if a point of a contour isn't safe, also one of another edge.
        /// If the first offset is above 0, the offsets are copied: [`Error::NoMemory`] if that
        /// allocation fails.
        pub fn try_kind_of_contact(self, contact: Contact) -> Result<Option<ContactKind>, Error> {
            let before = self.offsets[0];
            let rebased = try_rebased(self.offsets)?;
            kind_of_contact_of_many(&self.points[before..], &rebased, before, contact)
        }

        /// Returns of each contact, in order, what [`kind_of_contact`](Contours::kind_of_contact) does.
        ///
        /// ```
        /// use i_shape::flat::Contours;
        /// use i_shape::int::AsIntPoints;
        /// use i_shape::int::contacts::ContactKind;
        ///
        /// // a square, and in it a hole that touches its upper edge
        /// let points = [[0_i32, 0], [9, 0], [9, 9], [0, 9], [2, 2], [4, 9], [6, 2]];
        /// let contours = Contours::new(points.as_int_points(), &[0, 4, 7]);
        /// // with the edges to and from (4, 9)
        /// let kinds = contours.kinds_of_contacts(&contours.contacts());
        /// assert_eq!(kinds, [Some(ContactKind::Touch); 2]);
        /// ```
        kinds_of_contacts, must_use;
        /// Returns [`Error::UnsafePoint`] if a point of a contour isn't safe, also one of another edge,
        /// [`Error::NoMemory`] if there is none for the result, or for a copy of the offsets, which is
        /// made if the first of them is above 0.
        pub fn try_kinds_of_contacts(
            self,
            contacts: &[Contact],
        ) -> Result<Vec<Option<ContactKind>>, Error> {
            let before = self.offsets[0];
            let rebased = try_rebased(self.offsets)?;
            kinds_of_contacts_of_many(&self.points[before..], &rebased, before, contacts)
        }
    }
}

impl<I: IntNumber> Shapes<'_, I> {
    both_forms! {
        /// Returns of each polygon, in order, the first [contact](crate::int::contacts) of the edges
        /// of its contours. Its indices are of [`points`](Shapes::points), the points of all
        /// polygons. Edges of different polygons aren't compared.
        first_contacts, must_use;
        /// Returns [`Error::UnsafePoint`] if a point of a polygon isn't safe, [`Error::NoMemory`] if
        /// there is none for the result or for a copy of a polygon's offsets.
        pub fn try_first_contacts(self) -> Result<Vec<Option<Contact>>, Error> {
            made_of_each(self.iter(), Contours::try_first_contact)
        }

        /// Returns of each polygon, in order, all [contacts](crate::int::contacts) of the edges of its
        /// contours, as [`Contours::contacts`] does. Their indices are of [`points`](Shapes::points).
        /// Edges of different polygons aren't compared. [`Contours::kinds_of_contacts`] of the polygon
        /// takes them, and that of [`as_contours`](Shapes::as_contours) those of all.
        contacts, must_use;
        /// Returns [`Error::UnsafePoint`] if a point of a polygon isn't safe, [`Error::NoMemory`] if an
        /// allocation fails.
        pub fn try_contacts(self) -> Result<Vec<Vec<Contact>>, Error> {
            made_of_each(self.iter(), Contours::try_contacts)
        }

        /// Returns of each polygon, in order, the first [fault](crate::int::contacts::Validity), or
        /// `Valid`. Its indices are of [`contours`](Shapes::contours) and
        /// [`points`](Shapes::points), those of all polygons. Different polygons aren't compared.
        ///
        /// ```
        /// use i_shape::flat::Shapes;
        /// use i_shape::int::AsIntPoints;
        /// use i_shape::int::contacts::Validity;
        ///
        /// // a triangle, and a square with a hole beside it
        /// let points = [[0_i32, 0], [4, 0], [0, 4], [0, 0], [4, 0], [4, 4], [0, 4], [6, 1], [6, 2], [7, 1]];
        /// let polygons = Shapes::new(points.as_int_points(), &[0, 3, 7, 10], &[0, 1, 3]);
        /// assert_eq!(polygons.validity(), [Validity::Valid, Validity::HoleOutside { contour: 2 }]);
        /// ```
        validity, must_use;
        /// Returns [`Error::UnsafePoint`] if a point of a polygon isn't safe, [`Error::NoMemory`] if
        /// there is none for the result or for a copy of a polygon's offsets.
        pub fn try_validity(self) -> Result<Vec<Validity>, Error> {
            made_of_each(self.iter().zip(self.shapes()), |(polygon, &contour)| {
                let before = polygon.offsets[0];
                let rebased = try_rebased(polygon.offsets)?;
                let found = validity_of(&polygon.points[before..], &rebased, before)?;
                Ok(found.behind(contour))
            })
        }

        /// Returns of each polygon, in order, the first
        /// [fault](crate::int::contacts::TouchingValidity) if its contours may touch at single points,
        /// or `Valid`. Its indices are those of [`validity`](Shapes::validity).
        ///
        /// ```
        /// use i_shape::flat::Shapes;
        /// use i_shape::int::AsIntPoints;
        /// use i_shape::int::contacts::TouchingValidity;
        ///
        /// // a square, and in it a hole that touches it from within; the same from outside
        /// let square = [[0_i32, 0], [4, 0], [4, 4], [0, 4]];
        /// let (within, outside) = ([[4, 1], [2, 2], [2, 1]], [[4, 1], [6, 2], [6, 1]]);
        /// let points = [&square[..], &within, &square, &outside].concat();
        /// let polygons = Shapes::new(points.as_int_points(), &[0, 4, 7, 11, 14], &[0, 2, 4]);
        /// assert_eq!(
        ///     polygons.touching_validity(),
        ///     [TouchingValidity::Valid, TouchingValidity::HoleOutside { contour: 3 }]
        /// );
        /// ```
        touching_validity, must_use;
        /// Returns [`Error::UnsafePoint`] if a point of a polygon isn't safe, [`Error::NoMemory`] if
        /// there is none for the result, for a copy of a polygon's offsets, or for the contacts of one.
        pub fn try_touching_validity(self) -> Result<Vec<TouchingValidity>, Error> {
            made_of_each(self.iter().zip(self.shapes()), |(polygon, &contour)| {
                let before = polygon.offsets[0];
                let rebased = try_rebased(polygon.offsets)?;
                let found = touching_validity_of(&polygon.points[before..], &rebased, before)?;
                Ok(found.behind(contour))
            })
        }
    }
}
