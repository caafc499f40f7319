//! Whether and where edges touch, cross or overlap.
//!
//! An edge leads from each point to the next one, the last edge of a contour to its first point. Two
//! edges are in *contact* if they share a point other than one at which one of them follows the
//! other.
//!
//! ```
//! use i_shape::int::contacts::{Contact, ContourContacts};
//! use i_shape::int_path;
//!
//! // the first edge and the third cross at (2, 2)
//! let bow_tie = int_path![[0_i32, 0], [4, 4], [4, 0], [0, 4]];
//! assert_eq!(bow_tie.first_contact(), Some(Contact { first: 0, second: 2 }));
//! assert!(!bow_tie.is_simple_polygon());
//! ```
//!
//! Of several contours together, such as a polygon with its holes,
//! [`Contours::first_contact`](crate::flat::Contours::first_contact) returns the first contact, and of
//! each of many polygons [`Shapes::first_contacts`](crate::flat::Shapes::first_contacts).
//!
//! These calls take nearly linear time where few boxes around edges overlap, and otherwise up to
//! quadratic time. They take memory for these boxes; if an allocation fails, they try all pairs of
//! edges, with the same result.
//!
//! `contacts` returns them all, for contours in no spatial order in quadratic time, and
//! `kinds_of_contacts` of each whether its edges cross, touch or overlap. [`kind_of_edges`] does of any
//! two edges.
//!
//! ```
//! use i_shape::int::contacts::{ContactKind, ContourContacts};
//! use i_shape::int_path;
//!
//! // a square with a spike
//! let spiked = int_path![[0_i32, 0], [4, 0], [4, 8], [4, 4], [0, 4]];
//! let kinds = spiked.kinds_of_contacts(&spiked.contacts());
//! assert_eq!(kinds, [Some(ContactKind::Overlap), Some(ContactKind::Touch)]);
//! ```
//!
//! A polygon is *valid* if none of its contours is degenerate, no two edges are in contact, each
//! vertex of each hole lies inside the outer contour, and none lies inside another hole.
//! [`ShapeValidity`] returns the first fault of a polygon, and
//! [`Shapes::validity`](crate::flat::Shapes::validity) that of each of many.
//!
//! ```
//! use i_shape::int::contacts::{ShapeValidity, Validity};
//! use i_shape::int_shape;
//!
//! // a hole beside the square
//! let polygon = int_shape![[[0_i32, 0], [4, 0], [4, 4], [0, 4]], [[6, 1], [6, 2], [7, 1]]];
//! assert_eq!(polygon.validity(), Validity::HoleOutside { contour: 1 });
//! assert!(polygon[..1].is_valid());
//! ```
//!
//! By OGC's rules, contours of a polygon may touch. A polygon is *valid with touches* if none of its
//! contours is degenerate; edges in contact are of two contours and touch, that is, share one point
//! and don't cross; no point of a hole's edges lies outside the outer contour, and none inside another
//! hole; and no touches part the inside: two contours that touch are joined at no other point, nor by
//! way of other contours. Unlike by OGC's rules, a contour with a repeated point isn't valid.
//! `touching_validity` of a shape returns the first fault, and
//! [`Shapes::touching_validity`](crate::flat::Shapes::touching_validity) that of each of many.
//!
//! ```
//! use i_shape::int::contacts::{Contact, ShapeValidity, TouchingValidity};
//! use i_shape::int_shape;
//!
//! // a hole that touches the left edge of a square
//! let polygon = int_shape![[[0_i32, 0], [4, 0], [4, 4], [0, 4]], [[0, 2], [3, 2], [2, 3]]];
//! assert!(!polygon.is_valid());
//! assert_eq!(polygon.touching_validity(), TouchingValidity::Valid);
//!
//! // a hole that also touches the right edge, and so parts the inside
//! let parted = int_shape![[[0_i32, 0], [4, 0], [4, 4], [0, 4]], [[0, 2], [4, 2], [2, 3]]];
//! let touch = Contact { first: 1, second: 4 };
//! assert_eq!(parted.touching_validity(), TouchingValidity::Disconnected(touch));
//! ```

use super::shape::IntContour;
use super::{IntNumber, IntPoint};
use crate::both_forms::both_forms;
use crate::flat::OwnedContours;
use crate::{Error, calls};
use alloc::vec::Vec;

/// Two edges that are in contact, each named by the index of the point from which it leads.
#[derive(Clone, Copy, Debug, PartialEq, Eq, Hash)]
pub struct Contact {
    /// The index of the point from which the first of the two edges leads.
    pub first: usize,
    /// That of the second one, above `first`.
    pub second: usize,
}

/// How two edges in contact lie to one another.
///
/// Paths may also cross at a vertex, where each edge of one only touches those of the other: no two
/// edges cross there.
#[derive(Clone, Copy, Debug, PartialEq, Eq, Hash)]
pub enum ContactKind {
    /// The ends of each edge lie on both sides of the line of the other, none on it: they share one
    /// point, an end of neither.
    Crossing,
    /// They share one point, and don't cross.
    Touch,
    /// They share more than one point.
    Overlap,
}

both_forms! {
    /// Returns how two edges meet, each given by its two ends; `None` if they share no point.
    ///
    /// An edge includes its ends, and may be a single point. Unlike by
    /// [`kind_of_contact`](ContourContacts::kind_of_contact), an edge and the one that follows it at
    /// least touch.
    ///
    /// ```
    /// use i_shape::int::IntPoint;
    /// use i_shape::int::contacts::{ContactKind, kind_of_edges};
    ///
    /// let edge = |start: [i32; 2], end: [i32; 2]| [IntPoint::from(start), IntPoint::from(end)];
    /// let base = edge([0, 0], [4, 0]);
    /// assert_eq!(kind_of_edges(base, edge([2, -1], [2, 3])), Some(ContactKind::Crossing));
    /// assert_eq!(kind_of_edges(base, edge([2, 0], [2, 3])), Some(ContactKind::Touch));
    /// assert_eq!(kind_of_edges(base, edge([2, 0], [6, 0])), Some(ContactKind::Overlap));
    /// assert_eq!(kind_of_edges(base, edge([5, 0], [6, 0])), None);
    /// ```
    kind_of_edges, must_use;
    /// Returns [`Error::UnsafePoint`] if an end isn't safe, with its index among the four.
    pub fn try_kind_of_edges[I: IntNumber](
        first: [IntPoint<I>; 2],
        second: [IntPoint<I>; 2],
    ) -> Result<Option<ContactKind>, Error> {
        calls::kind_of_edges(first, second)
    }
}

/// What is wrong with a polygon, if anything. The call that returns it says what the indices of
/// contours and edges count.
#[derive(Clone, Copy, Debug, PartialEq, Eq, Hash)]
pub enum Validity {
    /// Nothing is wrong.
    Valid,
    /// A contour has fewer than three points, or all its points are equal.
    TooFewPoints {
        /// The index of that contour.
        contour: usize,
    },
    /// Two edges are in contact, of one contour or of two.
    Contact(Contact),
    /// A hole has a vertex about which the winding number of the outer contour is 0.
    HoleOutside {
        /// The index of that hole among the contours.
        contour: usize,
    },
    /// A hole has a vertex about which the winding number of another hole isn't 0.
    HoleWithin {
        /// The index of that hole among the contours.
        contour: usize,
        /// That of the other hole.
        other: usize,
    },
}

impl Validity {
    /// Returns whether nothing is wrong.
    #[must_use]
    pub fn is_valid(self) -> bool {
        self == Validity::Valid
    }

    /// Returns the same fault for a list with `count` contours before these.
    pub(crate) fn behind(self, count: usize) -> Self {
        let shifted = |contour| count + contour;
        match self {
            Validity::TooFewPoints { contour } => Validity::TooFewPoints {
                contour: shifted(contour),
            },
            Validity::HoleOutside { contour } => Validity::HoleOutside {
                contour: shifted(contour),
            },
            Validity::HoleWithin { contour, other } => Validity::HoleWithin {
                contour: shifted(contour),
                other: shifted(other),
            },
            Validity::Valid | Validity::Contact(_) => self,
        }
    }
}

/// What is wrong with a polygon whose contours may touch at single points, if anything. The call that
/// returns it says what the indices of contours and edges count.
#[derive(Clone, Copy, Debug, PartialEq, Eq, Hash)]
pub enum TouchingValidity {
    /// Nothing is wrong.
    Valid,
    /// A contour has fewer than three points, or all its points are equal.
    TooFewPoints {
        /// The index of that contour.
        contour: usize,
    },
    /// Two edges are in contact, of one contour, or of two and they cross or overlap.
    Contact(Contact),
    /// A point of a hole's edges isn't on the outer contour, and the winding number of that about it is
    /// 0.
    HoleOutside {
        /// The index of that hole among the contours.
        contour: usize,
    },
    /// A point of a hole's edges isn't on another hole, and the winding number of that about it isn't
    /// 0.
    HoleWithin {
        /// The index of that hole among the contours.
        contour: usize,
        /// That of the other hole.
        other: usize,
    },
    /// Two edges of two contours touch, and these contours are also joined at points before that, by x
    /// and then by y, directly or by way of others: together they part the inside.
    Disconnected(Contact),
}

impl TouchingValidity {
    /// Returns whether nothing is wrong.
    #[must_use]
    pub fn is_valid(self) -> bool {
        self == TouchingValidity::Valid
    }

    /// Returns the same fault for a list with `count` contours before these.
    pub(crate) fn behind(self, count: usize) -> Self {
        let shifted = |contour| count + contour;
        match self {
            TouchingValidity::TooFewPoints { contour } => TouchingValidity::TooFewPoints {
                contour: shifted(contour),
            },
            TouchingValidity::HoleOutside { contour } => TouchingValidity::HoleOutside {
                contour: shifted(contour),
            },
            TouchingValidity::HoleWithin { contour, other } => TouchingValidity::HoleWithin {
                contour: shifted(contour),
                other: shifted(other),
            },
            TouchingValidity::Valid
            | TouchingValidity::Contact(_)
            | TouchingValidity::Disconnected(_) => self,
        }
    }
}

/// The contacts of a contour, and the test for a simple polygon.
pub trait ContourContacts<I: IntNumber> {
    both_forms! {
        /// Returns the first contact: of the first edge that is in contact with one after it, that
        /// with the first such edge. `None` if no two edges are in contact.
        ///
        /// The edges of a spike are in contact. So are edges at a point that a contour of more than
        /// three points passes twice, such as one that repeats.
        first_contact, must_use;
        /// Returns [`Error::UnsafePoint`] if a point isn't safe.
        fn try_first_contact(&self) -> Result<Option<Contact>, Error>;

        /// Returns all contacts, by the first edge, and those of one edge by the second. It searches
        /// again if there are more contacts than points.
        contacts, must_use;
        /// Returns [`Error::UnsafePoint`] if a point isn't safe, [`Error::NoMemory`] if there is none
        /// for as many contacts as points, or for all contacts.
        fn try_contacts(&self) -> Result<Vec<Contact>, Error>;

        /// Returns whether two edges cross, touch or overlap, `None` if they aren't in contact, `first`
        /// isn't below `second`, or a point isn't there. Each call tests all points: of many contacts
        /// take [`kinds_of_contacts`](ContourContacts::kinds_of_contacts).
        kind_of_contact, must_use;
        /// Returns [`Error::UnsafePoint`] if a point isn't safe, also one of another edge.
        fn try_kind_of_contact(&self, contact: Contact) -> Result<Option<ContactKind>, Error>;

        /// Returns of each contact, in order, what
        /// [`kind_of_contact`](ContourContacts::kind_of_contact) does.
        kinds_of_contacts, must_use;
        /// Returns [`Error::UnsafePoint`] if a point isn't safe, also one of another edge,
        /// [`Error::NoMemory`] if there is none for the result.
        fn try_kinds_of_contacts(&self, contacts: &[Contact]) -> Result<Vec<Option<ContactKind>>, Error>;

        /// Returns whether the contour is the boundary of a simple polygon: it has at least three
        /// points, not all of them equal, and no contact.
        ///
        /// Points at which it goes straight on are allowed, unlike by
        /// [`is_simple`](super::simple::SimpleContour::is_simple), which looks only at three points
        /// at a time.
        is_simple_polygon, must_use;
        /// Returns [`Error::UnsafePoint`] if a point isn't safe.
        fn try_is_simple_polygon(&self) -> Result<bool, Error>;
    }
}

impl<I: IntNumber> ContourContacts<I> for [IntPoint<I>] {
    fn try_first_contact(&self) -> Result<Option<Contact>, Error> {
        calls::first_contact(self)
    }

    fn try_contacts(&self) -> Result<Vec<Contact>, Error> {
        calls::contacts(self)
    }

    fn try_kind_of_contact(&self, contact: Contact) -> Result<Option<ContactKind>, Error> {
        calls::kind_of_contact(self, contact)
    }

    fn try_kinds_of_contacts(
        &self,
        contacts: &[Contact],
    ) -> Result<Vec<Option<ContactKind>>, Error> {
        calls::kinds_of_contacts(self, contacts)
    }

    fn try_is_simple_polygon(&self) -> Result<bool, Error> {
        calls::is_simple_polygon(self)
    }
}

/// Whether a polygon is [valid](self), also if its contours may touch, and its first fault.
///
/// These calls copy the contours.
pub trait ShapeValidity<I: IntNumber> {
    both_forms! {
        /// Returns the first fault, or [`Validity::Valid`]. Faults come in this order: the first
        /// contour that is degenerate, the first contact, the first hole that is outside the outer
        /// contour, and the first hole that is within another, with the first such other. A shape
        /// without contours is valid.
        ///
        /// Its indices are of the contours, and of their points, counted over all contours in order.
        ///
        /// Contacts take the time of [`first_contact`](ContourContacts::first_contact). If there are
        /// none, the call also takes time proportional to the number of holes times that of the
        /// points.
        validity, must_use;
        /// Returns [`Error::UnsafePoint`] if a point isn't safe, [`Error::NoMemory`] if the copy
        /// fails.
        fn try_validity(&self) -> Result<Validity, Error>;

        /// Returns whether the polygon is valid.
        is_valid, must_use;
        /// Returns the errors of [`try_validity`](ShapeValidity::try_validity).
        fn try_is_valid(&self) -> Result<bool, Error> {
            Ok(self.try_validity()?.is_valid())
        }

        /// Returns the first fault if contours may touch at single points, or
        /// [`TouchingValidity::Valid`]. Faults come in this order: the first contour that is
        /// degenerate; the first contact of edges that are of one contour, cross or overlap; the first
        /// hole with a point outside the outer contour; the first hole with a point inside another,
        /// with the first such other; and of the touches that part the inside, that at the least
        /// point, by x and then by y, and there the first. A shape without contours is valid.
        ///
        /// Its indices are those of [`validity`](ShapeValidity::validity), and without a contact the
        /// fault and the time are the same. With contacts it lists them, and also takes time
        /// proportional to the number of holes and contacts times that of the points.
        touching_validity, must_use;
        /// Returns [`Error::UnsafePoint`] if a point isn't safe, [`Error::NoMemory`] if the copy
        /// fails, or if edges are in contact and an allocation for the contacts fails.
        fn try_touching_validity(&self) -> Result<TouchingValidity, Error>;

        /// Returns whether the polygon is valid if its contours may touch at single points.
        is_valid_with_touches, must_use;
        /// Returns the errors of [`try_touching_validity`](ShapeValidity::try_touching_validity).
        fn try_is_valid_with_touches(&self) -> Result<bool, Error> {
            Ok(self.try_touching_validity()?.is_valid())
        }
    }
}

impl<I: IntNumber> ShapeValidity<I> for [IntContour<I>] {
    fn try_validity(&self) -> Result<Validity, Error> {
        let contours = OwnedContours::try_from_contours(self)?;
        calls::validity_of(contours.points(), contours.offsets(), 0)
    }

    fn try_touching_validity(&self) -> Result<TouchingValidity, Error> {
        let contours = OwnedContours::try_from_contours(self)?;
        calls::touching_validity_of(contours.points(), contours.offsets(), 0)
    }
}
