//! The proved functions over slices, with their codes as errors. Each tests whatever it requires of
//! its arguments, but for `try_clean_into`, before which its conditions are tested here.

use crate::erased::i_shape_c::codes::{NO_SHAPE, NO_WINDING, Refusal};
use crate::erased::i_shape_c::contour::clean_contour;
use crate::erased::i_shape_c::holders::find_holders;
use crate::erased::i_shape_c::location::{self, Telling, tell_points};
use crate::erased::i_shape_c::measures::{ContourMeasure, measure_contours};
use crate::erased::i_shape_c::places;
use crate::erased::i_shape_c::point::CPoint;
use crate::erased::i_shape_c::predicates::{self, ContourTest, test_contour};
use crate::erased::i_shape_c::version::version;
use crate::erased::i_shape_c::{area, winding as about};
use crate::erased::i_shape_contacts as edges;
use crate::erased::i_shape_contacts::course::{Course, Cycle, Rings};
use crate::erased::i_shape_contacts::kinds::{kind_by, kind_of};
use crate::erased::i_shape_contacts::plain::are_in_contact;
use crate::erased::i_shape_contacts::segments::do_meet;
use crate::erased::i_shape_core::area::UnsafeArea;
use crate::erased::i_shape_core::cleaner::ContourCleaner;
use crate::erased::i_shape_core::fill_rule as proved_rule;
use crate::erased::i_shape_core::point::{self as proved, ContourPoint};
use crate::erased::i_shape_touching as touches;
use crate::int::contacts::{Contact, ContactKind, TouchingValidity, Validity};
use crate::int::{IntNumber, IntPoint, WideIntNumber};
use crate::memory::{copied, made_of_each, try_filled};
use crate::{Error, FillRule, Location};
use alloc::vec::Vec;
use core::iter;

pub(crate) use crate::erased::fallible::alloc::Global;
pub(crate) use crate::erased::i_shape_c::batch::clean_contours;
pub(crate) use crate::erased::i_shape_c::canonical::form_shapes;
pub(crate) use crate::erased::i_shape_c::measures::{SafeRange, Tested};
pub(crate) use crate::erased::i_shape_c::polygons::clean_shapes;
pub(crate) use crate::erased::i_shape_c::predicates::{Bulging, Simple, Spikeless};
pub(crate) use crate::erased::i_shape_core::cleaner::{
    Canonicalizer, SpikeRemover, UnorientedCanonicalizer,
};
pub(crate) use crate::erased::i_shape_core::despike::ContourDeSpiker;
pub(crate) use crate::erased::i_shape_core::safe_range::are_safe;
pub(crate) use crate::erased::i_shape_core::simplifier::ContourSimplifier;

impl<I: IntNumber> ContourPoint for IntPoint<I> {
    type Coordinate = I::Proved;

    #[inline(always)]
    fn to_point(self) -> proved::IntPoint<I::Proved> {
        proved::IntPoint::new(self.x.proved(), self.y.proved())
    }
}

impl<I: IntNumber> CPoint for IntPoint<I> {}

/// A call that cleans contours.
pub(crate) type CleanMany<I> =
    fn(Global, &[IntPoint<I>], &[usize], &mut [IntPoint<I>], &mut [usize]) -> isize;

/// A call that cleans polygons.
pub(crate) type CleanShapes<I> = fn(
    Global,
    &[IntPoint<I>],
    &[usize],
    &[usize],
    &mut [IntPoint<I>],
    &mut [usize],
    &mut [usize],
) -> isize;

/// Returns the version of the library: its major, minor and patch number.
#[must_use]
pub fn library_version() -> (u32, u32, u32) {
    let version = version();
    (version >> 16, version >> 8 & 0xff, version & 0xff)
}

/// Returns the index of the first offset that doesn't divide `count` items, `None` if each does.
pub(crate) fn first_bad_offset(offsets: &[usize], count: usize) -> Option<usize> {
    let index = places::first_bad_offset(count, offsets);
    (index < offsets.len()).then_some(index)
}

/// Reads what a call on points returns: a number, or a code below 0. Offsets and room were tested
/// before.
fn number<I: IntNumber>(returned: isize, points: &[IntPoint<I>]) -> Result<usize, Error> {
    let is = |refusal: Refusal| returned == refusal.code() as isize;
    usize::try_from(returned).map_err(|_| {
        if is(Refusal::Unsafe) {
            Error::UnsafePoint(places::first_unsafe(points))
        } else if is(Refusal::NoMemory) {
            Error::NoMemory
        } else {
            unreachable!("the offsets and the room were tested")
        }
    })
}

/// Reads what a call on the points that the offsets divide returns.
pub(crate) fn number_of_many<I: IntNumber>(
    returned: isize,
    points: &[IntPoint<I>],
    offsets: &[usize],
) -> Result<usize, Error> {
    let (first, end) = (offsets[0], offsets[offsets.len() - 1]);
    number(returned, &points[first..end]).map_err(|error| error.behind(first))
}

/// Returns the error of the first unsafe point, if there is one.
fn check_safe<I: IntNumber>(points: &[IntPoint<I>]) -> Result<(), Error> {
    if are_safe(points) {
        Ok(())
    } else {
        Err(Error::UnsafePoint(places::first_unsafe(points)))
    }
}

/// If a call has the error of a point: returns the error of the first unsafe one of those that it is
/// asked about, if there is one.
fn check_about<I: IntNumber>(returned: isize, about: &[IntPoint<I>]) -> Result<(), Error> {
    if returned != Refusal::Unsafe.code() as isize {
        return Ok(());
    }
    match places::first_unsafe(about) {
        index if index < about.len() => Err(Error::UnsafeAbout(index)),
        _ => Ok(()),
    }
}

/// If a call has the error of a short slice: returns the error of the first one that is, by the room of
/// each and what it needs.
pub(crate) fn check_room(returned: isize, slices: &[(usize, usize)]) -> Result<(), Error> {
    if returned != Refusal::NoRoom.code() as isize {
        return Ok(());
    }
    match slices.iter().find(|(room, needed)| room < needed) {
        Some(&(room, needed)) => Err(Error::NoRoom { room, needed }),
        None => Ok(()),
    }
}

/// Cleans a contour to the front of `out`, and returns the number of points written there.
pub(crate) fn clean_one<C: ContourCleaner, I: IntNumber>(
    points: &[IntPoint<I>],
    out: &mut [IntPoint<I>],
) -> Result<usize, Error> {
    let returned = clean_contour::<_, C>(Global, points, out);
    check_room(returned, &[(out.len(), points.len())])?;
    number(returned, points)
}

/// Returns what a cleaner leaves of the contour, `None` if it collapses. The cleaner keeps its memory.
pub(crate) fn cleaned_by<C: ContourCleaner, I: IntNumber>(
    cleaner: &mut C,
    points: &[IntPoint<I>],
) -> Result<Option<Vec<IntPoint<I>>>, Error> {
    check_safe(points)?;
    let mut left = copied(points)?;
    let count = cleaner
        .try_clean_into(points, &mut left)
        .map_err(|_| Error::NoMemory)?;
    left.truncate(count);
    Ok((count > 0).then_some(left))
}

/// Returns what a cleaner of its own leaves of the contour, `None` if it collapses.
pub(crate) fn cleaned<C: ContourCleaner, I: IntNumber>(
    points: &[IntPoint<I>],
) -> Result<Option<Vec<IntPoint<I>>>, Error> {
    cleaned_by(&mut C::new(Global), points)
}

/// Cleans contours to the front of `out_points` and `out_offsets`, and returns the number of points
/// written there.
pub(crate) fn clean_many<I: IntNumber>(
    call: CleanMany<I>,
    points: &[IntPoint<I>],
    offsets: &[usize],
    out_points: &mut [IntPoint<I>],
    out_offsets: &mut [usize],
) -> Result<usize, Error> {
    let returned = call(Global, points, offsets, out_points, out_offsets);
    let slices = [
        (out_points.len(), points.len()),
        (out_offsets.len(), offsets.len()),
    ];
    check_room(returned, &slices)?;
    number_of_many(returned, points, offsets)
}

/// Returns whether the contour passes a test.
pub(crate) fn passes<I: IntNumber>(
    points: &[IntPoint<I>],
    test: impl ContourTest<I::Proved>,
) -> Result<bool, Error> {
    number(test_contour(points, test) as isize, points).map(|one| one == 1)
}

/// Returns whether the point is inside, by the even-odd rule.
pub(crate) fn contains<I: IntNumber>(
    points: &[IntPoint<I>],
    point: IntPoint<I>,
) -> Result<bool, Error> {
    let returned = predicates::contains(points, point) as isize;
    check_about(returned, &[point])?;
    number(returned, points).map(|one| one == 1)
}

/// Returns whether the rule fills the point, by the contour's winding number about it.
pub(crate) fn contains_by<I: IntNumber>(
    points: &[IntPoint<I>],
    point: IntPoint<I>,
    rule: FillRule,
) -> Result<bool, Error> {
    let returned = location::contains_by(points, point, rule as i32) as isize;
    check_about(returned, &[point])?;
    number(returned, points).map(|one| one == 1)
}

/// Returns the contour's winding number about the point.
pub(crate) fn winding<I: IntNumber>(
    points: &[IntPoint<I>],
    point: IntPoint<I>,
) -> Result<isize, Error> {
    let winding = about::winding(points, point);
    if winding == NO_WINDING {
        let unsafe_point = Refusal::Unsafe.code() as isize;
        check_about(unsafe_point, &[point])?;
        number(unsafe_point, points)?;
    }
    Ok(winding)
}

/// Writes the sum of the contours' winding numbers about each point to the front of `out`.
pub(crate) fn windings<I: IntNumber>(
    points: &[IntPoint<I>],
    offsets: &[usize],
    about: &[IntPoint<I>],
    out: &mut [isize],
) -> Result<(), Error> {
    let returned = about::windings(Global, points, offsets, about, out) as isize;
    check_room(returned, &[(out.len(), about.len())])?;
    check_about(returned, about)?;
    number_of_many(returned, points, offsets).map(drop)
}

/// Whether a rule fills a point.
#[derive(Clone, Copy)]
pub(crate) struct Filled {}

impl<P: CPoint> Telling<P> for Filled {
    type Answer = bool;

    fn on_edge() -> Option<bool> {
        None
    }

    fn tell(rule: proved_rule::FillRule, turns: isize) -> bool {
        <location::Filled as Telling<P>>::tell(rule, turns) == 1
    }
}

/// Where a point lies.
#[derive(Clone, Copy)]
pub(crate) struct Located {}

impl<P: CPoint> Telling<P> for Located {
    type Answer = Location;

    fn on_edge() -> Option<Location> {
        Some(Location::OnBoundary)
    }

    fn tell(rule: proved_rule::FillRule, turns: isize) -> Location {
        match <location::Located as Telling<P>>::tell(rule, turns) {
            1 => Location::Inside,
            _ => Location::Outside,
        }
    }
}

/// Writes the result of each point of `about` to the front of `out`.
pub(crate) fn tell<T: Telling<IntPoint<I>>, I: IntNumber>(
    points: &[IntPoint<I>],
    offsets: &[usize],
    about: &[IntPoint<I>],
    rule: FillRule,
    out: &mut [T::Answer],
) -> Result<(), Error> {
    let code = rule as i32;
    let returned = tell_points::<_, T>(Global, points, offsets, about, code, out) as isize;
    check_about(returned, about)?;
    number_of_many(returned, points, offsets).map(drop)
}

/// Returns the index of the first polygon that the rule fills at each point of `about`.
pub(crate) fn first_containing<I: IntNumber>(
    points: &[IntPoint<I>],
    contours: &[usize],
    shapes: &[usize],
    about: &[IntPoint<I>],
    rule: FillRule,
) -> Result<Vec<Option<usize>>, Error> {
    let code = rule as i32;
    let mut indices = try_filled(NO_SHAPE, about.len())?;
    let returned = find_holders(Global, points, contours, shapes, about, code, &mut indices);
    check_about(returned as isize, about)?;
    number_of_many(returned as isize, points, contours)?;
    made_of_each(indices.into_iter(), |index| {
        Ok((index != NO_SHAPE).then_some(index))
    })
}

/// Returns the first contact of the edges of a contour.
pub(crate) fn first_contact<I: IntNumber>(
    points: &[IntPoint<I>],
) -> Result<Option<Contact>, Error> {
    check_safe(points)?;
    Ok(edges::first_contact(Global, points).map(|found| contact_behind(0, found)))
}

/// Returns the first contact of the edges of all contours, whose offsets begin with 0 and end with
/// the number of points. So many points lie before these.
pub(crate) fn first_contact_of_many<I: IntNumber>(
    points: &[IntPoint<I>],
    offsets: &[usize],
    before: usize,
) -> Result<Option<Contact>, Error> {
    debug_assert!(edges::do_divide(offsets, points.len()));
    check_safe(points).map_err(|error| error.behind(before))?;
    let found = edges::first_contact_of_rings(Global, points, offsets);
    Ok(found.map(|found| contact_behind(before, found)))
}

/// Returns the contacts of the edges of a contour.
pub(crate) fn contacts<I: IntNumber>(points: &[IntPoint<I>]) -> Result<Vec<Contact>, Error> {
    check_safe(points)?;
    listed(points.len(), 0, |out| edges::contacts(Global, points, out))
}

/// Returns the contacts of the edges of all contours, whose offsets begin with 0 and end with the
/// number of points. So many points lie before these.
pub(crate) fn contacts_of_many<I: IntNumber>(
    points: &[IntPoint<I>],
    offsets: &[usize],
    before: usize,
) -> Result<Vec<Contact>, Error> {
    debug_assert!(edges::do_divide(offsets, points.len()));
    check_safe(points).map_err(|error| error.behind(before))?;
    listed(points.len(), before, |out| {
        edges::contacts_of_rings(Global, points, offsets, out)
    })
}

/// Returns the contacts that a call lists, which returns how many there are, also without room for
/// them. It is called again if they have no room in so many items. So many points lie before these.
fn listed(
    room: usize,
    before: usize,
    list: impl Fn(&mut [edges::Contact]) -> usize,
) -> Result<Vec<Contact>, Error> {
    let blank = edges::Contact {
        first: 0,
        second: 0,
    };
    let mut out = try_filled(blank, room)?;
    let count = list(&mut out);
    if count > room {
        out = try_filled(blank, count)?;
        list(&mut out);
    }
    made_of_each(out[..count].iter(), |&found| {
        Ok(contact_behind(before, found))
    })
}

/// Returns the kind of a contact of the edges of a contour, `None` if it is none.
pub(crate) fn kind_of_contact<I: IntNumber>(
    points: &[IntPoint<I>],
    contact: Contact,
) -> Result<Option<ContactKind>, Error> {
    check_safe(points)?;
    let count = points.len();
    Ok(kind_if_contact(points, Cycle { count }, contact))
}

/// Returns the kind of each contact of the edges of a contour, `None` if it is none.
pub(crate) fn kinds_of_contacts<I: IntNumber>(
    points: &[IntPoint<I>],
    contacts: &[Contact],
) -> Result<Vec<Option<ContactKind>>, Error> {
    check_safe(points)?;
    let count = points.len();
    made_of_each(contacts.iter(), |&contact| {
        Ok(kind_if_contact(points, Cycle { count }, contact))
    })
}

/// Returns the kind of a contact of the edges of all contours, whose offsets begin with 0 and end with
/// the number of points; `None` if it is none. So many points lie before these.
pub(crate) fn kind_of_contact_of_many<I: IntNumber>(
    points: &[IntPoint<I>],
    offsets: &[usize],
    before: usize,
    contact: Contact,
) -> Result<Option<ContactKind>, Error> {
    debug_assert!(edges::do_divide(offsets, points.len()));
    check_safe(points).map_err(|error| error.behind(before))?;
    Ok(kind_behind(points, offsets, before, contact))
}

/// The same of each of many contacts.
pub(crate) fn kinds_of_contacts_of_many<I: IntNumber>(
    points: &[IntPoint<I>],
    offsets: &[usize],
    before: usize,
    contacts: &[Contact],
) -> Result<Vec<Option<ContactKind>>, Error> {
    debug_assert!(edges::do_divide(offsets, points.len()));
    check_safe(points).map_err(|error| error.behind(before))?;
    made_of_each(contacts.iter(), |&contact| {
        Ok(kind_behind(points, offsets, before, contact))
    })
}

/// Returns the kind of a contact by indices of a list in which so many points lie before these, `None`
/// if it is none. The points are safe.
fn kind_behind<I: IntNumber>(
    points: &[IntPoint<I>],
    offsets: &[usize],
    before: usize,
    contact: Contact,
) -> Option<ContactKind> {
    let first = contact.first.checked_sub(before)?;
    let second = contact.second.saturating_sub(before);
    kind_if_contact(points, Rings { offsets }, Contact { first, second })
}

/// Returns the kind of a contact, `None` if these edges aren't in contact. The points are safe.
fn kind_if_contact<I: IntNumber>(
    points: &[IntPoint<I>],
    course: impl Course,
    contact: Contact,
) -> Option<ContactKind> {
    let Contact { first, second } = contact;
    if first >= second || second >= points.len() || !are_in_contact(points, course, first, second) {
        return None;
    }
    let contact = edges::Contact { first, second };
    Some(own_kind(kind_by(points, course, contact)))
}

/// Returns how two edges meet, each given by its ends; `None` if they share no point.
pub(crate) fn kind_of_edges<I: IntNumber>(
    [a, b]: [IntPoint<I>; 2],
    [c, e]: [IntPoint<I>; 2],
) -> Result<Option<ContactKind>, Error> {
    let ends = [a, b, c, e];
    check_safe(&ends)?;
    let [a, b, c, e] = ends.map(ContourPoint::to_point);
    Ok(do_meet(a, b, c, e).then(|| own_kind(kind_of(a, b, c, e))))
}

/// Returns the kind by the name that callers know.
fn own_kind(kind: edges::ContactKind) -> ContactKind {
    match kind {
        edges::ContactKind::Crossing => ContactKind::Crossing,
        edges::ContactKind::Touch => ContactKind::Touch,
        edges::ContactKind::Overlap => ContactKind::Overlap,
    }
}

/// Returns the same contact of a list in which so many points lie before.
fn contact_behind(count: usize, found: edges::Contact) -> Contact {
    Contact {
        first: count + found.first,
        second: count + found.second,
    }
}

/// Returns the first fault of a polygon, whose offsets begin with 0 and end with the number of points.
/// So many points lie before these, which its edges count; contours are counted from 0 on.
pub(crate) fn validity_of<I: IntNumber>(
    points: &[IntPoint<I>],
    offsets: &[usize],
    before: usize,
) -> Result<Validity, Error> {
    debug_assert!(edges::do_divide(offsets, points.len()));
    check_safe(points).map_err(|error| error.behind(before))?;
    Ok(match edges::validity_of(Global, points, offsets) {
        edges::Validity::Valid => Validity::Valid,
        edges::Validity::TooFewPoints { contour } => Validity::TooFewPoints { contour },
        edges::Validity::Contact(found) => Validity::Contact(contact_behind(before, found)),
        edges::Validity::HoleOutside { contour } => Validity::HoleOutside { contour },
        edges::Validity::HoleWithin { contour, other } => Validity::HoleWithin { contour, other },
    })
}

/// The same of a polygon whose contours may touch at single points.
pub(crate) fn touching_validity_of<I: IntNumber>(
    points: &[IntPoint<I>],
    offsets: &[usize],
    before: usize,
) -> Result<TouchingValidity, Error> {
    debug_assert!(edges::do_divide(offsets, points.len()));
    check_safe(points).map_err(|error| error.behind(before))?;
    let found =
        touches::touching_validity_of(Global, points, offsets).map_err(|_| Error::NoMemory)?;
    Ok(match found {
        touches::TouchingValidity::Valid => TouchingValidity::Valid,
        touches::TouchingValidity::TooFewPoints { contour } => {
            TouchingValidity::TooFewPoints { contour }
        }
        touches::TouchingValidity::Contact(found) => {
            TouchingValidity::Contact(contact_behind(before, found))
        }
        touches::TouchingValidity::HoleOutside { contour } => {
            TouchingValidity::HoleOutside { contour }
        }
        touches::TouchingValidity::HoleWithin { contour, other } => {
            TouchingValidity::HoleWithin { contour, other }
        }
        touches::TouchingValidity::Disconnected(found) => {
            TouchingValidity::Disconnected(contact_behind(before, found))
        }
    })
}

/// Returns whether the contour is the boundary of a simple polygon.
pub(crate) fn is_simple_polygon<I: IntNumber>(points: &[IntPoint<I>]) -> Result<bool, Error> {
    check_safe(points)?;
    Ok(edges::is_simple_polygon(Global, points))
}

/// Returns twice the signed area, `None` if there is no point.
pub(crate) fn area_two<I: IntNumber>(points: &[IntPoint<I>]) -> Option<I::Wide> {
    area::area_two(points)
}

/// Returns twice the signed area of the points that are left, `None` if there is none.
pub(crate) fn area_two_of<I: IntNumber>(
    mut points: impl Iterator<Item = IntPoint<I>>,
) -> Option<I::Wide> {
    let first = points.next()?;
    Some(
        iter::once(first)
            .chain(points)
            .map(IntPoint::to_point)
            .unsafe_area(),
    )
}

/// Whether a contour passes a test.
#[derive(Clone, Copy)]
pub(crate) struct Passes<M>(pub M);

impl<P: CPoint, M: ContourMeasure<P, Answer = u8>> ContourMeasure<P> for Passes<M> {
    type Answer = bool;

    fn admits(self, points: &[P]) -> bool {
        self.0.admits(points)
    }

    fn measure(self, contour: &[P]) -> bool {
        self.0.measure(contour) == 1
    }
}

/// Twice the signed area of a contour, 0 if there is no point.
#[derive(Clone, Copy)]
pub(crate) struct DoubleArea {}

impl<I: IntNumber> ContourMeasure<IntPoint<I>> for DoubleArea {
    type Answer = I::Wide;

    fn admits(self, _points: &[IntPoint<I>]) -> bool {
        true
    }

    fn measure(self, contour: &[IntPoint<I>]) -> I::Wide {
        area_two(contour).unwrap_or(I::Wide::ZERO)
    }
}

/// Returns the measure of each contour, in order. `blank` is any value of its type.
pub(crate) fn measured<M: ContourMeasure<IntPoint<I>>, I: IntNumber>(
    points: &[IntPoint<I>],
    offsets: &[usize],
    measure: M,
    blank: M::Answer,
) -> Result<Vec<M::Answer>, Error> {
    let mut measures = try_filled(blank, offsets.len() - 1)?;
    let returned = measure_contours(points, offsets, measure, &mut measures) as isize;
    number_of_many(returned, points, offsets)?;
    Ok(measures)
}
