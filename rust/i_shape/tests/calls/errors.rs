//! Each error of each call, by the form that returns it and by the one that panics with its text.

use crate::shared::{Number, SQUARE, STRAIGHT, at_each_width, contour, point};
use i_shape::flat::{Contours, OwnedShapes, Shapes};
use i_shape::int::IntPoint;
use i_shape::int::area::Area;
use i_shape::int::canonical::{CanonicalShape, CanonicalShapes};
use i_shape::int::contacts::{Contact, ContourContacts, ShapeValidity};
use i_shape::int::despike::{DeSpike, DeSpikeContour, DeSpikeShape, DeSpikeShapes};
use i_shape::int::path::ContourExtension;
use i_shape::int::shape::{IntContour, IntShape};
use i_shape::int::simple::{ContourSimplifier, SimpleContour, SimpleShape, SimpleShapes, Simplify};
use i_shape::int::winding::ShapeExtension;
use i_shape::{BadOffset, Error, FillRule};
use std::panic::{AssertUnwindSafe, catch_unwind};

at_each_width!(
    contours_with_an_unsafe_point,
    shapes_with_an_unsafe_point,
    batches_with_an_unsafe_point,
    points_asked_about,
    slices_that_are_too_short,
    offsets_that_are_bad,
    contours_without_a_point,
    nothing_is_written
);

/// A form that tries has returned the error, and the other form panics with its text.
fn has_error<T, U>(error: Error, answer: Result<T, Error>, panics: impl FnOnce() -> U) {
    assert_eq!(answer.err(), Some(error));
    let panic = catch_unwind(AssertUnwindSafe(panics))
        .err()
        .expect("it panics");
    assert_eq!(panic.downcast_ref::<String>(), Some(&error.to_string()));
}

/// The same of a method: `has_error!(error, receiver, the form that tries, the form that panics,
/// arguments)`.
macro_rules! has_error {
    ($error:expr, $receiver:expr, $tried:ident, $panics:ident $(, $argument:expr)*) => {
        let answer = $receiver.$tried($($argument),*).map(|_| ());
        has_error($error, answer, || $receiver.$panics($($argument),*))
    };
}

const EDGES: Contact = Contact {
    first: 0,
    second: 2,
};

fn spoilt<I: Number>() -> IntContour<I> {
    let mut contour = contour(&STRAIGHT);
    contour[3].y = I::ABOVE;
    contour
}

fn contours_with_an_unsafe_point<I: Number>() {
    let error = Error::UnsafePoint(3);
    let (given, inside) = (spoilt::<I>(), point::<I>([1, 1]));
    let mut out = given.clone();
    has_error!(error, given, try_is_simple, is_simple);
    has_error!(error, given, try_simplified, simplified);
    has_error!(error, given, try_canonical, canonical);
    has_error!(error, given, try_canonical_unoriented, canonical_unoriented);
    has_error!(error, given, try_simplify_into, simplify_into, &mut out);
    has_error!(error, given, try_canonical_into, canonical_into, &mut out);
    has_error!(
        error,
        given,
        try_canonical_unoriented_into,
        canonical_unoriented_into,
        &mut out
    );
    has_error!(error, given, try_has_no_spikes, has_no_spikes);
    has_error!(error, given, try_despiked_contour, despiked_contour);
    has_error!(error, given, try_despike_into, despike_into, &mut out);
    has_error!(error, given, try_is_convex, is_convex);
    has_error!(error, given, try_first_contact, first_contact);
    has_error!(error, given, try_contacts, contacts);
    has_error!(error, given, try_kind_of_contact, kind_of_contact, EDGES);
    has_error!(
        error,
        given,
        try_kinds_of_contacts,
        kinds_of_contacts,
        &[EDGES]
    );
    has_error!(error, given, try_is_simple_polygon, is_simple_polygon);
    // also of fewer than three points
    has_error!(
        Error::UnsafePoint(0),
        given[3..],
        try_is_simple_polygon,
        is_simple_polygon
    );
    has_error!(error, given, try_contains_point, contains_point, inside);
    has_error!(error, given, try_winding_number, winding_number, inside);
    has_error!(
        error,
        given,
        try_contains_by,
        contains_by,
        inside,
        FillRule::NonZero
    );
    has_error!(
        error,
        given,
        try_winding_numbers,
        winding_numbers,
        &[inside]
    );
    has_error!(
        error,
        given,
        try_contains_points,
        contains_points,
        &[inside],
        FillRule::NonZero
    );
    has_error!(
        error,
        given,
        try_locate,
        locate,
        &[inside],
        FillRule::NonZero
    );
    has_error!(error, given, try_is_on_boundary, is_on_boundary, inside);
    let mut simplifier = ContourSimplifier::default();
    has_error!(
        error,
        simplifier,
        try_simplify_contour,
        simplify_contour,
        &given
    );
    let mut left = given.clone();
    has_error!(error, left, try_simplify_contour, simplify_contour);
    has_error!(error, left, try_remove_spikes, remove_spikes);
    assert_eq!(left, given);
    assert!(given.try_area_two().is_ok());
}

fn shapes_with_an_unsafe_point<I: Number>() {
    let error = Error::UnsafePoint(4 + 3);
    let shape: IntShape<I> = vec![contour(&SQUARE), spoilt()];
    has_error!(error, shape, try_is_simple, is_simple);
    has_error!(error, shape, try_simplified, simplified);
    has_error!(error, shape, try_has_no_spikes, has_no_spikes);
    has_error!(error, shape, try_despiked_shape, despiked_shape);
    has_error!(error, shape, try_canonical, canonical);
    has_error!(error, shape, try_canonical_unoriented, canonical_unoriented);
    has_error!(error, shape, try_validity, validity);
    has_error!(error, shape, try_is_valid, is_valid);
    has_error!(error, shape, try_touching_validity, touching_validity);
    has_error!(
        error,
        shape,
        try_is_valid_with_touches,
        is_valid_with_touches
    );
    let inside = point([1, 1]);
    has_error!(error, shape, try_winding_number, winding_number, inside);
    has_error!(
        error,
        shape,
        try_contains_by,
        contains_by,
        inside,
        FillRule::EvenOdd
    );
    has_error!(
        error,
        shape,
        try_winding_numbers,
        winding_numbers,
        &[inside]
    );
    has_error!(
        error,
        shape,
        try_contains_points,
        contains_points,
        &[inside],
        FillRule::EvenOdd
    );
    has_error!(
        error,
        shape,
        try_locate,
        locate,
        &[inside],
        FillRule::EvenOdd
    );
    // on an edge of the contour before the one with that point
    let edge = point([4, 1]);
    has_error!(error, shape, try_is_on_boundary, is_on_boundary, edge);
    let mut left = shape.clone();
    has_error!(error, left, try_simplify_contour, simplify_contour);
    has_error!(error, left, try_remove_spikes, remove_spikes);
    assert_eq!(left, shape);

    let error = Error::UnsafePoint(4 + 4 + 3);
    let list = vec![vec![contour(&SQUARE)], shape];
    has_error!(error, list, try_is_simple, is_simple);
    has_error!(error, list, try_simplified, simplified);
    has_error!(error, list, try_has_no_spikes, has_no_spikes);
    has_error!(error, list, try_despiked_shapes, despiked_shapes);
    has_error!(error, list, try_canonical, canonical);
    has_error!(error, list, try_canonical_unoriented, canonical_unoriented);
    let mut left = list.clone();
    has_error!(error, left, try_simplify_contour, simplify_contour);
    has_error!(error, left, try_remove_spikes, remove_spikes);
    assert_eq!(left, list);
}

fn batches_with_an_unsafe_point<I: Number>() {
    let error = Error::UnsafePoint(3);
    let points = spoilt::<I>();
    let mut out = (points.clone(), [0; 2], [0; 2]);
    // an error counts the points before the first contour, too
    let behind = Contours::new(&points, &[2, 5]);
    has_error!(error, behind, try_simplified, simplified);
    has_error!(error, behind, try_first_contact, first_contact);
    has_error!(error, behind, try_contacts, contacts);
    has_error!(error, behind, try_kind_of_contact, kind_of_contact, EDGES);
    has_error!(
        error,
        behind,
        try_kinds_of_contacts,
        kinds_of_contacts,
        &[EDGES]
    );
    let behind = Shapes::new(&points, &[0, 2, 5], &[1, 2]);
    has_error!(error, behind, try_simplified, simplified);
    has_error!(error, behind, try_first_contacts, first_contacts);
    has_error!(error, behind, try_contacts, contacts);
    let apart = Shapes::new(&points, &[0, 2, 5], &[0, 1, 2]);
    has_error!(error, apart, try_first_contacts, first_contacts);
    has_error!(error, apart, try_contacts, contacts);
    for polygons in [behind, apart] {
        has_error!(
            error,
            polygons,
            try_first_containing,
            first_containing,
            &[point([1, 1])],
            FillRule::EvenOdd
        );
    }
    for polygons in [behind, apart] {
        has_error!(error, polygons, try_validity, validity);
        has_error!(error, polygons, try_touching_validity, touching_validity);
    }
    let contours = Contours::new(&points, &[0, 5]);
    has_error!(error, contours, try_simplified, simplified);
    has_error!(error, contours, try_first_contact, first_contact);
    has_error!(error, contours, try_contacts, contacts);
    has_error!(error, contours, try_kind_of_contact, kind_of_contact, EDGES);
    has_error!(
        error,
        contours,
        try_kinds_of_contacts,
        kinds_of_contacts,
        &[EDGES]
    );
    has_error!(error, contours, try_despiked, despiked);
    has_error!(error, contours, try_canonical, canonical);
    has_error!(
        error,
        contours,
        try_canonical_unoriented,
        canonical_unoriented
    );
    has_error!(
        error,
        contours,
        try_simplify_into,
        simplify_into,
        &mut out.0,
        &mut out.1
    );
    has_error!(
        error,
        contours,
        try_despike_into,
        despike_into,
        &mut out.0,
        &mut out.1
    );
    has_error!(
        error,
        contours,
        try_canonical_into,
        canonical_into,
        &mut out.0,
        &mut out.1
    );
    has_error!(
        error,
        contours,
        try_canonical_unoriented_into,
        canonical_unoriented_into,
        &mut out.0,
        &mut out.1
    );
    has_error!(error, contours, try_are_simple, are_simple);
    has_error!(error, contours, try_have_no_spikes, have_no_spikes);
    has_error!(error, contours, try_are_convex, are_convex);
    let about = [point([1, 1])];
    has_error!(
        error,
        contours,
        try_winding_numbers,
        winding_numbers,
        &about
    );
    has_error!(
        error,
        contours,
        try_winding_numbers_into,
        winding_numbers_into,
        &about,
        &mut [0]
    );
    has_error!(
        error,
        contours,
        try_contains_points,
        contains_points,
        &about,
        FillRule::EvenOdd
    );
    has_error!(
        error,
        contours,
        try_locate,
        locate,
        &about,
        FillRule::EvenOdd
    );

    let shapes = Shapes::new(&points, &[0, 5], &[0, 1]);
    has_error!(error, shapes, try_simplified, simplified);
    has_error!(error, shapes, try_spikes_removed, spikes_removed);
    has_error!(error, shapes, try_canonical, canonical);
    has_error!(
        error,
        shapes,
        try_canonical_unoriented,
        canonical_unoriented
    );
    let (points, contours, ends) = (&mut out.0, &mut out.1, &mut out.2);
    has_error!(
        error,
        shapes,
        try_simplify_into,
        simplify_into,
        points,
        contours,
        ends
    );
    has_error!(
        error,
        shapes,
        try_remove_spikes_into,
        remove_spikes_into,
        points,
        contours,
        ends
    );
    has_error!(
        error,
        shapes,
        try_canonical_into,
        canonical_into,
        points,
        contours,
        ends
    );
    has_error!(
        error,
        shapes,
        try_canonical_unoriented_into,
        canonical_unoriented_into,
        points,
        contours,
        ends
    );
}

fn points_asked_about<I: Number>() {
    let error = Error::UnsafeAbout(0);
    let given = contour::<I>(&SQUARE);
    let outside = IntPoint::new(I::ABOVE, I::ZERO);
    has_error!(error, given, try_contains_point, contains_point, outside);
    has_error!(error, given, try_winding_number, winding_number, outside);
    has_error!(
        error,
        given,
        try_winding_numbers,
        winding_numbers,
        &[outside]
    );
    for ends in [&[0][..], &[0, 1]] {
        let polygons = Shapes::new(&given, &[0, 4], ends);
        has_error!(
            error,
            polygons,
            try_first_containing,
            first_containing,
            &[outside],
            FillRule::NonZero
        );
    }
    for shape in [vec![], vec![given]] {
        has_error!(error, shape, try_winding_number, winding_number, outside);
        has_error!(
            error,
            shape,
            try_contains_by,
            contains_by,
            outside,
            FillRule::NonZero
        );
        has_error!(
            error,
            shape,
            try_winding_numbers,
            winding_numbers,
            &[outside]
        );
        has_error!(error, shape, try_is_on_boundary, is_on_boundary, outside);
        has_error!(
            error,
            shape,
            try_locate,
            locate,
            &[outside],
            FillRule::NonZero
        );
    }
}

fn no_room(room: usize, needed: usize) -> Error {
    Error::NoRoom { room, needed }
}

/// An offset by its index, itself, and the least and the most that it may be.
fn bad([index, offset, least, most]: [usize; 4]) -> BadOffset {
    BadOffset {
        index,
        offset,
        least,
        most,
    }
}

fn slices_that_are_too_short<I: Number>() {
    let error = no_room(4, 5);
    let given = contour::<I>(&STRAIGHT);
    let mut short = contour::<I>(&SQUARE);
    has_error!(error, given, try_simplify_into, simplify_into, &mut short);
    has_error!(error, given, try_despike_into, despike_into, &mut short);
    has_error!(error, given, try_canonical_into, canonical_into, &mut short);
    has_error!(
        error,
        given,
        try_canonical_unoriented_into,
        canonical_unoriented_into,
        &mut short
    );

    let contours = Contours::new(&given, &[0, 5]);
    let about = [point([1, 1]); 2];
    has_error!(
        no_room(1, 2),
        contours,
        try_winding_numbers_into,
        winding_numbers_into,
        &about,
        &mut [0]
    );
    // the points of the answer are one too few, and then its offsets
    for (points, offsets, error) in [(4, 2, error), (5, 1, no_room(1, 2))] {
        let (points, offsets) = (&mut given.clone()[..points], &mut [0; 2][..offsets]);
        has_error!(
            error,
            contours,
            try_simplify_into,
            simplify_into,
            points,
            offsets
        );
        has_error!(
            error,
            contours,
            try_despike_into,
            despike_into,
            points,
            offsets
        );
        has_error!(
            error,
            contours,
            try_canonical_into,
            canonical_into,
            points,
            offsets
        );
        has_error!(
            error,
            contours,
            try_canonical_unoriented_into,
            canonical_unoriented_into,
            points,
            offsets
        );
    }

    let shapes = Shapes::new(&given, &[0, 5], &[0, 1]);
    for (points, contours, ends, error) in [
        (4, 2, 2, error),
        (5, 1, 2, no_room(1, 2)),
        (5, 2, 1, no_room(1, 2)),
    ] {
        let points = &mut given.clone()[..points];
        let (contours, ends) = (&mut [0; 2][..contours], &mut [0; 2][..ends]);
        has_error!(
            error,
            shapes,
            try_simplify_into,
            simplify_into,
            points,
            contours,
            ends
        );
        has_error!(
            error,
            shapes,
            try_remove_spikes_into,
            remove_spikes_into,
            points,
            contours,
            ends
        );
        has_error!(
            error,
            shapes,
            try_canonical_into,
            canonical_into,
            points,
            contours,
            ends
        );
        has_error!(
            error,
            shapes,
            try_canonical_unoriented_into,
            canonical_unoriented_into,
            points,
            contours,
            ends
        );
    }
}

fn offsets_that_are_bad<I: Number>() {
    let points = contour::<I>(&SQUARE);
    let rows: [(&[usize], _); 4] = [
        (&[], None),
        (&[0, 5], Some([1, 5, 0, 4])),
        (&[3, 1, 4], Some([1, 1, 3, 4])),
        (&[5], Some([0, 5, 0, 4])),
    ];
    for (offsets, fault) in rows {
        let error = Error::BadOffsets(fault.map(bad));
        let answer = Contours::try_new(&points, offsets);
        has_error(error, answer, || Contours::new(&points, offsets));
        let answer = Shapes::try_new(&points, offsets, &[0]);
        has_error(error, answer, || Shapes::new(&points, offsets, &[0]));
    }
    let rows: [(&[usize], _); 4] = [
        (&[], None),
        (&[0, 3], Some([1, 3, 0, 2])),
        (&[2, 1], Some([1, 1, 2, 2])),
        (&[3], Some([0, 3, 0, 2])),
    ];
    for (shapes, fault) in rows {
        let answer = Shapes::try_new(&points, &[0, 2, 4], shapes);
        has_error(Error::BadShapeOffsets(fault.map(bad)), answer, || {
            Shapes::new(&points, &[0, 2, 4], shapes)
        });
    }
    use i_shape::flat::offsets::{from_lengths, from_ranges, try_from_lengths, try_from_ranges};
    let lengths = [usize::MAX, 2];
    has_error(Error::NoMemory, try_from_lengths(lengths), || {
        from_lengths(lengths)
    });
    let apart = [0..2, 3..4];
    let error = Error::BadOffsets(Some(bad([1, 3, 2, 2])));
    has_error(error, try_from_ranges(&apart), || from_ranges(&apart));
}

fn contours_without_a_point<I: Number>() {
    let error = Error::NoPoint;
    let none = contour::<I>(&[]);
    has_error!(error, none, try_area_two, area_two);
    has_error!(error, none, try_area, area);
    has_error!(error, none, try_is_clockwise_ordered, is_clockwise_ordered);
    let shape = vec![contour::<I>(&SQUARE), none];
    has_error!(error, shape, try_area_two, area_two);
    has_error!(error, shape, try_area, area);
    let list = [shape];
    has_error!(error, list, try_area_two, area_two);
    has_error!(error, list, try_area, area);
}

fn nothing_is_written<I: Number>() {
    let points = spoilt::<I>();
    let mark = point([9, 9]);
    let mut out = [mark; 5];
    assert!(points.try_simplify_into(&mut out).is_err());
    let (mut offsets, mut ends) = ([99; 2], [99; 2]);
    let contours = Contours::new(&points, &[0, 5]);
    assert!(contours.try_simplify_into(&mut out, &mut offsets).is_err());
    let shapes = Shapes::new(&points, &[0, 5], &[0, 1]);
    assert!(
        shapes
            .try_simplify_into(&mut out, &mut offsets, &mut ends)
            .is_err()
    );
    let mut numbers = [99];
    assert!(
        contours
            .try_winding_numbers_into(&[mark], &mut numbers)
            .is_err()
    );
    assert_eq!(
        (out, offsets, ends, numbers),
        ([mark; 5], [99; 2], [99; 2], [99])
    );
}

#[test]
fn errors_have_texts() {
    let fault = Some(bad([1, 5, 2, 4]));
    let errors = [
        (Error::UnsafePoint(1), "point 1 isn't in"),
        (Error::UnsafeAbout(1), "point 1 of those asked about isn't"),
        (
            Error::BadOffsets(fault),
            "offset 1 is 5, and not from 2 to 4",
        ),
        (
            Error::BadOffsets(Some(bad([1, 6, 5, 5]))),
            "offset 1 is 6, and not 5",
        ),
        (
            Error::BadOffsets(Some(bad([1, 4, 5, usize::MAX]))),
            "offset 1 is 4, and not at least 5",
        ),
        (Error::BadOffsets(None), "there is no offset"),
        (
            Error::BadShapeOffsets(fault),
            "offset 1 of shapes is 5, and not from 2 to 4",
        ),
        (Error::BadShapeOffsets(None), "there is no offset of shapes"),
        (no_room(4, 5), "has room for 4 items, fewer than 5"),
        (Error::NoPoint, "a contour has no point"),
    ];
    for (error, words) in errors {
        assert!(error.to_string().contains(words), "{error}");
    }
    let error: Box<dyn std::error::Error + Send + Sync> = Error::NoMemory.into();
    assert_eq!(error.to_string(), "out of memory");
    assert!(OwnedShapes::<i32>::try_from_shapes(&[] as &[IntShape<i32>]).is_ok());
}
