//! Each growth of memory that a call asks for fails in turn: the call returns `Error::NoMemory`.
//! Where none fails it succeeds.
#![allow(unsafe_code, reason = "an allocator is unsafe")]

#[allow(dead_code)]
#[path = "calls/shared.rs"]
mod shared;

use i_shape::Error;
use i_shape::FillRule;
use i_shape::flat::{Contours, OwnedContours, OwnedShapes, Shapes, offsets};
use i_shape::int::IntPoint;
use i_shape::int::canonical::{CanonicalShape, CanonicalShapes};
use i_shape::int::contacts::{Contact, ContourContacts, ShapeValidity, TouchingValidity, Validity};
use i_shape::int::despike::{DeSpike, DeSpikeContour, DeSpikeShape, DeSpikeShapes};
use i_shape::int::path::ContourExtension;
use i_shape::int::simple::{ContourSimplifier, SimpleContour, SimpleShape, SimpleShapes, Simplify};
use i_shape::int::winding::ShapeExtension;
use shared::{
    FLAT, Growing, HOLE, Number, SPIKED, SQUARE, STRAIGHT, at_each_width, contour, point, shapes,
};
use std::alloc::{GlobalAlloc, Layout, System};
use std::cell::{Cell, RefCell};
use std::panic::{AssertUnwindSafe, catch_unwind};
use std::ptr;

at_each_width!(contours, shapes_and_lists, batches);

thread_local! {
    /// How many growths of this thread succeed before one fails.
    static GRANTED: Cell<usize> = const { Cell::new(usize::MAX) };
}

/// Whether a growth of this thread is granted.
fn is_granted() -> bool {
    let left = GRANTED.get();
    if left != usize::MAX {
        GRANTED.set(left.wrapping_sub(1));
    }
    left != 0
}

struct Failing;

// SAFETY: each call is passed on, or fails as the trait allows.
unsafe impl GlobalAlloc for Failing {
    unsafe fn alloc(&self, layout: Layout) -> *mut u8 {
        if is_granted() {
            unsafe { System.alloc(layout) }
        } else {
            ptr::null_mut()
        }
    }

    unsafe fn dealloc(&self, block: *mut u8, layout: Layout) {
        unsafe { System.dealloc(block, layout) }
    }

    unsafe fn realloc(&self, block: *mut u8, layout: Layout, size: usize) -> *mut u8 {
        if is_granted() {
            unsafe { System.realloc(block, layout, size) }
        } else {
            ptr::null_mut()
        }
    }
}

#[global_allocator]
static ALLOCATOR: Failing = Failing;

/// Makes the growths of a call fail one by one, until it succeeds with this many.
#[track_caller]
fn growths<T>(call: impl Fn() -> Result<T, Error>) -> usize {
    for granted in 0..100 {
        GRANTED.set(granted);
        let answer = call();
        GRANTED.set(usize::MAX);
        match answer {
            Ok(_) => return granted,
            Err(error) => assert_eq!(error, Error::NoMemory),
        }
    }
    panic!("it takes more than a hundred growths");
}

type CleanInto<I> = fn(&[IntPoint<I>], &mut [IntPoint<I>]) -> Result<usize, Error>;

/// The growths of a call that writes into a slice, which is as it was where the call fails.
fn growths_of_written<I: Number>(given: &[IntPoint<I>], clean_into: CleanInto<I>) -> usize {
    let before = [point([9, 9]); 6];
    growths(|| {
        let mut out = before;
        let answer = clean_into(given, &mut out);
        assert!(answer.is_ok() || out == before);
        answer
    })
}

fn contours<I: Number>() {
    let [clean, straight, spiked] = [&SQUARE[..], &STRAIGHT, &SPIKED].map(contour::<I>);
    let about = [point([1, 1])];
    // the answer alone
    assert_eq!(growths(|| clean.try_simplified()), 1);
    assert_eq!(growths(|| straight.try_despiked_contour()), 1);
    assert_eq!(growths(|| clean.try_winding_numbers(&about)), 1);
    assert_eq!(
        growths(|| clean.try_contains_points(&about, FillRule::EvenOdd)),
        1
    );
    assert_eq!(growths(|| clean.try_locate(&about, FillRule::EvenOdd)), 1);
    // the answer and what the cleaner needs
    assert!(growths(|| straight.try_simplified()) > 1);
    assert!(growths(|| straight.try_canonical()) > 1);
    assert!(growths(|| straight.try_canonical_unoriented()) > 1);
    assert!(growths(|| spiked.try_despiked_contour()) > 1);
    // the answer alone, once the cleaner has what it needs
    let mut simplifier = ContourSimplifier::default();
    assert_eq!(
        simplifier.simplify_contour(&straight),
        straight.simplified()
    );
    let simplifier = RefCell::new(simplifier);
    let again = || simplifier.borrow_mut().try_simplify_contour(&straight);
    assert_eq!(growths(again), 1);
    // what the cleaner needs
    assert_eq!(growths_of_written(&clean, <[_]>::try_simplify_into), 0);
    assert_eq!(growths_of_written(&straight, <[_]>::try_despike_into), 0);
    assert!(growths_of_written(&straight, <[_]>::try_simplify_into) > 0);
    assert!(growths_of_written(&straight, <[_]>::try_canonical_into) > 0);
    assert!(growths_of_written(&straight, <[_]>::try_canonical_unoriented_into) > 0);
    assert!(growths_of_written(&spiked, <[_]>::try_despike_into) > 0);
    // tests take none
    assert_eq!(growths(|| straight.try_is_simple()), 0);
    assert_eq!(growths(|| spiked.try_has_no_spikes()), 0);
    assert_eq!(growths(|| spiked.try_is_convex()), 0);
    assert_eq!(growths(|| spiked.try_contains_point(about[0])), 0);
    assert_eq!(growths(|| spiked.try_winding_number(about[0])), 0);
    // nor does one that could do with some
    assert_eq!(growths(|| spiked.try_is_on_boundary(about[0])), 0);
    assert_eq!(growths(|| spiked.try_first_contact()), 0);
    let edges = Contact {
        first: 1,
        second: 3,
    };
    assert_eq!(growths(|| spiked.try_kind_of_contact(edges)), 0);
    assert_eq!(growths(|| spiked.try_kinds_of_contacts(&[edges])), 1);
    // room for as many contacts as points, and for those that there are
    assert_eq!(growths(|| clean.try_contacts()), 1);
    assert_eq!(growths(|| spiked.try_contacts()), 2);
    // and for more than points
    let zigzag = [[0, 0], [4, 0]].map(point::<I>).repeat(5);
    assert_eq!(growths(|| zigzag.try_contacts()), 3);
    assert_eq!(growths(|| clean.try_is_simple_polygon()), 0);
}

fn shapes_and_lists<I: Number>() {
    let given = shapes::<I>(&[&[&STRAIGHT, &FLAT, &HOLE], &[&SPIKED]]);
    assert!(growths(|| given.try_simplified()) > 0);
    assert!(growths(|| given.try_despiked_shapes()) > 0);
    assert!(growths(|| given.try_canonical()) > 0);
    assert!(growths(|| given.try_canonical_unoriented()) > 0);
    assert!(growths(|| given[0].try_simplified()) > 0);
    assert!(growths(|| given[1].try_despiked_shape()) > 0);
    assert!(growths(|| given[0].try_canonical()) > 0);
    assert!(growths(|| given[0].try_canonical_unoriented()) > 0);
    let about = [point([1, 1])];
    assert_eq!(growths(|| given[0].try_winding_numbers(&about)), 3);
    // of a copy of the points, and of one of the offsets
    assert_eq!(growths(|| given[1].try_validity()), 2);
    assert_eq!(growths(|| given[1].try_is_valid()), 2);
    // the same if contours may touch; eight more where they do: contacts, touches, marks of edges, pieces, labels
    assert_eq!(growths(|| given[0][2..].try_touching_validity()), 2);
    let touching = shapes::<I>(&[&[&SQUARE, &[[0, 2], [3, 2], [2, 3]]]]);
    assert_eq!(growths(|| touching[0].try_touching_validity()), 10);
    assert_eq!(growths(|| touching[0].try_is_valid_with_touches()), 10);
    assert_eq!(growths(|| given[0].try_winding_number(about[0])), 0);
    assert_eq!(growths(|| given.try_is_simple()), 0);
    assert_eq!(growths(|| given.try_has_no_spikes()), 0);
}

#[test]
fn in_place_changes_nothing() {
    let given = shapes::<i32>(&[&[&STRAIGHT, &FLAT, &HOLE], &[&SPIKED]]);
    let mut left = given.clone();
    GRANTED.set(2);
    let answer = left.try_simplify_contour();
    GRANTED.set(usize::MAX);
    assert_eq!((answer, &left), (Err(Error::NoMemory), &given));
    let mut left = given[1][0].clone();
    GRANTED.set(0);
    let answer = left.try_remove_spikes();
    GRANTED.set(usize::MAX);
    assert_eq!((answer, &left), (Err(Error::NoMemory), &given[1][0]));
}

#[test]
fn contacts_are_the_same_without_memory() {
    let clean = shared::walk_round::<i32>(50);
    let mut touching = clean.clone();
    touching[198] = point([0, 50]);
    let rings = clean.repeat(100);
    let ends = offsets::from_lengths([200; 100]);
    let polygon = Shapes::new(&rings, &ends, &[0, 100]);
    let contact = |first, second| Some(Contact { first, second });
    for granted in 0..9 {
        GRANTED.set(granted);
        let found = (clean.first_contact(), touching.first_contact());
        let of_rings = Contours::new(&rings, &ends).first_contact();
        GRANTED.set(granted + 1);
        let fault = polygon.validity();
        GRANTED.set(usize::MAX);
        assert_eq!(
            fault,
            [Validity::Contact(Contact {
                first: 0,
                second: 200
            })]
        );
        assert_eq!(found, (None, contact(149, 197)));
        assert_eq!(of_rings, contact(0, 200));
    }
}

#[test]
fn faults_with_touches_are_the_same_or_an_error() {
    let walk = shared::walk_round::<i32>(50);
    let hole = [[0, 2], [3, 2], [2, 3]].map(point);
    let across = [[0, 2], [50, 2], [2, 3]].map(point);
    let polygons = [
        vec![walk.clone(), hole.to_vec()],
        vec![walk, across.to_vec()],
    ];
    let touch = Contact {
        first: 51,
        second: 200,
    };
    let wanted = [
        TouchingValidity::Valid,
        TouchingValidity::Disconnected(touch),
    ];
    for (polygon, wanted) in polygons.into_iter().zip(wanted) {
        let mut found = Vec::new();
        for granted in 0..40 {
            GRANTED.set(granted);
            let answer = polygon.try_touching_validity();
            GRANTED.set(usize::MAX);
            assert!(answer == Ok(wanted) || answer == Err(Error::NoMemory));
            found.push(answer.is_ok());
        }
        // of the copy; of boxes, without which it finds the same; of the contacts
        assert_eq!(found[..5], [false, false, true, true, false]);
        assert_eq!(found.last(), Some(&true));
    }
}

#[test]
fn holders_are_the_same_without_memory() {
    let rings = [&SQUARE[..], &STRAIGHT, &SPIKED].map(contour::<i32>);
    let flat = OwnedContours::from_contours(&rings);
    let polygons = Shapes::new(flat.points(), flat.offsets(), &[0, 1, 2, 3]);
    let behind = Shapes::new(flat.points(), flat.offsets(), &[1, 2, 3]);
    let about = [[1, 1], [9, 9]].map(point);
    let found = Ok(vec![Some(0), None]);
    let refused = Err(Error::NoMemory);
    let ask = |polygons: Shapes<'_, i32>, granted| {
        GRANTED.set(granted);
        let answer = polygons.try_first_containing(&about, FillRule::NonZero);
        GRANTED.set(usize::MAX);
        answer
    };
    // of indices, of boxes, and of the result
    let wanted = [&refused, &found, &refused, &found];
    for (granted, wanted) in wanted.into_iter().enumerate() {
        assert_eq!(&ask(polygons, granted), wanted);
    }
    // before these, of the offsets
    let wanted = [&refused, &refused, &found, &refused, &found];
    for (granted, wanted) in wanted.into_iter().enumerate() {
        assert_eq!(&ask(behind, granted), wanted);
    }
}

#[test]
fn other_forms_panic_with_the_text() {
    let given = contour::<i32>(&STRAIGHT);
    let polygon = [given.clone()];
    let panics = |call: &dyn Fn()| {
        GRANTED.set(0);
        let panic = catch_unwind(AssertUnwindSafe(call));
        GRANTED.set(usize::MAX);
        panic.is_err_and(|panic| {
            panic.downcast_ref::<String>() == Some(&Error::NoMemory.to_string())
        })
    };
    assert!(panics(&|| drop(given.simplified())));
    assert!(panics(&|| drop(given.winding_numbers(&given))));
    assert!(panics(&|| drop(Contours::new(&given, &[0, 5]).canonical())));
    assert!(panics(&|| drop(
        Shapes::new(&given, &[0, 5], &[0, 1]).spikes_removed()
    )));
    assert!(panics(&|| {
        let _ = Contours::new(&given, &[1, 5]).first_contact();
    }));
    assert!(panics(&|| drop(
        Shapes::new(&given, &[0, 5], &[0, 1]).first_contacts()
    )));
    assert!(panics(&|| {
        let _ = polygon.touching_validity();
    }));
}

fn batches<I: Number>() {
    let rings = [&SQUARE[..], &STRAIGHT, &SPIKED].map(contour::<I>);
    let flat = OwnedContours::from_contours(&rings);
    let all = flat.as_contours();
    let clean = Contours::new(flat.points(), &flat.offsets()[..2]);
    assert_eq!(growths(|| clean.try_simplified()), 2);
    assert!(growths(|| all.try_simplified()) > 2);
    assert!(growths(|| all.try_despiked()) > 2);
    assert!(growths(|| all.try_canonical()) > 2);
    assert!(growths(|| all.try_canonical_unoriented()) > 2);
    let behind = Contours::new(flat.points(), &flat.offsets()[1..]);
    assert!(growths(|| behind.try_simplified()) > 3);
    assert_eq!(growths(|| all.try_first_contact()), 0);
    assert_eq!(growths(|| behind.try_first_contact()), 1);
    let edges = Contact {
        first: 4,
        second: 9,
    };
    // these have more contacts than points
    assert_eq!(growths(|| all.try_contacts()), 3);
    assert_eq!(growths(|| behind.try_contacts()), 4);
    assert_eq!(growths(|| all.try_kind_of_contact(edges)), 0);
    assert_eq!(growths(|| behind.try_kind_of_contact(edges)), 1);
    assert_eq!(growths(|| all.try_kinds_of_contacts(&[edges])), 1);
    assert_eq!(growths(|| behind.try_kinds_of_contacts(&[edges])), 2);
    let about = [point([1, 1]); 3];
    assert_eq!(growths(|| all.try_are_simple()), 1);
    assert_eq!(growths(|| all.try_have_no_spikes()), 1);
    assert_eq!(growths(|| all.try_are_convex()), 1);
    assert_eq!(growths(|| all.try_are_in_safe_range()), 1);
    assert_eq!(growths(|| all.try_areas_two()), 1);
    assert_eq!(growths(|| all.try_winding_numbers(&about)), 1);
    assert_eq!(
        growths(|| all.try_winding_numbers_into(&about, &mut [0; 3])),
        0
    );

    let polygons = Shapes::new(flat.points(), flat.offsets(), &[1, 3]);
    assert!(growths(|| polygons.try_simplified()) > 3);
    assert!(growths(|| polygons.try_canonical_unoriented()) > 3);
    // the answer, and the offsets of each polygon behind the first point
    assert_eq!(growths(|| polygons.try_first_contacts()), 2);
    assert_eq!(growths(|| polygons.try_validity()), 2);
    // these have contacts, which it lists
    assert_eq!(growths(|| polygons.try_touching_validity()), 3);
    let owned = polygons.simplified();
    assert_eq!(growths(|| owned.try_to_shapes()), 4);

    assert_eq!(growths(|| OwnedContours::try_from_contours(&rings)), 2);
    assert_eq!(growths(|| OwnedShapes::try_from_shapes(&[&rings[..]])), 3);
    // of points, of offsets, and of the points that come between two looks
    let grown = || OwnedContours::try_from_contours(&[(); 2].map(|_| Growing::new(&rings[0])));
    assert_eq!(growths(grown), 3);
    let grown = || OwnedShapes::try_from_shapes(&[(); 2].map(|_| Growing::new(&rings)));
    assert!(growths(grown) > 3);
    assert_eq!(growths(|| offsets::try_from_lengths([1, 2, 3])), 1);
    assert_eq!(growths(|| offsets::try_from_ranges(&[0..2, 2..5])), 1);
    let extended = || {
        let mut joined = OwnedContours::try_from_contours(&[] as &[&[_]])?;
        let answer = joined.try_extend(all);
        assert!(answer.is_ok() || joined.as_contours().is_empty());
        answer
    };
    assert_eq!(growths(extended), 3);
    let extended = || {
        let mut joined = OwnedShapes::try_from_shapes(&[] as &[&[_]])?;
        let answer = joined.try_extend(polygons);
        assert!(answer.is_ok() || joined.as_shapes().is_empty());
        answer
    };
    assert_eq!(growths(extended), 5);
}
