//! Calls on one contour.

use crate::shared::{
    FLAT, HOLE, Number, SPIKED, SQUARE, STAR, STRAIGHT, TURNED, Written, at_each_width, contour,
    point, walk_round,
};
use i_shape::int::area::Area;
use i_shape::int::despike::{DeSpike, DeSpikeContour};
use i_shape::int::path::ContourExtension;
use i_shape::int::safe_range::IntSafeRange;
use i_shape::int::simple::{ContourSimplifier, SimpleContour, Simplify};
use i_shape::int::{IntNumber, IntPoint};
use i_shape::{FillRule, Location};

at_each_width!(
    cleaned,
    written_into_a_slice,
    read_either_way,
    cleaned_in_place,
    tested,
    measured,
    wound_about,
    on_the_boundary,
    one_zero_turn,
    long_contour
);

/// A contour, and what is left of it without zero turns, without spikes, and in canonical form;
/// nothing where it collapses.
const CLEANED: [(&Written, &Written, &Written, &Written); 6] = [
    (&SQUARE, &SQUARE, &SQUARE, &SQUARE),
    (&STRAIGHT, &TURNED, &STRAIGHT, &SQUARE),
    (&SPIKED, &SQUARE, &SQUARE, &SQUARE),
    (&FLAT, &[], &[], &[]),
    (&[[1, 1], [2, 2]], &[], &[], &[]),
    (&[], &[], &[], &[]),
];

fn cleaned<I: Number>() {
    for (given, simplified, despiked, canonical) in CLEANED {
        let left = |points: &Written| (!points.is_empty()).then(|| contour::<I>(points));
        let given = contour::<I>(given);
        assert_eq!(given.simplified(), left(simplified));
        assert_eq!(given.try_simplified(), Ok(left(simplified)));
        assert_eq!(given.despiked_contour(), left(despiked));
        assert_eq!(given.try_despiked_contour(), Ok(left(despiked)));
        assert_eq!(given.canonical(), left(canonical));
        assert_eq!(given.try_canonical(), Ok(left(canonical)));
        let mut simplifier = ContourSimplifier::default();
        assert_eq!(simplifier.simplify_contour(&given), left(simplified));
        assert_eq!(
            simplifier.try_simplify_contour(&given),
            Ok(left(simplified))
        );
    }
}

fn written_into_a_slice<I: Number>() {
    let behind = point::<I>([7, 7]);
    let is_written = |out: &[IntPoint<I>], count: usize, wanted: &Written| {
        out[..count] == contour(wanted) && out[count..].iter().all(|&point| point == behind)
    };
    for (given, simplified, despiked, canonical) in CLEANED {
        let given = contour::<I>(given);
        let mut out = [behind; 8];
        let count = given.simplify_into(&mut out);
        assert!(is_written(&out, count, simplified));
        let mut out = [behind; 8];
        let count = given.despike_into(&mut out);
        assert!(is_written(&out, count, despiked));
        let mut out = [behind; 8];
        let count = given.canonical_into(&mut out);
        assert!(is_written(&out, count, canonical));
    }
}

/// The square read backwards, from its least start.
const BACKWARDS: [[i8; 2]; 4] = [[0, 0], [0, 4], [4, 4], [4, 0]];
const DIAMOND: [[i8; 2]; 4] = [[-4, 0], [0, -4], [4, 0], [0, 4]];
const REPEATED: [[i8; 2]; 5] = [[-4, 0], [0, -4], [4, 0], [4, 0], [0, 4]];
/// It bends to both sides, and is wound to the right.
const BENT: [[i8; 2]; 6] = [[4, 4], [4, 0], [2, 0], [2, 2], [0, 2], [0, 4]];

/// A contour, and its canonical form where it may be read backwards too; nothing where it
/// collapses.
const READ_EITHER_WAY: [(&Written, &Written); 8] = [
    (&SQUARE, &BACKWARDS),
    (&STRAIGHT, &BACKWARDS),
    (&SPIKED, &BACKWARDS),
    (&REPEATED, &DIAMOND),
    (&BENT, &[[0, 2], [0, 4], [4, 4], [4, 0], [2, 0], [2, 2]]),
    (&FLAT, &[]),
    (&[[1, 1], [2, 2]], &[]),
    (&[], &[]),
];

fn read_either_way<I: Number>() {
    for (given, form) in READ_EITHER_WAY {
        let forwards = contour::<I>(given);
        let backwards: Vec<_> = forwards.iter().rev().copied().collect();
        let form = contour::<I>(form);
        let answer = (!form.is_empty()).then(|| form.clone());
        for given in [forwards, backwards] {
            assert_eq!(given.canonical_unoriented(), answer);
            assert_eq!(given.try_canonical_unoriented(), Ok(answer.clone()));
            let behind = point([7, 7]);
            let mut out = [behind; 8];
            let count = given.canonical_unoriented_into(&mut out);
            assert_eq!(out[..count], form);
            assert!(out[count..].iter().all(|&point| point == behind));
            assert_eq!(given.try_canonical_unoriented_into(&mut out), Ok(count));
        }
    }
}

fn cleaned_in_place<I: Number>() {
    for (given, simplified, despiked, _) in CLEANED {
        let mut left = contour::<I>(given);
        assert_eq!(left.simplify_contour(), given != SQUARE);
        assert_eq!(left, contour(simplified));
        assert_eq!(left.try_simplify_contour(), Ok(left.is_empty()));

        let mut left = contour::<I>(given);
        assert_eq!(left.remove_spikes(), given != SQUARE && given != STRAIGHT);
        assert_eq!(left, contour(despiked));
        assert_eq!(left.try_remove_spikes(), Ok(left.is_empty()));
    }
}

/// A contour, and whether it is simple, has no spikes, and is convex.
const TESTED: [(&Written, [bool; 3]); 8] = [
    (&SQUARE, [true, true, true]),
    (&STRAIGHT, [false, true, true]),
    (&SPIKED, [false, false, false]),
    (&FLAT, [false, false, false]),
    (&STAR, [true, true, true]),
    (&[[0, 0], [4, 0], [1, 1], [0, 4]], [true, true, false]),
    (&[[3, 3]], [false, false, true]),
    (&[], [false, false, true]),
];

fn tested<I: Number>() {
    for (given, [is_simple, has_no_spikes, is_convex]) in TESTED {
        let given = contour::<I>(given);
        assert_eq!(given.is_simple(), is_simple);
        assert_eq!(given.try_is_simple(), Ok(is_simple));
        assert_eq!(given.has_no_spikes(), has_no_spikes);
        assert_eq!(given.try_has_no_spikes(), Ok(has_no_spikes));
        assert_eq!(given.is_convex(), is_convex);
        assert_eq!(given.try_is_convex(), Ok(is_convex));
    }
}

#[test]
fn safe_range_ends_before_a_quarter_of_the_type() {
    fn at<I: IntNumber>(inside: [I; 2], outside: [I; 2]) {
        let zero = I::ZERO;
        for number in inside {
            assert!(IntPoint::new(number, zero).is_in_safe_range());
            assert!([IntPoint::ZERO, IntPoint::new(zero, number)].is_in_safe_range());
        }
        for number in outside {
            assert!(!IntPoint::new(zero, number).is_in_safe_range());
            assert!(![IntPoint::ZERO, IntPoint::new(number, zero)].is_in_safe_range());
        }
    }
    at::<i16>([1 - (1 << 14), (1 << 14) - 1], [-(1 << 14), 1 << 14]);
    at::<i32>([1 - (1 << 30), (1 << 30) - 1], [-(1 << 30), 1 << 30]);
    at::<i64>([1 - (1 << 62), (1 << 62) - 1], [-(1 << 62), 1 << 62]);
    assert!(Vec::<IntPoint<i32>>::new().is_in_safe_range());
}

fn measured<I: Number>() {
    let is_area = |points: &Written, doubled: i8, whole: i8| {
        let given = contour::<I>(points);
        let number = |number: i8| format!("{number}");
        format!("{}", given.area_two()) == number(doubled)
            && given.try_area_two() == Ok(given.area_two())
            && format!("{}", given.area()) == number(whole)
            && given.try_area() == Ok(given.area())
            && given.is_clockwise_ordered() == (doubled <= 0)
            && given.try_is_clockwise_ordered() == Ok(doubled <= 0)
    };
    assert!(is_area(&SQUARE, 32, 16));
    assert!(is_area(&SPIKED, 32, 16));
    assert!(is_area(&HOLE, -1, 0));
    assert!(is_area(&[[0, 0], [1, 0], [1, 1]], 1, 0));
    assert!(is_area(&FLAT, 0, 0));
}

#[test]
fn areas_of_great_contours() {
    let square =
        |side: i64| [[0, 0], [side, 0], [side, side], [0, side]].map(|[x, y]| IntPoint::new(x, y));
    assert_eq!(square(1 << 61).area_two(), 1_i128 << 123);
    assert_eq!(square(-(1 << 61)).area(), 1_i128 << 122);
    let mut backwards = square(1 << 61);
    backwards.reverse();
    assert_eq!(backwards.area_two(), -(1_i128 << 123));
}

#[test]
fn areas_that_do_not_fit_are_reduced() {
    let (low, high) = (i16::MIN, i16::MAX);
    let all =
        [[low, low], [high, low], [high, high], [low, high]].map(|[x, y]| IntPoint::new(x, y));
    // twice the square of 65,535, less twice 2^32
    assert_eq!(all.area_two(), -262_142);
}

fn wound_about<I: Number>() {
    let star = contour::<I>(&STAR);
    let backwards: Vec<_> = star.iter().rev().copied().collect();
    let about = [[0, 0], [0, 8], [0, -7], [9, 9]].map(point::<I>);
    let numbers = [2, 1, 0, 0];
    let opposite = numbers.map(|number: isize| -number);
    assert_eq!(star.winding_numbers(&about), numbers);
    assert_eq!(star.try_winding_numbers(&about), Ok(numbers.to_vec()));
    assert_eq!(backwards.winding_numbers(&about), opposite);
    for (point, number) in about.into_iter().zip(numbers) {
        assert_eq!(star.winding_number(point), number);
        assert_eq!(star.try_winding_number(point), Ok(number));
        assert_eq!(star.contains_point(point), number == 1);
        assert_eq!(star.try_contains_point(point), Ok(number == 1));
    }
    let filled = [
        (
            FillRule::EvenOdd,
            [false, true, false, false],
            [false, true, false, false],
        ),
        (
            FillRule::NonZero,
            [true, true, false, false],
            [true, true, false, false],
        ),
        (FillRule::Positive, [true, true, false, false], [false; 4]),
        (FillRule::Negative, [false; 4], [true, true, false, false]),
    ];
    for (rule, forwards, reversed) in filled {
        assert_eq!(star.contains_points(&about, rule), forwards);
        assert_eq!(
            star.try_contains_points(&about, rule),
            Ok(forwards.to_vec())
        );
        assert_eq!(backwards.contains_points(&about, rule), reversed);
        let located = forwards.map(|is_filled| match is_filled {
            true => Location::Inside,
            false => Location::Outside,
        });
        assert_eq!(star.locate(&about, rule), located);
        assert_eq!(star.try_locate(&about, rule), Ok(located.to_vec()));
        for (point, is_filled) in about.into_iter().zip(forwards) {
            assert_eq!(star.contains_by(point, rule), is_filled);
            assert_eq!(star.try_contains_by(point, rule), Ok(is_filled));
        }
    }
    assert_eq!(star.winding_numbers(&[]), []);
    assert_eq!(contour::<I>(&[]).winding_numbers(&about), [0; 4]);
}

fn on_the_boundary<I: Number>() {
    let spiked = contour::<I>(&SPIKED);
    // vertices, points within edges, of the spike and of the edge that closes, and points beside them
    let on = [[0, 0], [4, 4], [2, 0], [4, 1], [4, 6], [4, 8], [0, 2]].map(point::<I>);
    let beside = [[2, 2], [4, 9], [5, 0], [-1, 4], [0, 5]].map(point::<I>);
    for point in on {
        assert!(spiked.is_on_boundary(point), "{point:?}");
    }
    for point in beside {
        assert_eq!(spiked.try_is_on_boundary(point), Ok(false), "{point:?}");
    }
    assert_eq!(
        spiked.locate(&on, FillRule::NonZero),
        [Location::OnBoundary; 7]
    );
    assert!(!contour::<I>(&[]).is_on_boundary(on[0]));
}

/// Corners of a parabola, and the middle of one edge at each place in turn.
fn one_zero_turn<I: Number + TryFrom<i32>>() {
    let number = |whole: i32| I::try_from(whole).ok().expect("it fits");
    let corners: Vec<_> = (-20..20).map(|k| [2 * k, 2 * k * k]).collect();
    let wanted: Vec<_> = corners.iter().map(|at| at.map(number).into()).collect();
    assert!(wanted.is_simple());
    for place in 0..=40 {
        let [before, behind] = [corners[(place + 39) % 40], corners[place % 40]];
        let mut given: Vec<IntPoint<I>> = wanted.clone();
        let middle = [0, 1].map(|axis| number((before[axis] + behind[axis]) / 2));
        given.insert(place, middle.into());
        assert!(!given.is_simple(), "{place}");
        assert_eq!(given.simplified().as_ref(), Some(&wanted), "{place}");
    }
}

fn long_contour<I: Number + TryFrom<i32>>() {
    let side = 8_000;
    let walk = walk_round::<I>(side);
    let corners: Vec<_> = walk.iter().step_by(side as usize).copied().collect();
    assert_eq!(walk.simplified().as_ref(), Some(&corners));
    assert_eq!(walk.canonical().as_ref(), Some(&corners));
    let backwards = [0, 3, 2, 1].map(|place| corners[place]).to_vec();
    assert_eq!(walk.canonical_unoriented(), Some(backwards));
    assert_eq!(walk.despiked_contour().as_ref(), Some(&walk));
    assert!(walk.has_no_spikes() && walk.is_convex() && !walk.is_simple());
    assert_eq!(format!("{}", walk.area()), format!("{}", side * side));
    assert!(walk.contains_point(point([1, 1])) && !walk.contains_point(point([-1, 1])));
    assert_eq!(walk.winding_numbers(&[point([1, 1]); 100]), [1; 100]);
    let about = [[1, 1], [0, 1], [-1, 1], [0, 0], [2, -1]].map(point);
    let (inside, on, outside) = (Location::Inside, Location::OnBoundary, Location::Outside);
    assert_eq!(
        walk.contains_points(&about.repeat(20), FillRule::Positive),
        [true, true, false, true, false].repeat(20)
    );
    assert_eq!(
        walk.locate(&about.repeat(20), FillRule::Positive),
        [inside, on, outside, on, outside].repeat(20)
    );
}

#[test]
fn version_of_the_library_is_that_of_the_crate() {
    let (major, minor, patch) = i_shape::library_version();
    assert_eq!(
        format!("{major}.{minor}.{patch}"),
        env!("CARGO_PKG_VERSION")
    );
}
