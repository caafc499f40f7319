//! Calls on shapes and lists of shapes.

use crate::shared::{
    FLAT, HOLE, Number, SPIKED, SQUARE, STAR, STRAIGHT, TURNED, Written, at_each_width, point,
    shape, shapes,
};
use i_shape::int::area::Area;
use i_shape::int::canonical::{CanonicalShape, CanonicalShapes};
use i_shape::int::count::PointsCount;
use i_shape::int::despike::{DeSpike, DeSpikeShape, DeSpikeShapes};
use i_shape::int::safe_range::IntSafeRange;
use i_shape::int::shape::IntShapes;
use i_shape::int::simple::{SimpleShape, SimpleShapes, Simplify};
use i_shape::int::winding::ShapeExtension;
use i_shape::{FillRule, Location};

at_each_width!(
    cleaned,
    cleaned_one_by_one,
    cleaned_in_place,
    tested,
    canonical_forms,
    measured,
    wound_about
);

const GIVEN: [&[&Written]; 4] = [
    &[&STRAIGHT, &FLAT, &HOLE],
    &[&FLAT, &SQUARE],
    &[],
    &[&SPIKED],
];
const SIMPLIFIED: [&[&Written]; 3] = [&[&TURNED, &HOLE], &[], &[&SQUARE]];
const DESPIKED: [&[&Written]; 3] = [&[&STRAIGHT, &HOLE], &[], &[&SQUARE]];

fn cleaned<I: Number>() {
    let given = shapes::<I>(&GIVEN);
    assert_eq!(given.simplified(), shapes(&SIMPLIFIED));
    assert_eq!(given.try_simplified(), Ok(shapes(&SIMPLIFIED)));
    assert_eq!(given.despiked_shapes(), shapes(&DESPIKED));
    assert_eq!(given.try_despiked_shapes(), Ok(shapes(&DESPIKED)));
    assert_eq!(IntShapes::<I>::new().simplified(), IntShapes::new());
}

fn cleaned_one_by_one<I: Number>() {
    let given = shapes::<I>(&GIVEN);
    let left = |shapes: [&[&Written]; 3]| {
        let [first, second, third] = shapes.map(|contours| Some(shape::<I>(contours)));
        [first, None, second, third]
    };
    for (shape, wanted) in given.iter().zip(left(SIMPLIFIED)) {
        assert_eq!(shape.simplified(), wanted);
        assert_eq!(shape.try_simplified(), Ok(wanted));
    }
    for (shape, wanted) in given.iter().zip(left(DESPIKED)) {
        assert_eq!(shape.despiked_shape(), wanted);
        assert_eq!(shape.try_despiked_shape(), Ok(wanted));
    }
}

fn cleaned_in_place<I: Number>() {
    let mut left = shapes::<I>(&GIVEN);
    assert!(left.simplify_contour());
    assert_eq!(left, shapes(&SIMPLIFIED));
    assert_eq!(left.try_simplify_contour(), Ok(false));
    let mut left = shapes::<I>(&GIVEN);
    assert!(left.remove_spikes());
    assert_eq!(left, shapes(&DESPIKED));
    assert_eq!(left.try_remove_spikes(), Ok(false));

    let mut left = shape::<I>(GIVEN[0]);
    assert!(left.simplify_contour() && !left.simplify_contour());
    assert_eq!(left, shape(SIMPLIFIED[0]));
    let mut left = shape::<I>(GIVEN[1]);
    assert!(left.remove_spikes() && !left.remove_spikes());
    assert_eq!(left, shape(&[]));
}

fn tested<I: Number>() {
    let given = shapes::<I>(&GIVEN);
    let are_simple = given.iter().map(|shape| shape.is_simple());
    assert!(are_simple.eq([false, false, true, false]));
    let have_no_spikes = given.iter().map(|shape| shape.has_no_spikes());
    assert!(have_no_spikes.eq([false, false, true, false]));
    assert!(!given.is_simple() && !given.has_no_spikes());
    assert_eq!(given.try_is_simple(), Ok(false));
    assert_eq!(given.try_has_no_spikes(), Ok(false));
    let simplified = shapes::<I>(&SIMPLIFIED);
    assert_eq!(simplified.try_is_simple(), Ok(true));
    assert_eq!(simplified[0].try_is_simple(), Ok(true));
    let despiked = shapes::<I>(&DESPIKED);
    assert_eq!(despiked.try_has_no_spikes(), Ok(true));
    assert_eq!(despiked[0].try_has_no_spikes(), Ok(true));
    assert!(given.is_in_safe_range() && given[0].is_in_safe_range());
}

fn canonical_forms<I: Number>() {
    const TURNED_HOLE: [[i8; 2]; 3] = [[2, 1], [1, 1], [1, 2]];
    const BACKWARDS: [[i8; 2]; 3] = [[1, 1], [2, 1], [1, 2]];
    const SECOND_HOLE: [[i8; 2]; 3] = [[2, 2], [2, 3], [3, 2]];
    let polygon = shape::<I>(&[&STRAIGHT, &SECOND_HOLE, &FLAT, &TURNED_HOLE]);
    let form = shape::<I>(&[&SQUARE, &HOLE, &SECOND_HOLE]);
    assert_eq!(polygon.canonical(), Some(form.clone()));
    assert_eq!(polygon.try_canonical(), Ok(Some(form.clone())));
    assert_eq!(shape::<I>(&[&FLAT, &SQUARE]).canonical(), None);
    assert_eq!(shape::<I>(&[&FLAT]).canonical_unoriented(), None);

    let reversed = shape::<I>(&[&SQUARE, &BACKWARDS, &SECOND_HOLE]);
    assert_ne!(reversed.canonical(), polygon.canonical());
    assert_eq!(
        reversed.canonical_unoriented(),
        polygon.canonical_unoriented()
    );
    assert_eq!(
        reversed.try_canonical_unoriented(),
        Ok(polygon.canonical_unoriented())
    );

    let list = [form.clone(), shape(&[&FLAT]), shape(&[&HOLE])];
    let turned = [shape(&[&TURNED_HOLE]), polygon];
    assert_eq!(list.canonical(), [form, shape(&[&HOLE])]);
    assert_eq!(turned.try_canonical(), Ok(list.canonical()));
    let reversed = [reversed, shape(&[&BACKWARDS])];
    assert_eq!(reversed.canonical_unoriented(), list.canonical_unoriented());
    assert_eq!(
        reversed.try_canonical_unoriented(),
        Ok(list.canonical_unoriented())
    );
    assert_eq!(IntShapes::<I>::new().canonical(), IntShapes::new());
}

fn measured<I: Number>() {
    let given = shapes::<I>(&[&[&SQUARE, &HOLE], &[], &[&SPIKED]]);
    assert_eq!(format!("{}", given[0].area_two()), "31");
    assert_eq!(format!("{}", given[0].area()), "15");
    assert_eq!(format!("{}", given.area_two()), "63");
    assert_eq!(given.try_area_two(), Ok(given.area_two()));
    assert_eq!(given.try_area(), Ok(given.area()));
    assert_eq!(given[0].points_count(), 7);
    assert_eq!(given.points_count(), 13);
}

fn wound_about<I: Number>() {
    // a square and a star that winds twice about its middle
    let given = shape::<I>(&[&SQUARE, &STAR]);
    let about = [[2, 2], [-1, 0], [0, 8], [5, 9]].map(point::<I>);
    let numbers = [3, 2, 1, 0];
    let odd = [true, false, true, false];
    assert_eq!(given.winding_numbers(&about), numbers);
    assert_eq!(given.try_winding_numbers(&about), Ok(numbers.to_vec()));
    assert_eq!(given.contains_points(&about, FillRule::EvenOdd), odd);
    assert_eq!(
        given.try_contains_points(&about, FillRule::EvenOdd),
        Ok(odd.to_vec())
    );
    let (inside, on, outside) = (Location::Inside, Location::OnBoundary, Location::Outside);
    let located = [inside, outside, inside, outside];
    assert_eq!(given.locate(&about, FillRule::EvenOdd), located);
    assert_eq!(
        given.try_locate(&about, FillRule::EvenOdd),
        Ok(located.to_vec())
    );
    // of the square, and of the star
    for edge in [[4, 2], [-6, -8]].map(point::<I>) {
        assert!(given.is_on_boundary(edge));
        assert_eq!(given.locate(&[edge], FillRule::NonZero), [on]);
    }
    assert_eq!(given.try_is_on_boundary(about[0]), Ok(false));
    for ((point, number), is_odd) in about.into_iter().zip(numbers).zip(odd) {
        assert_eq!(given.winding_number(point), number);
        assert_eq!(given.try_winding_number(point), Ok(number));
        assert_eq!(given.contains_by(point, FillRule::EvenOdd), is_odd);
        assert_eq!(given.try_contains_by(point, FillRule::EvenOdd), Ok(is_odd));
    }
    assert_eq!(shape::<I>(&[]).winding_number(about[0]), 0);
}

#[test]
fn many_polygons() {
    let given: Vec<_> = shapes::<i32>(&GIVEN)
        .into_iter()
        .cycle()
        .take(40_000)
        .collect();
    let left: Vec<_> = shapes::<i32>(&SIMPLIFIED)
        .into_iter()
        .cycle()
        .take(30_000)
        .collect();
    assert_eq!(given.simplified(), left);
}
