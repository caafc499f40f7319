//! The first polygon that holds a point, beside loops over polygons, contours and edges.

use crate::shared::{Number, Numbers, SQUARE, Written, at_each_width, point, shapes};
use i_shape::flat::{OwnedShapes, Shapes};
use i_shape::int::{AsIntPoints, IntPoint};
use i_shape::{Error, FillRule};

at_each_width!(
    polygons_of_a_grid,
    polygons_behind_an_offset,
    squares_that_tile,
    points_at_the_ends_of_the_safe_range,
    nothing_to_hold_or_to_ask
);

const RULES: [FillRule; 4] = [
    FillRule::EvenOdd,
    FillRule::NonZero,
    FillRule::Positive,
    FillRule::Negative,
];

fn is_filled(rule: FillRule, turns: i64) -> bool {
    match rule {
        FillRule::EvenOdd => turns % 2 != 0,
        FillRule::NonZero => turns != 0,
        FillRule::Positive => turns > 0,
        FillRule::Negative => turns < 0,
    }
}

/// The edges that cross the height of the point upwards, to the right of it, less those downwards.
fn winding(contour: &Written, [x, y]: [i64; 2]) -> i64 {
    let next = contour.iter().cycle().skip(1);
    let turns = contour.iter().zip(next).map(|(a, b)| {
        let [[ax, ay], [bx, by]] = [a, b].map(|end| end.map(i64::from));
        let side = (bx - ax) * (y - ay) - (by - ay) * (x - ax);
        i64::from(ay <= y && y < by && side > 0) - i64::from(by <= y && y < ay && side < 0)
    });
    turns.sum()
}

fn holder(polygons: &[&[&Written]], about: [i8; 2], rule: FillRule) -> Option<usize> {
    let about = about.map(i64::from);
    polygons.iter().position(|polygon| {
        is_filled(
            rule,
            polygon.iter().map(|contour| winding(contour, about)).sum(),
        )
    })
}

/// The points of a grid that reaches beyond the polygons.
fn grid() -> Vec<[i8; 2]> {
    (-2..10)
        .flat_map(|x| (-2..10).map(move |y| [x, y]))
        .collect()
}

fn polygons_of_a_grid<I: Number>() {
    let mut numbers = Numbers::new(4);
    let about: Vec<_> = grid().into_iter().map(point::<I>).collect();
    for _ in 0..30 {
        let written = numbers.moved_polygons(6, 8);
        let written: Vec<Vec<_>> = written
            .iter()
            .map(|polygon| polygon.iter().map(Vec::as_slice).collect())
            .collect();
        let written: Vec<_> = written.iter().map(Vec::as_slice).collect();
        let flat = OwnedShapes::from_shapes(&shapes::<I>(&written));
        for rule in RULES {
            let wanted: Vec<_> = grid()
                .into_iter()
                .map(|at| holder(&written, at, rule))
                .collect();
            let found = flat.as_shapes().first_containing(&about, rule);
            assert_eq!(found, wanted, "{written:?} {rule:?}");
            let found = flat.as_shapes().try_first_containing(&about, rule);
            assert_eq!(found, Ok(wanted));
        }
    }
}

fn polygons_behind_an_offset<I: Number>() {
    let unsafe_point = IntPoint::new(I::ABOVE, I::ABOVE);
    let mut points = vec![unsafe_point; 3];
    points.extend([[0, 0], [9, 0], [9, 9], [0, 9]].map(point::<I>));
    points.extend([[3, 3], [6, 3], [6, 6], [3, 6]].map(point::<I>));
    points.extend([[2, 2], [7, 2], [7, 7], [2, 7]].map(point::<I>));
    points.extend([unsafe_point; 2]);
    // what lies before the second polygon and behind the third is not read
    let polygons = Shapes::new(&points, &[0, 3, 7, 11, 15, 17], &[1, 3, 4]);
    let about = [[1, 1], [4, 4], [9, 9]].map(point);
    let found = polygons.first_containing(&about, FillRule::EvenOdd);
    assert_eq!(found, [Some(0), Some(1), None]);
    // a fault of a polygon is named by its place in all points
    points[12] = unsafe_point;
    let polygons = Shapes::new(&points, &[0, 3, 7, 11, 15, 17], &[1, 3, 4]);
    let found = polygons.try_first_containing(&about, FillRule::EvenOdd);
    assert_eq!(found, Err(Error::UnsafePoint(12)));
}

fn squares_that_tile<I: Number>() {
    let squares: Vec<_> = (0..9)
        .map(|k| [k % 3, k / 3])
        .map(|[x, y]| SQUARE.map(|[dx, dy]| [4 * x + dx, 4 * y + dy]))
        .collect();
    let rings: Vec<[&Written; 1]> = squares.iter().map(|square| [&square[..]]).collect();
    let polygons: Vec<_> = rings.iter().map(|ring| &ring[..]).collect();
    let flat = OwnedShapes::from_shapes(&shapes::<I>(&polygons));
    // of points on edges and vertices too, each within the whole is held by one square
    for (x, y) in (0..12).flat_map(|x| (0..12).map(move |y| (x, y))) {
        let about = [point::<I>([x, y])];
        let holders = (0..9).filter(|&k| {
            let only = [k, k + 1];
            let alone = Shapes::new(flat.points(), flat.contours(), &only);
            alone.first_containing(&about, FillRule::NonZero) == [Some(0)]
        });
        let holders: Vec<_> = holders.map(Some).collect();
        assert_eq!(holders.len(), 1, "({x}, {y})");
        let found = flat.as_shapes().first_containing(&about, FillRule::NonZero);
        assert_eq!(found, holders);
    }
}

fn points_at_the_ends_of_the_safe_range<I: Number>() {
    let most = I::ABOVE - I::ONE;
    let least = I::ZERO - most;
    let corners = [[least, least], [most, least], [most, most], [least, most]]
        .map(|[x, y]| IntPoint::new(x, y));
    let points = [&SQUARE.map(point::<I>)[..], &corners].concat();
    let polygons = Shapes::new(&points, &[0, 4, 8], &[0, 1, 2]);
    let about = [corners[0], corners[2], point([1, 1]), point([-1, -1])];
    let found = polygons.first_containing(&about, FillRule::Positive);
    assert_eq!(found, [Some(1), None, Some(0), Some(1)]);
}

fn nothing_to_hold_or_to_ask<I: Number>() {
    let about = [[1, 1], [9, 9]].map(point::<I>);
    let none = OwnedShapes::<I>::new();
    let found = none.as_shapes().first_containing(&about, FillRule::NonZero);
    assert_eq!(found, [None, None]);
    let empty = OwnedShapes::from_shapes(&shapes::<I>(&[&[], &[&[]], &[&SQUARE]]));
    let found = empty
        .as_shapes()
        .first_containing(&about, FillRule::NonZero);
    assert_eq!(found, [Some(2), None]);
    let found = empty.as_shapes().first_containing(&[], FillRule::NonZero);
    assert_eq!(found, []);
}

#[test]
fn points_of_other_types() {
    let square = [[0_i32, 0], [4, 0], [4, 4], [0, 4]];
    let polygons = Shapes::new(square.as_int_points(), &[0, 4], &[0, 1]);
    let found = polygons.first_containing([[2, 2]].as_int_points(), FillRule::EvenOdd);
    assert_eq!(found, [Some(0)]);
}
