//! What is wrong with a polygon whose contours may touch: by hand, and beside its definition on a small
//! grid.

use crate::all_contacts::{Kind, Shared, cross, is_on, kinds, shared, way};
use crate::shared::{
    FLAT, HOLE, Number, Numbers, Place, SQUARE, STRAIGHT, Written, at_each_width, shape, shapes,
};
use i_shape::flat::{OwnedShapes, Shapes};
use i_shape::int::IntPoint;
use i_shape::int::contacts::ContactKind::Touch;
use i_shape::int::contacts::TouchingValidity::{
    self, Disconnected, HoleOutside, HoleWithin, TooFewPoints, Valid,
};
use i_shape::int::contacts::{Contact, ShapeValidity};
use std::collections::HashSet;
use std::mem::discriminant;

at_each_width!(
    faults_by_hand,
    faults_behind_an_offset,
    at_the_ends_of_the_safe_range
);

/// A square that reaches around the others, and holes in it.
const WIDE: [[i8; 2]; 4] = [[-9, -9], [9, -9], [9, 9], [-9, 9]];
const LEFT: [[i8; 2]; 4] = [[-8, -8], [-8, 8], [-2, 8], [-2, -8]];
/// Within the one before, and within it from a point of its left edge on.
const INNER: [[i8; 2]; 3] = [[-7, 0], [-5, 2], [-4, -3]];
const INNER_AT_EDGE: [[i8; 2]; 3] = [[-8, 0], [-5, 2], [-4, -3]];
const BOW_TIE: [[i8; 2]; 4] = [[0, 0], [4, 4], [4, 0], [0, 4]];
/// A square with a notch from above to its middle.
const NOTCHED: [[i8; 2]; 5] = [[0, 0], [8, 0], [8, 8], [4, 4], [0, 8]];
/// Three that touch one another, each two at a point of their own.
const CIRCLE: [[[i8; 2]; 3]; 3] = [
    [[0, 0], [4, 0], [2, -2]],
    [[4, 0], [2, 4], [5, 3]],
    [[2, 4], [0, 0], [-1, 3]],
];

const fn contact(first: usize, second: usize) -> Contact {
    Contact { first, second }
}

const fn faulty(first: usize, second: usize) -> TouchingValidity {
    TouchingValidity::Contact(contact(first, second))
}

const fn parted(first: usize, second: usize) -> TouchingValidity {
    Disconnected(contact(first, second))
}

/// Polygons, and the first fault of each alone: contours by their place in it, edges by their place
/// among its points.
const FAULTS: [(&[&Written], TouchingValidity); 36] = [
    // no contours, a contour, and a hole that touches nothing
    (&[], Valid),
    (&[&SQUARE], Valid),
    (&[&STRAIGHT, &HOLE], Valid),
    // a hole that touches a vertex, an edge, and a vertex by an edge
    (&[&SQUARE, &[[0, 0], [1, 2], [2, 1]]], Valid),
    (&[&SQUARE, &[[0, 2], [3, 2], [2, 3]]], Valid),
    (&[&NOTCHED, &[[3, 4], [5, 4], [4, 2]]], Valid),
    // holes that touch: two, a chain from the outer contour on, three at one point
    (&[&WIDE, &HOLE, &[[1, 2], [2, 4], [2, 3]]], Valid),
    (&[&WIDE, &[[-9, 0], [0, 0], [0, 1]], &CIRCLE[0]], Valid),
    (
        &[
            &WIDE,
            &[[0, 0], [2, 1], [1, 2]],
            &[[-1, 2], [-2, 1], [0, 0]],
            &[[0, 0], [-1, -2], [1, -2]],
        ],
        Valid,
    ),
    (&[&WIDE, &CIRCLE[0], &CIRCLE[1]], Valid),
    // empty, short, all equal; also behind a contact
    (&[&[]], TooFewPoints { contour: 0 }),
    (&[&[[1, 2], [3, 4]]], TooFewPoints { contour: 0 }),
    (
        &[&SQUARE, &[[1, 2], [1, 2], [1, 2]], &[]],
        TooFewPoints { contour: 1 },
    ),
    (&[&BOW_TIE, &HOLE, &[[9, 9]]], TooFewPoints { contour: 2 }),
    // edges of one contour: that cross, overlap, touch, and by a point that repeats
    (&[&BOW_TIE], faulty(0, 2)),
    (&[&FLAT], faulty(0, 1)),
    (&[&[[0, 0], [4, 0], [4, 4], [2, 0], [0, 4]]], faulty(0, 2)),
    (&[&SQUARE, &[[1, 1], [1, 1], [2, 3], [1, 2]]], faulty(5, 7)),
    // edges of two that cross, or overlap, by a part of an edge or by all
    (&[&SQUARE, &[[1, 1], [1, 2], [5, 2]]], faulty(1, 5)),
    (&[&SQUARE, &[[0, 1], [0, 2], [2, 2]]], faulty(3, 4)),
    (&[&SQUARE, &SQUARE], faulty(0, 4)),
    // behind edges that only touch, and before a hole outside
    (
        &[
            &SQUARE,
            &[[1, 0], [2, 1], [1, 1]],
            &[[6, 1], [6, 2], [7, 1]],
            &[[2, 2], [3, 3], [2, 5]],
        ],
        faulty(2, 11),
    ),
    // a hole outside: beside the contour, with a vertex on it, with an edge on which its vertex lies
    (
        &[&SQUARE, &HOLE, &[[6, 1], [6, 2], [7, 1]]],
        HoleOutside { contour: 2 },
    ),
    (
        &[&SQUARE, &[[4, 1], [6, 2], [6, 1]]],
        HoleOutside { contour: 1 },
    ),
    (
        &[&SQUARE, &[[3, 5], [5, 3], [6, 6]]],
        HoleOutside { contour: 1 },
    ),
    // it leaves by a vertex, and between two vertices on the contour
    (
        &[&NOTCHED, &[[4, 4], [2, 7], [6, 7]]],
        HoleOutside { contour: 1 },
    ),
    (
        &[&NOTCHED, &[[0, 8], [8, 8], [4, 2]]],
        HoleOutside { contour: 1 },
    ),
    // before a hole within another, and that before touches that part the inside
    (
        &[&WIDE, &LEFT, &INNER_AT_EDGE, &[[20, 1], [20, 2], [21, 1]]],
        HoleOutside { contour: 3 },
    ),
    (
        &[
            &WIDE,
            &LEFT,
            &INNER_AT_EDGE,
            &[[9, 0], [5, 2], [9, 4], [3, 2]],
        ],
        HoleWithin {
            contour: 2,
            other: 1,
        },
    ),
    // a hole within another, which it touches or not, and which is behind it or before it
    (
        &[&WIDE, &LEFT, &INNER],
        HoleWithin {
            contour: 2,
            other: 1,
        },
    ),
    (
        &[&WIDE, &INNER_AT_EDGE, &LEFT],
        HoleWithin {
            contour: 1,
            other: 2,
        },
    ),
    // holes that cross at two vertices, where no two edges do
    (
        &[
            &WIDE,
            &[[0, 0], [4, 0], [4, 4], [2, 4], [0, 4]],
            &[[2, 4], [3, 6], [4, 4], [3, 2]],
        ],
        HoleWithin {
            contour: 1,
            other: 2,
        },
    ),
    // a hole from one side to the other, and two that touch twice
    (&[&SQUARE, &[[0, 2], [4, 2], [2, 3]]], parted(1, 4)),
    (
        &[
            &WIDE,
            &[[-4, 0], [0, 6], [4, 0], [0, 2]],
            &[[-4, 0], [0, -2], [4, 0], [0, -6]],
        ],
        parted(5, 9),
    ),
    // a circle of holes, and of these and the outer contour
    (&[&WIDE, &CIRCLE[0], &CIRCLE[1], &CIRCLE[2]], parted(4, 7)),
    (
        &[
            &WIDE,
            &[[-9, 0], [0, 0], [0, 1]],
            &[[0, 0], [9, 0], [4, -2]],
        ],
        parted(1, 7),
    ),
];

fn faults_by_hand<I: Number>() {
    for (written, wanted) in FAULTS {
        let given = shape::<I>(written);
        assert_eq!(given.touching_validity(), wanted, "{written:?}");
        assert_eq!(given.try_touching_validity(), Ok(wanted));
        assert_eq!(given.is_valid_with_touches(), wanted == Valid);
        assert_eq!(given.try_is_valid_with_touches(), Ok(wanted.is_valid()));
        assert!(wanted.is_valid() || !given.is_valid());
    }
}

/// The same fault behind so many contours and points.
fn behind(fault: TouchingValidity, contours: usize, points: usize) -> TouchingValidity {
    let moved = |it: Contact| contact(points + it.first, points + it.second);
    match fault {
        Valid => fault,
        TooFewPoints { contour } => TooFewPoints {
            contour: contours + contour,
        },
        TouchingValidity::Contact(it) => TouchingValidity::Contact(moved(it)),
        HoleOutside { contour } => HoleOutside {
            contour: contours + contour,
        },
        HoleWithin { contour, other } => HoleWithin {
            contour: contours + contour,
            other: contours + other,
        },
        Disconnected(it) => Disconnected(moved(it)),
    }
}

fn faults_behind_an_offset<I: Number>() {
    let given = OwnedShapes::from_shapes(&shapes::<I>(&FAULTS.map(|row| row.0)));
    let (contours, ends) = (given.contours(), given.shapes());
    let wanted: Vec<_> = (0..)
        .zip(FAULTS)
        .map(|(place, (_, fault))| behind(fault, ends[place], contours[ends[place]]))
        .collect();
    assert_eq!(given.as_shapes().touching_validity(), wanted);
    assert_eq!(
        given.as_shapes().try_touching_validity(),
        Ok(wanted.clone())
    );
    // what lies before the third polygon is not read
    let mut points = given.points().to_vec();
    points[0].x = I::ABOVE;
    let rest = Shapes::new(&points, contours, &ends[2..]);
    assert_eq!(rest.touching_validity(), wanted[2..]);
    assert_eq!(OwnedShapes::<I>::new().as_shapes().touching_validity(), []);
}

fn at_the_ends_of_the_safe_range<I: Number>() {
    let most = I::ABOVE - I::ONE;
    let least = I::ZERO - most;
    let at = |x, y| IntPoint::new(x, y);
    let outer = vec![
        at(least, least),
        at(most, least),
        at(most, most),
        at(least, most),
    ];
    let zero = I::ZERO;
    let hole = vec![at(least, zero), at(zero, I::ONE), at(zero, zero)];
    assert!([outer.clone(), hole].is_valid_with_touches());
    let across = vec![at(least, zero), at(zero, I::ONE), at(most, zero)];
    let fault = [outer, across].touching_validity();
    assert_eq!(fault, parted(1, 5));
}

/// Contours of a grid of 4 by 4 points, or an outer contour around it.
type Rings<'a> = [&'a Written];

type Point = [i64; 2];

/// Into so many parts a step of the grid is divided, so that all points below are whole.
const PARTS: i64 = 12;

fn divided(ring: &Written) -> Vec<Point> {
    let scaled = |at: &[i8; 2]| at.map(|number| PARTS * i64::from(number));
    ring.iter().map(scaled).collect()
}

fn edges(ring: &[Point]) -> impl Iterator<Item = [Point; 2]> {
    let next = ring.iter().cycle().skip(1);
    ring.iter().zip(next).map(|(&start, &end)| [start, end])
}

#[derive(PartialEq)]
enum Side {
    Inside,
    On,
    Outside,
}

/// Where a point lies to a contour that doesn't touch itself: inside if a ray to the right crosses an
/// odd number of edges.
fn side(ring: &[Point], at: Point) -> Side {
    let mut is_inside = false;
    for [a, b] in edges(ring) {
        if is_on(at, [a, b]) {
            return Side::On;
        }
        let is_upward = a[1] <= at[1] && at[1] < b[1];
        let is_downward = b[1] <= at[1] && at[1] < a[1];
        let is_left = cross(way(a, b), way(a, at)) > 0;
        is_inside ^= is_upward && is_left || is_downward && !is_left;
    }
    if is_inside {
        Side::Inside
    } else {
        Side::Outside
    }
}

/// The points at each twelfth of a contour's edges. Contours whose edges only touch do so at points of
/// the grid. These divide an edge into one, two or three parts: each lies on one side of another
/// contour, and its middle, a multiple of 1/2, 1/4 or 1/6 of the edge, is among the points.
fn sampled(ring: &[Point]) -> Vec<Point> {
    let on_edge = |[a, b]: [Point; 2]| {
        let [x, y] = way(a, b);
        (0..PARTS).map(move |k| [a[0] + k * x / PARTS, a[1] + k * y / PARTS])
    };
    edges(ring).flat_map(on_edge).collect()
}

/// Whether each two points inside the polygon, whose contours only touch, are joined by a path inside.
/// Cut along lines between points of the grid, the inside is triangles with corners there: their
/// middles are multiples of 1/3, and those of their sides of 1/2. So it is connected if and only if all
/// such points inside are, by lines that meet no edge.
fn is_connected(rings: &[Vec<Point>]) -> bool {
    let is_inside = |&at: &Point| {
        let mut sides = rings.iter().map(|ring| side(ring, at));
        sides.next() == Some(Side::Inside) && sides.all(|side| side == Side::Outside)
    };
    let is_free = |line: [Point; 2]| {
        let mut all = rings.iter().flat_map(|ring| edges(ring));
        all.all(|edge| shared(edge, line) == Shared::Nothing)
    };
    let is_middle = |at: &Point| {
        [2, 3]
            .iter()
            .any(|part| at.iter().all(|it| it % (PARTS / part) == 0))
    };
    let numbers = || -PARTS..=4 * PARTS;
    let mut left: Vec<_> = numbers()
        .flat_map(|x| numbers().map(move |y| [x, y]))
        .filter(is_middle)
        .filter(is_inside)
        .collect();
    let mut reached: Vec<_> = left.pop().into_iter().collect();
    while let Some(from) = reached.pop() {
        let (free, rest): (Vec<_>, _) = left.into_iter().partition(|&to| is_free([from, to]));
        reached.extend(free);
        left = rest;
    }
    left.is_empty()
}

/// Whether the polygon is valid if its contours may touch: by all pairs of edges, by points of each,
/// and by paths inside.
fn is_valid(rings: &Rings) -> bool {
    let is_degenerate = |ring: &&Written| ring.len() < 3 || ring.iter().all(|at| *at == ring[0]);
    let of_ring: Vec<_> = (0..)
        .zip(rings)
        .flat_map(|(number, ring)| vec![number; ring.len()])
        .collect();
    let is_faulty =
        |([first, second], kind): Kind| kind != Touch || of_ring[first] == of_ring[second];
    let contacts = kinds(&Place::of(rings));
    if rings.iter().any(is_degenerate) || contacts.into_iter().any(is_faulty) {
        return false;
    }
    let rings: Vec<_> = rings.iter().map(|ring| divided(ring)).collect();
    let has_none = |ring: &[Point], other: &[Point], no: Side| {
        sampled(ring).into_iter().all(|at| side(other, at) != no)
    };
    let holes = || rings.iter().enumerate().skip(1);
    holes().all(|(number, hole)| {
        has_none(hole, &rings[0], Side::Outside)
            && holes().all(|(other, ring)| number == other || has_none(hole, ring, Side::Inside))
    }) && is_connected(&rings)
}

/// The square around the grid, and one with a notch.
const OUTERS: [&Written; 2] = [
    &[[0, 0], [3, 0], [3, 3], [0, 3]],
    &[[0, 0], [3, 0], [3, 3], [1, 2], [0, 3]],
];

/// A square around the grid that no contour of it touches.
const AROUND: [[i8; 2]; 4] = [[-1, -1], [4, -1], [4, 4], [-1, 4]];

/// All sorted triples of points of the grid.
fn triples() -> Vec<[[i8; 2]; 3]> {
    let points: Vec<_> = (0..16).map(|k| [k / 4, k % 4]).collect();
    let triples = points.iter().flat_map(|&a| {
        let pairs = points
            .iter()
            .flat_map(|&b| points.iter().map(move |&c| [b, c]));
        pairs.map(move |[b, c]| [a, b, c]).collect::<Vec<_>>()
    });
    triples.filter(|triple| triple.is_sorted()).collect()
}

/// Tests at each width whether the call finds a fault; returns what it finds.
fn tested(rings: &Rings, wanted: bool) -> TouchingValidity {
    let fault = shape::<i32>(rings).touching_validity();
    assert_eq!(fault.is_valid(), wanted, "{rings:?} {fault:?}");
    assert_eq!(shape::<i16>(rings).touching_validity(), fault);
    assert_eq!(shape::<i64>(rings).touching_validity(), fault);
    fault
}

#[test]
fn holes_of_a_grid() {
    let mut found = HashSet::new();
    for outer in OUTERS {
        for [a, b, c] in triples() {
            let wanted = is_valid(&[outer, &[a, b, c]]);
            // from each point on, in both directions
            for hole in [
                [a, b, c],
                [b, c, a],
                [c, a, b],
                [c, b, a],
                [b, a, c],
                [a, c, b],
            ] {
                found.insert(discriminant(&tested(&[outer, &hole], wanted)));
            }
        }
    }
    // all but a hole within another
    assert_eq!(found.len(), 5);
}

#[test]
fn more_holes_of_a_grid() {
    let mut numbers = Numbers::new(4);
    let mut hole = || [(); 3].map(|()| [numbers.below(4), numbers.below(4)]);
    let are_touching = |a: &Written, b: &Written| {
        let polygon = shape::<i32>(&[&AROUND, a, b]);
        polygon.is_valid_with_touches() && !polygon.is_valid()
    };
    let mut found = HashSet::new();
    for _ in 0..300 {
        let rings: [&Written; 3] = [&AROUND, &hole(), &hole()];
        found.insert(discriminant(&tested(&rings, is_valid(&rings))));
    }
    // three of which each two touch: at one point, or at three, where they are a circle
    let mut chosen = 0;
    while chosen < 60 {
        let [a, b, c] = [hole(), hole(), hole()];
        if are_touching(&a, &b) && are_touching(&a, &c) && are_touching(&b, &c) {
            let rings: [&Written; 4] = [&AROUND, &a, &b, &c];
            found.insert(discriminant(&tested(&rings, is_valid(&rings))));
            chosen += 1;
        }
    }
    // all but a hole outside
    assert_eq!(found.len(), 5);
}
