//! Whether and where edges touch, cross or overlap, and what is wrong with a polygon.

use crate::shared::{
    FLAT, HOLE, Number, SPIKED, SQUARE, STAR, STRAIGHT, Written, at_each_width, contour, point,
    shape, shapes, walk_round,
};
use i_shape::flat::{Contours, OwnedContours, OwnedShapes, Shapes, offsets};
use i_shape::int::contacts::{Contact, ContourContacts, ShapeValidity, Validity};
use i_shape::int::path::ContourExtension;
use i_shape::int::simple::SimpleContour;
use i_shape::int::{AsIntPoints, IntPoint};

at_each_width!(
    contours_by_hand,
    contours_at_the_ends_of_the_safe_range,
    long_contours,
    rings_by_hand,
    rings_behind_an_offset,
    many_rings,
    polygons_by_hand,
    polygons_behind_an_offset,
    faults_by_hand,
    faults_behind_an_offset
);

fn contact([first, second]: [usize; 2]) -> Contact {
    Contact { first, second }
}

/// A contour, its first contact, and whether it is the boundary of a simple polygon.
const CONTOURS: [(&Written, Option<[usize; 2]>, bool); 20] = [
    // empty and tiny
    (&[], None, false),
    (&[[1, 2]], None, false),
    (&[[1, 2], [1, 2]], None, false),
    (&[[1, 2], [3, 4]], Some([0, 1]), false),
    (&[[1, 2], [1, 2], [1, 2]], None, false),
    (&HOLE, None, true),
    (&SQUARE, None, true),
    // a point at which it goes straight on
    (&STRAIGHT, None, true),
    // a crossing
    (&[[0, 0], [4, 4], [4, 0], [0, 4]], Some([0, 2]), false),
    (&STAR, Some([0, 2]), false),
    // the closing edge crosses one, and ends on one
    (&[[4, 4], [4, 0], [0, 4], [0, 0]], Some([1, 3]), false),
    (
        &[[0, 0], [4, 0], [4, 4], [0, 4], [0, -2]],
        Some([0, 3]),
        false,
    ),
    // a vertex on an edge, and one on a vertex
    (
        &[[0, 0], [4, 0], [4, 4], [2, 0], [0, 4]],
        Some([0, 2]),
        false,
    ),
    (
        &[
            [0, 0],
            [3, 0],
            [3, 3],
            [6, 3],
            [6, 6],
            [3, 6],
            [3, 3],
            [0, 3],
        ],
        Some([1, 5]),
        false,
    ),
    // a point that repeats, next to itself and as a closing point
    (
        &[[0, 0], [4, 0], [4, 0], [4, 4], [0, 4]],
        Some([0, 2]),
        false,
    ),
    (
        &[[0, 0], [4, 0], [4, 4], [0, 4], [0, 0]],
        Some([0, 3]),
        false,
    ),
    // overlaps: of neighbours, of a spike, with the closing edge, and of two that lie apart
    (&FLAT, Some([0, 1]), false),
    (&SPIKED, Some([1, 3]), false),
    (&[[0, 0], [2, 0], [4, 0]], Some([0, 2]), false),
    (
        &[
            [4, 0],
            [2, 0],
            [2, 3],
            [0, 3],
            [0, 0],
            [6, 0],
            [6, 3],
            [4, 3],
        ],
        Some([0, 4]),
        false,
    ),
];

fn contours_by_hand<I: Number>() {
    for (written, wanted, is_simple) in CONTOURS {
        let (given, wanted) = (contour::<I>(written), wanted.map(contact));
        assert_eq!(given.first_contact(), wanted, "{written:?}");
        assert_eq!(given.try_first_contact(), Ok(wanted));
        assert_eq!(given.is_simple_polygon(), is_simple, "{written:?}");
        assert_eq!(given.try_is_simple_polygon(), Ok(is_simple));
        // one contour as a batch
        let alone = Contours::new(&given, &[0, given.len()]).first_contact();
        assert_eq!(alone, wanted, "{written:?}");
    }
    // it bends to one side only, and each three points turn
    let star = contour::<I>(&STAR);
    assert!(star.is_convex() && star.is_simple());
}

#[test]
fn points_of_other_types() {
    let bow_tie = [[0_i64, 0], [4, 4], [4, 0], [0, 4]];
    assert_eq!(
        bow_tie.as_int_points().first_contact(),
        Some(contact([0, 2]))
    );
    assert!(bow_tie[..3].as_int_points().is_simple_polygon());
}

fn contours_at_the_ends_of_the_safe_range<I: Number>() {
    let most = I::ABOVE - I::ONE;
    let least = I::ZERO - most;
    let [a, b, c, d] = [(least, least), (most, least), (most, most), (least, most)]
        .map(|(x, y)| IntPoint::new(x, y));
    assert!([a, b, c, d].is_simple_polygon());
    assert_eq!([a, c, b, d].first_contact(), Some(contact([0, 2])));
}

fn long_contours<I: Number + TryFrom<i32>>() {
    let mut walk = walk_round::<I>(2000);
    assert_eq!(walk.first_contact(), None);
    assert!(walk.is_simple_polygon());
    // the last point but one is (0, 2): from there to the end of the first edge
    let last = walk.len() - 1;
    walk[last] = point([1, 0]);
    assert_eq!(walk.first_contact(), Some(contact([0, last - 1])));
    assert!(!walk.is_simple_polygon());
}

/// Contours, and the first contact of their edges together.
const RINGS: [(&[&Written], Option<[usize; 2]>); 12] = [
    (&[], None),
    (&[&[]], None),
    (&[&[], &[[1, 1]], &[], &[[1, 2]]], None),
    // two points in one place
    (&[&[[1, 1]], &[], &[[1, 1]]], Some([0, 1])),
    (&[&SQUARE, &HOLE], None),
    // a point on an edge
    (&[&SQUARE, &[[2, 0]]], Some([0, 4])),
    // a hole that touches at a vertex, and one that touches an edge
    (&[&SQUARE, &[[0, 0], [1, 2], [2, 1]]], Some([0, 4])),
    (&[&SQUARE, &[[1, 1], [2, 1], [2, 4]]], Some([2, 5])),
    // squares that cross
    (&[&SQUARE, &[[2, 2], [6, 2], [6, 6], [2, 6]]], Some([1, 4])),
    // squares that share their closing edges: the first edge touches the last but one
    (
        &[&SQUARE, &[[0, 4], [-4, 4], [-4, 0], [0, 0]]],
        Some([0, 6]),
    ),
    // edges that overlap, and touch no other before
    (&[&SQUARE, &[[1, 0], [3, 0], [2, -4]]], Some([0, 4])),
    // a contact within the second
    (
        &[&HOLE, &[[10, 0], [14, 4], [14, 0], [10, 4]]],
        Some([3, 5]),
    ),
];

fn rings_by_hand<I: Number>() {
    for (written, wanted) in RINGS {
        let rings = OwnedContours::from_contours(&shape::<I>(written));
        let (rings, wanted) = (rings.as_contours(), wanted.map(contact));
        assert_eq!(rings.first_contact(), wanted, "{written:?}");
        assert_eq!(rings.try_first_contact(), Ok(wanted));
    }
}

fn rings_behind_an_offset<I: Number>() {
    let outside = [IntPoint::new(I::ABOVE, I::ABOVE); 2];
    for (written, wanted) in RINGS {
        let rings = OwnedContours::from_contours(&shape::<I>(written));
        let points = [&outside, rings.points(), &outside].concat();
        let ends: Vec<_> = rings.offsets().iter().map(|offset| offset + 2).collect();
        let wanted = wanted.map(|edges| contact(edges.map(|edge| edge + 2)));
        assert_eq!(Contours::new(&points, &ends).first_contact(), wanted);
    }
}

fn many_rings<I: Number + TryFrom<i32>>() {
    let number = |whole: i32| I::try_from(whole).ok().expect("it fits");
    let at = |x, y| IntPoint::new(number(x), number(y));
    let square = |x| [at(x, 0), at(x + 2, 0), at(x + 2, 2), at(x, 2)];
    let mut points: Vec<_> = (0..1000).flat_map(|k| square(3 * k)).collect();
    let ends = offsets::from_lengths([4; 1001]);
    assert_eq!(Contours::new(&points, &ends[..1001]).first_contact(), None);
    // the right edge of the square before the last touches the first edge of one more
    points.extend(square(3 * 998 + 2));
    let found = Contours::new(&points, &ends).first_contact();
    assert_eq!(found, Some(contact([4 * 998, 4 * 1000])));
}

/// Polygons, and the first contact of each by the points of all.
const POLYGONS: [(&[&Written], Option<[usize; 2]>); 6] = [
    (&[&SQUARE, &HOLE], None),
    (&[&[[0, 0], [4, 4], [4, 0], [0, 4]]], Some([7, 9])),
    (&[], None),
    (&[&SQUARE, &[[0, 0], [1, 2], [2, 1]]], Some([11, 15])),
    (&[&[]], None),
    (&[&[[9, 9]], &SQUARE], None),
];

fn polygons_by_hand<I: Number>() {
    let given = OwnedShapes::from_shapes(&shapes::<I>(&POLYGONS.map(|row| row.0)));
    let wanted = POLYGONS.map(|row| row.1.map(contact));
    assert_eq!(given.as_shapes().first_contacts(), wanted);
    assert_eq!(given.as_shapes().try_first_contacts(), Ok(wanted.to_vec()));
    assert_eq!(OwnedShapes::<I>::new().as_shapes().first_contacts(), []);
}

fn polygons_behind_an_offset<I: Number>() {
    let given = OwnedShapes::from_shapes(&shapes::<I>(&POLYGONS.map(|row| row.0)));
    // what lies before the second polygon is not read
    let mut points = given.points().to_vec();
    points[0].x = I::ABOVE;
    let behind = Shapes::new(&points, given.contours(), &given.shapes()[1..]);
    let wanted = POLYGONS.map(|row| row.1.map(contact));
    assert_eq!(behind.first_contacts(), wanted[1..]);
    for part in behind.chunks(2) {
        assert_eq!(part.first_contacts().len(), part.len());
    }
}

/// A square that reaches around the others, and holes in it.
const WIDE: [[i8; 2]; 4] = [[-9, -9], [9, -9], [9, 9], [-9, 9]];
const LEFT: [[i8; 2]; 4] = [[-8, -8], [-8, 8], [-2, 8], [-2, -8]];
/// Within the one before.
const INNER: [[i8; 2]; 3] = [[-7, 0], [-5, 2], [-4, -3]];
const ASIDE: [[i8; 2]; 3] = [[6, 1], [6, 2], [7, 1]];
const BOW_TIE: [[i8; 2]; 4] = [[0, 0], [4, 4], [4, 0], [0, 4]];

/// Polygons, and the first fault of each alone: contours by their place in it, edges by their place
/// among its points.
const FAULTS: [(&[&Written], Validity); 21] = [
    // no contours, a contour, and holes of both directions
    (&[], Validity::Valid),
    (&[&SQUARE], Validity::Valid),
    (&[&STRAIGHT], Validity::Valid),
    (
        &[&WIDE, &ASIDE, &LEFT, &[[0, 0], [1, 0], [0, 1]]],
        Validity::Valid,
    ),
    // the outer contour may be clockwise
    (&[&[[0, 4], [4, 4], [4, 0], [0, 0]], &HOLE], Validity::Valid),
    // empty, short, all equal; the first such contour, also behind a contact or a hole outside
    (&[&[]], Validity::TooFewPoints { contour: 0 }),
    (&[&[[1, 2], [3, 4]]], Validity::TooFewPoints { contour: 0 }),
    (
        &[&SQUARE, &[[1, 2], [1, 2], [1, 2]], &[]],
        Validity::TooFewPoints { contour: 1 },
    ),
    (
        &[&BOW_TIE, &ASIDE, &[[9, 9]]],
        Validity::TooFewPoints { contour: 2 },
    ),
    // no area, but a contour that turns back is in contact with itself
    (
        &[&FLAT],
        Validity::Contact(Contact {
            first: 0,
            second: 1,
        }),
    ),
    // crossings and touches: of a contour, of a hole at a vertex and at an edge; also behind a hole
    // outside
    (
        &[&BOW_TIE],
        Validity::Contact(Contact {
            first: 0,
            second: 2,
        }),
    ),
    (
        &[&SQUARE, &[[0, 0], [1, 2], [2, 1]]],
        Validity::Contact(Contact {
            first: 0,
            second: 4,
        }),
    ),
    (
        &[&SQUARE, &ASIDE, &[[1, 1], [2, 1], [2, 4]]],
        Validity::Contact(Contact {
            first: 2,
            second: 8,
        }),
    ),
    // holes that touch
    (
        &[&WIDE, &HOLE, &[[1, 2], [2, 4], [2, 3]]],
        Validity::Contact(Contact {
            first: 4,
            second: 7,
        }),
    ),
    // a hole outside: beside the contour, around it, in a bay of it; the first of two, also behind
    // holes within others
    (
        &[&SQUARE, &HOLE, &ASIDE],
        Validity::HoleOutside { contour: 2 },
    ),
    (&[&SQUARE, &WIDE], Validity::HoleOutside { contour: 1 }),
    (
        &[
            &[
                [0, 0],
                [8, 0],
                [8, 8],
                [6, 8],
                [6, 2],
                [2, 2],
                [2, 8],
                [0, 8],
            ],
            &[[3, 4], [5, 4], [4, 6]],
            &WIDE,
        ],
        Validity::HoleOutside { contour: 1 },
    ),
    (
        &[&WIDE, &LEFT, &INNER, &[[20, 1], [20, 2], [21, 1]]],
        Validity::HoleOutside { contour: 3 },
    ),
    // a hole within another, which is behind it or before it
    (
        &[&WIDE, &ASIDE, &INNER, &LEFT],
        Validity::HoleWithin {
            contour: 2,
            other: 3,
        },
    ),
    (
        &[&WIDE, &LEFT, &ASIDE, &INNER],
        Validity::HoleWithin {
            contour: 3,
            other: 1,
        },
    ),
    // within two others: the first of them
    (
        &[&WIDE, &[[-6, 0], [-5, 1], [-5, -1]], &INNER, &LEFT],
        Validity::HoleWithin {
            contour: 1,
            other: 2,
        },
    ),
];

fn faults_by_hand<I: Number>() {
    for (written, wanted) in FAULTS {
        let given = shape::<I>(written);
        assert_eq!(given.validity(), wanted, "{written:?}");
        assert_eq!(given.try_validity(), Ok(wanted));
        assert_eq!(given.is_valid(), wanted == Validity::Valid);
        assert_eq!(given.try_is_valid(), Ok(wanted.is_valid()));
    }
}

/// The same fault behind so many contours and points.
fn behind(fault: Validity, contours: usize, points: usize) -> Validity {
    match fault {
        Validity::Valid => fault,
        Validity::TooFewPoints { contour } => Validity::TooFewPoints {
            contour: contours + contour,
        },
        Validity::Contact(Contact { first, second }) => {
            Validity::Contact(contact([first, second].map(|edge| points + edge)))
        }
        Validity::HoleOutside { contour } => Validity::HoleOutside {
            contour: contours + contour,
        },
        Validity::HoleWithin { contour, other } => Validity::HoleWithin {
            contour: contours + contour,
            other: contours + other,
        },
    }
}

fn faults_behind_an_offset<I: Number>() {
    let given = OwnedShapes::from_shapes(&shapes::<I>(&FAULTS.map(|row| row.0)));
    let (contours, ends) = (given.contours(), given.shapes());
    let wanted: Vec<_> = (0..)
        .zip(FAULTS)
        .map(|(place, (_, fault))| behind(fault, ends[place], contours[ends[place]]))
        .collect();
    assert_eq!(given.as_shapes().validity(), wanted);
    assert_eq!(given.as_shapes().try_validity(), Ok(wanted.clone()));
    // what lies before the third polygon is not read
    let mut points = given.points().to_vec();
    points[0].x = I::ABOVE;
    let rest = Shapes::new(&points, contours, &ends[2..]);
    assert_eq!(rest.validity(), wanted[2..]);
    assert_eq!(OwnedShapes::<I>::new().as_shapes().validity(), []);
}
