//! All contacts and their kinds, beside a loop over pairs of edges, in fractions.

use crate::shared::{
    Number, Numbers, Place, SQUARE, Written, at_each_width, contour, point, shape, shapes,
};
use i_shape::Error;
use i_shape::flat::{Contours, OwnedContours, OwnedShapes, Shapes};
use i_shape::int::IntPoint;
use i_shape::int::contacts::ContactKind::{Crossing, Overlap, Touch};
use i_shape::int::contacts::{
    Contact, ContactKind, ContourContacts, kind_of_edges, try_kind_of_edges,
};

at_each_width!(
    contours_by_hand,
    contours_of_a_grid,
    rings_of_a_grid,
    polygons_of_a_grid,
    more_contacts_than_points,
    no_contacts,
    edges_of_a_grid,
    unsafe_ends
);

/// What two segments share: a point is its numerators and their denominator.
#[derive(PartialEq)]
pub enum Shared {
    Nothing,
    One([i64; 3]),
    Many,
}

pub type Segment = [[i64; 2]; 2];

pub fn cross([ax, ay]: [i64; 2], [bx, by]: [i64; 2]) -> i64 {
    ax * by - ay * bx
}

pub fn way([ax, ay]: [i64; 2], [bx, by]: [i64; 2]) -> [i64; 2] {
    [bx - ax, by - ay]
}

pub fn is_on([px, py]: [i64; 2], [a, b]: Segment) -> bool {
    let is_between = |p: i64, a: i64, b: i64| a.min(b) <= p && p <= a.max(b);
    cross(way(a, b), way(a, [px, py])) == 0
        && is_between(px, a[0], b[0])
        && is_between(py, a[1], b[1])
}

pub fn shared([a, b]: Segment, [c, e]: Segment) -> Shared {
    let (one, other) = (way(a, b), way(c, e));
    let divisor = cross(one, other);
    if divisor == 0 {
        let mut ends: Vec<_> = [a, b, c, e]
            .into_iter()
            .filter(|&end| is_on(end, [a, b]) && is_on(end, [c, e]))
            .collect();
        ends.sort();
        ends.dedup();
        return match ends[..] {
            [] => Shared::Nothing,
            [[x, y]] => Shared::One([x, y, 1]),
            _ => Shared::Many,
        };
    }
    let sign = divisor.signum();
    let [along_one, along_other] = [other, one].map(|it| sign * cross(way(a, c), it));
    let divisor = sign * divisor;
    if along_one.min(along_other) < 0 || along_one.max(along_other) > divisor {
        return Shared::Nothing;
    }
    let [x, y] = [0, 1].map(|axis| a[axis] * divisor + one[axis] * along_one);
    Shared::One([x, y, divisor])
}

fn are_equal([x, y, divisor]: [i64; 3], [px, py]: [i64; 2]) -> bool {
    (x, y) == (px * divisor, py * divisor)
}

/// Two edges in contact, and the kind of the contact.
pub type Kind = ([usize; 2], ContactKind);

/// The kind of the contact of two edges, by the place of the point from which each leads.
fn kind(places: &[Place], first: usize, second: usize) -> Option<ContactKind> {
    let edge = |k: usize| [places[k].at, places[places[k].next].at];
    let ends = [edge(first), edge(second)];
    let found = match shared(ends[0], ends[1]) {
        Shared::Nothing => return None,
        Shared::Many => return Some(Overlap),
        Shared::One(found) => found,
    };
    let follows =
        |k: usize, other: usize| places[k].next == other && are_equal(found, places[other].at);
    if follows(first, second) || follows(second, first) {
        return None;
    }
    Some(kind_at(found, ends))
}

/// The kind of two edges that share one point alone.
fn kind_at(shared: [i64; 3], ends: [Segment; 2]) -> ContactKind {
    let is_end = ends.concat().into_iter().any(|end| are_equal(shared, end));
    if is_end { Touch } else { Crossing }
}

/// All contacts and their kinds.
pub fn kinds(places: &[Place]) -> Vec<Kind> {
    (0..places.len())
        .flat_map(|first| (first + 1..places.len()).map(move |second| [first, second]))
        .filter_map(|[first, second]| Some(([first, second], kind(places, first, second)?)))
        .collect()
}

fn contact([first, second]: [usize; 2]) -> Contact {
    Contact { first, second }
}

/// The same with so many points before these.
fn behind(count: usize, kinds: &[Kind]) -> Vec<(Contact, ContactKind)> {
    kinds
        .iter()
        .map(|&(pair, kind)| (contact(pair.map(|place| count + place)), kind))
        .collect()
}

/// All pairs of edges of so many points, also of one point more, and the kind of each.
fn all_pairs(
    count: usize,
    contacts: &[(Contact, ContactKind)],
) -> (Vec<Contact>, Vec<Option<ContactKind>>) {
    let kind_of = |pair| contacts.iter().find(|row| row.0 == pair).map(|row| row.1);
    (0..=count)
        .flat_map(|first| (0..=count).map(move |second| contact([first, second])))
        .map(|pair| (pair, kind_of(pair)))
        .unzip()
}

fn contours_by_hand<I: Number>() {
    let rows: [(&Written, &[Kind]); 5] = [
        (&SQUARE, &[]),
        (&[[0, 0], [4, 4], [4, 0], [0, 4]], &[([0, 2], Crossing)]),
        // a vertex on an edge, which the edges to it and from it touch
        (
            &[[0, 0], [4, 0], [4, 4], [2, 0], [0, 4]],
            &[([0, 2], Touch), ([0, 3], Touch)],
        ),
        // a spike, and a repeated point: the edge before it and that after it touch
        (
            &[[0, 0], [4, 0], [4, 8], [4, 4], [0, 4]],
            &[([1, 2], Overlap), ([1, 3], Touch)],
        ),
        (
            &[[0, 0], [4, 0], [4, 0], [4, 4], [0, 4]],
            &[([0, 2], Touch)],
        ),
    ];
    for (written, wanted) in rows {
        let given = contour::<I>(written);
        let wanted = behind(0, wanted);
        let contacts: Vec<_> = wanted.iter().map(|row| row.0).collect();
        assert_eq!(given.contacts(), contacts, "{written:?}");
        let kinds: Vec<_> = wanted.iter().map(|row| Some(row.1)).collect();
        assert_eq!(given.kinds_of_contacts(&contacts), kinds, "{written:?}");
    }
}

fn contours_of_a_grid<I: Number>() {
    let mut numbers = Numbers::new(1);
    let mut seen = Vec::new();
    for _ in 0..200 {
        let written = numbers.contour(8, 4);
        let given = contour::<I>(&written);
        let wanted = behind(0, &kinds(&Place::of(&[&written])));
        let contacts: Vec<_> = wanted.iter().map(|row| row.0).collect();
        assert_eq!(given.contacts(), contacts, "{written:?}");
        assert_eq!(given.first_contact(), contacts.first().copied());
        let (pairs, kinds) = all_pairs(given.len(), &wanted);
        assert_eq!(given.kinds_of_contacts(&pairs), kinds, "{written:?}");
        assert_eq!(given.try_kinds_of_contacts(&pairs), Ok(kinds.clone()));
        for (pair, kind) in pairs.into_iter().zip(kinds) {
            assert_eq!(given.kind_of_contact(pair), kind, "{written:?} {pair:?}");
            assert_eq!(given.try_kind_of_contact(pair), Ok(kind));
        }
        seen.extend(wanted.into_iter().map(|row| row.1));
    }
    for kind in [Crossing, Touch, Overlap] {
        assert!(seen.contains(&kind), "{kind:?}");
    }
}

fn rings_of_a_grid<I: Number>() {
    let mut numbers = Numbers::new(2);
    let outside = [IntPoint::new(I::ABOVE, I::ABOVE); 2];
    for _ in 0..100 {
        let written = numbers.contours(4, 5, 4);
        let written: Vec<_> = written.iter().map(Vec::as_slice).collect();
        let rings = OwnedContours::from_contours(&shape::<I>(&written));
        let kinds = kinds(&Place::of(&written));
        // at the front, and behind points that aren't read
        let points = [&outside, rings.points(), &outside].concat();
        let ends: Vec<_> = rings.offsets().iter().map(|offset| offset + 2).collect();
        for (given, wanted) in [
            (rings.as_contours(), behind(0, &kinds)),
            (Contours::new(&points, &ends), behind(2, &kinds)),
        ] {
            let contacts: Vec<_> = wanted.iter().map(|row| row.0).collect();
            assert_eq!(given.try_contacts(), Ok(contacts), "{written:?}");
            let (pairs, kinds) = all_pairs(given.points().len(), &wanted);
            assert_eq!(given.kinds_of_contacts(&pairs), kinds, "{written:?}");
            for (pair, kind) in pairs.into_iter().zip(kinds) {
                assert_eq!(given.kind_of_contact(pair), kind, "{written:?} {pair:?}");
            }
        }
    }
}

fn polygons_of_a_grid<I: Number>() {
    let mut numbers = Numbers::new(3);
    for _ in 0..40 {
        let written: Vec<_> = (0..4).map(|_| numbers.contours(3, 5, 4)).collect();
        let written: Vec<Vec<_>> = written
            .iter()
            .map(|shape| shape.iter().map(Vec::as_slice).collect())
            .collect();
        let written: Vec<_> = written.iter().map(Vec::as_slice).collect();
        let flat = OwnedShapes::from_shapes(&shapes::<I>(&written));
        let all = flat.as_shapes();
        let wanted: Vec<Vec<_>> = written
            .iter()
            .zip(flat.shapes())
            .map(|(rings, &ring)| behind(flat.contours()[ring], &kinds(&Place::of(rings))))
            .collect();
        let found = all.contacts();
        assert_eq!(all.try_contacts(), Ok(found.clone()));
        let rest = Shapes::new(flat.points(), flat.contours(), &flat.shapes()[1..]);
        assert_eq!(rest.contacts(), found[1..]);
        for (polygon, (found, wanted)) in all.iter().zip(found.into_iter().zip(wanted)) {
            let kinds: Vec<_> = wanted.iter().map(|row| Some(row.1)).collect();
            assert_eq!(polygon.kinds_of_contacts(&found), kinds);
            let contacts: Vec<_> = wanted.iter().map(|row| row.0).collect();
            assert_eq!(found, contacts);
        }
    }
}

fn more_contacts_than_points<I: Number>() {
    // each edge overlaps each other
    let zigzag = [[0, 0], [4, 0]].map(point::<I>).repeat(5);
    let contacts = zigzag.contacts();
    assert_eq!(contacts.len(), 45);
    let pairs = (0..10).flat_map(|first| (first + 1..10).map(move |second| [first, second]));
    assert!(contacts.iter().copied().eq(pairs.map(contact)));
}

fn no_contacts<I: Number>() {
    assert_eq!(contour::<I>(&[]).contacts(), []);
    assert_eq!(contour::<I>(&[]).kind_of_contact(contact([0, 1])), None);
    assert_eq!(OwnedContours::<I>::new().as_contours().contacts(), []);
    assert_eq!(
        OwnedShapes::<I>::new().as_shapes().contacts(),
        [] as [Vec<_>; 0]
    );
    let greatest = contact([usize::MAX - 1, usize::MAX]);
    assert_eq!(contour::<I>(&SQUARE).kind_of_contact(greatest), None);
}

fn edges_of_a_grid<I: Number>() {
    let points: Vec<[i8; 2]> = (0..9).map(|k| [k % 3, k / 3]).collect();
    let edges: Vec<_> = (points.iter())
        .flat_map(|&start| points.iter().map(move |&end| [start, end]))
        .collect();
    let given = |edge: [[i8; 2]; 2]| edge.map(point::<I>);
    let wide = |edge: [[i8; 2]; 2]| edge.map(|end| end.map(i64::from));
    for &first in &edges {
        for &second in &edges {
            let ends = [first, second].map(wide);
            let wanted = match shared(ends[0], ends[1]) {
                Shared::Nothing => None,
                Shared::One(found) => Some(kind_at(found, ends)),
                Shared::Many => Some(Overlap),
            };
            let found = kind_of_edges(given(first), given(second));
            assert_eq!(found, wanted, "{first:?} {second:?}");
        }
    }
}

fn unsafe_ends<I: Number>() {
    let [safe, outside] = [
        IntPoint::new(I::ZERO, I::ZERO),
        IntPoint::new(I::ABOVE, I::ZERO),
    ];
    let found = try_kind_of_edges([safe, safe], [safe, outside]);
    assert_eq!(found, Err(Error::UnsafePoint(3)));
}
