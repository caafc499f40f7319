//! Batch calls over borrowed points and offsets, and the buffers.

use crate::shared::{
    FLAT, Growing, HOLE, Number, SPIKED, SQUARE, STAR, STRAIGHT, Written, at_each_width, contour,
    point, shape, shapes,
};
use i_shape::flat::buffer::{FlatContoursBuffer, FlatShapesBuffer};
use i_shape::flat::{Contours, OwnedContours, OwnedShapes, Shapes, offsets};
use i_shape::int::IntPoint;
use i_shape::int::area::Area;
use i_shape::int::despike::DeSpikeContour;
use i_shape::int::shape::IntContour;
use i_shape::int::simple::SimpleContour;
use i_shape::source::int::resource::IntShapeResource;
use i_shape::{BadOffset, Error, FillRule, Location};

at_each_width!(
    contours_as_one_by_one,
    contours_into_slices,
    contours_behind_an_offset,
    lists_that_grow_between_two_looks,
    contours_tested,
    contours_measured,
    parts_of_contours,
    rings_wound_about,
    polygons_cleaned,
    polygons_into_slices,
    polygons_behind_an_offset,
    parts_of_polygons,
    buffers_of_contours,
    buffers_of_shapes
);

fn given<I: Number>() -> Vec<IntContour<I>> {
    [&STRAIGHT[..], &FLAT, &[], &SPIKED, &SQUARE, &[[1, 1]]]
        .map(contour)
        .to_vec()
}

type CleanOne<I> = fn(&IntContour<I>) -> Option<IntContour<I>>;
type CleanMany<I> = fn(Contours<'_, I>) -> OwnedContours<I>;
type CleanInto<I> = fn(Contours<'_, I>, &mut [IntPoint<I>], &mut [usize]) -> usize;

/// Each cleaner of one contour, of many, and of many into slices.
fn cleaners<I: Number>() -> [(CleanOne<I>, CleanMany<I>, CleanInto<I>); 4] {
    [
        (
            |contour| contour.simplified(),
            |contours| contours.simplified(),
            |contours, points, offsets| contours.simplify_into(points, offsets),
        ),
        (
            |contour| contour.despiked_contour(),
            |contours| contours.despiked(),
            |contours, points, offsets| contours.despike_into(points, offsets),
        ),
        (
            |contour| contour.canonical(),
            |contours| contours.canonical(),
            |contours, points, offsets| contours.canonical_into(points, offsets),
        ),
        (
            |contour| contour.canonical_unoriented(),
            |contours| contours.canonical_unoriented(),
            |contours, points, offsets| contours.canonical_unoriented_into(points, offsets),
        ),
    ]
}

/// What a cleaner leaves of each contour, an empty one where it collapses.
fn one_by_one<I: Number>(clean: CleanOne<I>, contours: &[IntContour<I>]) -> OwnedContours<I> {
    let left: Vec<_> = contours
        .iter()
        .map(|contour| clean(contour).unwrap_or_default())
        .collect();
    OwnedContours::from_contours(&left)
}

fn contours_as_one_by_one<I: Number>() {
    let contours = given::<I>();
    let flat = OwnedContours::from_contours(&contours);
    assert!(
        flat.as_contours()
            .iter()
            .eq(contours.iter().map(Vec::as_slice))
    );
    for (clean_one, clean_many, _) in cleaners() {
        assert_eq!(
            clean_many(flat.as_contours()),
            one_by_one(clean_one, &contours)
        );
    }
    let many: Vec<_> = contours.iter().cycle().take(60_000).cloned().collect();
    let flat = OwnedContours::from_contours(&many);
    for (clean_one, clean_many, _) in cleaners() {
        assert_eq!(clean_many(flat.as_contours()), one_by_one(clean_one, &many));
    }
    assert_eq!(
        Contours::<I>::new(&[], &[0]).simplified(),
        OwnedContours::new()
    );
}

fn contours_into_slices<I: Number>() {
    let contours = given::<I>();
    let flat = OwnedContours::from_contours(&contours);
    let behind = point::<I>([9, 9]);
    for (clean_one, _, clean_into) in cleaners() {
        let left = one_by_one(clean_one, &contours);
        let mut out_points = vec![behind; flat.points().len() + 1];
        let mut out_offsets = vec![99; flat.offsets().len() + 1];
        let count = clean_into(flat.as_contours(), &mut out_points, &mut out_offsets);
        assert_eq!(out_points[..count], *left.points());
        assert!(out_points[count..].iter().all(|&point| point == behind));
        assert_eq!(out_offsets[..left.offsets().len()], *left.offsets());
        assert_eq!(out_offsets[left.offsets().len()..], [99]);
    }
}

fn contours_behind_an_offset<I: Number>() {
    let unsafe_point = IntPoint::new(I::ABOVE, I::ABOVE);
    let mut points = vec![unsafe_point; 2];
    points.extend(contour::<I>(&STRAIGHT));
    points.extend(contour::<I>(&FLAT));
    points.push(unsafe_point);
    let contours = Contours::new(&points, &[2, 7, 10]);
    assert_eq!((contours.len(), contours.points().len()), (2, 10));
    assert!(contours.is_in_safe_range());
    let left = contours.canonical();
    assert_eq!(left.points(), contour(&SQUARE));
    assert_eq!(left.offsets(), [0, 4, 4]);
    let mut out = (vec![unsafe_point; 10], vec![0; 3]);
    assert_eq!(contours.canonical_into(&mut out.0, &mut out.1), 4);
    assert_eq!(out.1, [0, 4, 4]);
    assert!(!Contours::new(&points, &[1, 7, 10]).is_in_safe_range());
    assert_eq!(contours.get(1), Some(&points[7..10]));
    assert_eq!(contours.get(2), None);
}

/// Whether a contour is simple, has no spikes, is convex, and is safe.
const TOLD: [(&Written, [bool; 4]); 8] = [
    (&STRAIGHT, [false, true, true, true]),
    (&FLAT, [false, false, false, true]),
    (&[], [false, false, true, true]),
    (&SPIKED, [false, false, false, true]),
    (&SQUARE, [true, true, true, true]),
    (&[[0, 0], [4, 0], [4, 4], [3, 1]], [true, true, false, true]),
    (&STAR, [true, true, true, true]),
    (&[[1, 1]], [false, false, true, true]),
];

fn contours_tested<I: Number>() {
    for repeats in [1, 10_000] {
        let contours: Vec<_> = TOLD
            .repeat(repeats)
            .iter()
            .map(|row| contour::<I>(row.0))
            .collect();
        let told = |test: usize| TOLD.map(|row| row.1[test]).repeat(repeats);
        let flat = OwnedContours::from_contours(&contours);
        let all = flat.as_contours();
        assert_eq!(all.are_simple(), told(0));
        assert_eq!(all.have_no_spikes(), told(1));
        assert_eq!(all.are_convex(), told(2));
        assert_eq!(all.are_in_safe_range(), told(3));
    }
    let none = Contours::<I>::new(&[], &[0]);
    assert_eq!(none.try_are_simple(), Ok(vec![]));
    let points = [[0, 0], [4, 0], [0, 4]].map(point).to_vec();
    let outside = vec![IntPoint::new(I::ABOVE, I::ZERO)];
    let points = [outside.clone(), points, outside].concat();
    let contours = Contours::new(&points, &[0, 1, 4]);
    assert_eq!(contours.try_are_in_safe_range(), Ok(vec![false, true]));
    let inner = Contours::new(&points, &[1, 4]);
    assert_eq!(inner.try_are_simple(), Ok(vec![true]));
}

fn contours_measured<I: Number>() {
    for repeats in [1, 10_000] {
        let contours = [&SQUARE[..], &HOLE, &[], &FLAT].repeat(repeats);
        let contours: Vec<_> = contours.into_iter().map(contour::<I>).collect();
        let flat = OwnedContours::from_contours(&contours);
        let areas = flat.as_contours().areas_two();
        let areas: Vec<_> = areas.iter().map(ToString::to_string).collect();
        assert_eq!(areas, ["32", "-1", "0", "0"].repeat(repeats));
    }
    assert_eq!(Contours::<I>::new(&[], &[0]).try_areas_two(), Ok(vec![]));
}

fn parts_of_contours<I: Number>() {
    let contours = given::<I>();
    let flat = OwnedContours::from_contours(&contours);
    for length in 1..8 {
        let parts: Vec<_> = flat.as_contours().chunks(length).collect();
        assert_eq!(parts.len(), contours.len().div_ceil(length));
        let mut joined = OwnedContours::new();
        for part in parts {
            joined.extend(part);
        }
        assert_eq!(joined, flat);
        let mut left = OwnedContours::new();
        for part in flat.as_contours().chunks(length) {
            left.extend(part.simplified().as_contours());
        }
        assert_eq!(left, flat.as_contours().simplified());
    }
    assert_eq!(
        OwnedContours::<I>::default()
            .as_contours()
            .chunks(3)
            .count(),
        0
    );
}

fn rings_wound_about<I: Number>() {
    let rings = OwnedContours::from_contours(&shape::<I>(&[&SQUARE, &HOLE, &STAR]));
    let about = [[2, 2], [-1, 0], [0, 8], [5, 9]].map(point::<I>);
    // (2, 2) lies in the square and twice in the star, (-1, 0) twice in the star
    let numbers = [3, 2, 1, 0];
    let rings = rings.as_contours();
    assert_eq!(rings.winding_numbers(&about), numbers);
    assert_eq!(rings.try_winding_numbers(&about), Ok(numbers.to_vec()));
    let mut out = [7; 5];
    rings.winding_numbers_into(&about, &mut out);
    assert_eq!(out, [3, 2, 1, 0, 7]);
    // the points before the first offset are not read
    let unsafe_point = IntPoint::new(I::ABOVE, I::ABOVE);
    let points = [&[unsafe_point; 2], &rings.points()[4..]].concat();
    let inner = Contours::new(&points, &[2, 5, 10]);
    assert_eq!(inner.try_winding_numbers(&about), Ok(vec![2, 2, 1, 0]));
    let odd = [true, false, true, false];
    assert_eq!(rings.contains_points(&about, FillRule::EvenOdd), odd);
    assert_eq!(
        rings.try_contains_points(&about, FillRule::EvenOdd),
        Ok(odd.to_vec())
    );
    let (inside, on, outside) = (Location::Inside, Location::OnBoundary, Location::Outside);
    // the last one lies on the square, and outside the other two
    let about = [about[0], about[1], point([1, 2]), point([4, 4])];
    let located = [inside, outside, on, on];
    assert_eq!(rings.locate(&about, FillRule::EvenOdd), located);
    let located = vec![inside, inside, on, outside];
    assert_eq!(inner.try_locate(&about, FillRule::NonZero), Ok(located));
}

fn polygons_cleaned<I: Number>() {
    let given = shapes::<I>(&[
        &[&STRAIGHT, &FLAT, &HOLE],
        &[&FLAT, &SQUARE],
        &[],
        &[&SPIKED],
    ]);
    let flat = OwnedShapes::from_shapes(&given);
    assert_eq!(flat.to_shapes(), given);
    assert_eq!(flat.contours().len(), 7);
    assert_eq!(flat.shapes(), [0, 3, 5, 5, 6]);
    let polygons = flat.as_shapes();
    assert_eq!((polygons.len(), polygons.is_empty()), (4, false));
    // no points of the polygons behind it
    let first = polygons.get(0).expect("there are four");
    assert_eq!(first.points(), &flat.points()[..11]);
    assert_eq!(polygons.iter().next(), Some(first));
    let simplified = polygons.simplified();
    assert_eq!(simplified.shapes(), [0, 2, 2, 3]);
    assert_eq!(simplified.contours(), [0, 4, 7, 11]);
    let canonical = shapes::<I>(&[&[], &[&SQUARE], &[&SQUARE, &HOLE]]);
    assert_eq!(polygons.canonical().to_shapes(), canonical);
    let unoriented = OwnedShapes::from_shapes(&canonical)
        .as_shapes()
        .canonical_unoriented();
    assert_eq!(polygons.canonical_unoriented(), unoriented);
    let despiked = shapes::<I>(&[&[&STRAIGHT, &HOLE], &[], &[&SQUARE]]);
    assert_eq!(polygons.spikes_removed().to_shapes(), despiked);
    #[allow(deprecated)]
    let by_old_name = polygons.try_despiked();
    assert_eq!(by_old_name, Ok(OwnedShapes::from_shapes(&despiked)));
    assert_eq!(Shapes::<I>::new(&[], &[0], &[0]).simplified().shapes(), [0]);
}

fn polygons_into_slices<I: Number>() {
    type Into<I> = fn(Shapes<'_, I>, &mut [IntPoint<I>], &mut [usize], &mut [usize]) -> usize;
    type Cleaned<I> = fn(Shapes<'_, I>) -> OwnedShapes<I>;
    let cleaners: [(Cleaned<I>, Into<I>); 4] = [
        (
            |shapes| shapes.simplified(),
            |shapes, points, contours, ends| shapes.simplify_into(points, contours, ends),
        ),
        (
            |shapes| shapes.spikes_removed(),
            |shapes, points, contours, ends| shapes.remove_spikes_into(points, contours, ends),
        ),
        (
            |shapes| shapes.canonical(),
            |shapes, points, contours, ends| shapes.canonical_into(points, contours, ends),
        ),
        (
            |shapes| shapes.canonical_unoriented(),
            |shapes, points, contours, ends| {
                shapes.canonical_unoriented_into(points, contours, ends)
            },
        ),
    ];
    let given = shapes::<I>(&[&[&STRAIGHT, &FLAT, &HOLE], &[&FLAT], &[], &[&SPIKED]]);
    let flat = OwnedShapes::from_shapes(&given);
    for (cleaned, clean_into) in cleaners {
        let left = cleaned(flat.as_shapes());
        let mut points = vec![point([9, 9]); flat.points().len()];
        let mut contours = vec![99; flat.contours().len()];
        let mut ends = vec![99; flat.shapes().len()];
        let count = clean_into(flat.as_shapes(), &mut points, &mut contours, &mut ends);
        assert_eq!(count, 3);
        assert_eq!(ends, [left.shapes(), &[99]].concat());
        assert_eq!(contours[..left.contours().len()], *left.contours());
        assert_eq!(points[..left.points().len()], *left.points());
        assert_eq!(points[left.points().len()..].first(), Some(&point([9, 9])));
    }
}

fn polygons_behind_an_offset<I: Number>() {
    let unsafe_point = IntPoint::new(I::ABOVE, I::ABOVE);
    let mut points = vec![unsafe_point; 3];
    points.extend(contour::<I>(&STRAIGHT));
    points.extend(contour::<I>(&HOLE));
    points.extend([unsafe_point; 4]);
    let polygons = Shapes::new(&points, &[0, 3, 8, 11, 15], &[1, 3]);
    assert!(polygons.is_in_safe_range());
    let left = polygons.canonical();
    assert_eq!(left.to_shapes(), shapes(&[&[&SQUARE, &HOLE]]));
    assert_eq!(
        (left.contours(), left.shapes()),
        (&[0, 4, 7][..], &[0, 2][..])
    );
    let outer = polygons.get(0).and_then(|contours| contours.get(0));
    assert_eq!(outer, Some(&points[3..8]));
    let contours = Contours::new(&points[..11], &[3, 8, 11]);
    assert_eq!(polygons.as_contours(), contours);
    let about = [[0, 0], [1, 1], [2, 3], [3, 1], [9, 9]].map(point);
    assert_eq!(
        polygons.winding_numbers(&about),
        contours.winding_numbers(&about)
    );
    let rule = FillRule::NonZero;
    assert_eq!(
        polygons.contains_points(&about, rule),
        contours.contains_points(&about, rule)
    );
    assert_eq!(polygons.locate(&about, rule), contours.locate(&about, rule));
    let unsafe_about = polygons.try_locate(&[unsafe_point], rule);
    assert_eq!(unsafe_about, Err(Error::UnsafeAbout(0)));
    assert_eq!(polygons.get(1), None);
}

fn parts_of_polygons<I: Number>() {
    let given = shapes::<I>(&[
        &[&STRAIGHT, &FLAT, &HOLE],
        &[&FLAT],
        &[],
        &[&SPIKED],
        &[&SQUARE],
    ]);
    let flat = OwnedShapes::from_shapes(&given);
    for length in 1..7 {
        let mut joined = OwnedShapes::new();
        let mut left = OwnedShapes::new();
        for part in flat.as_shapes().chunks(length) {
            joined.extend(part);
            left.extend(part.simplified().as_shapes());
        }
        assert_eq!(joined, flat);
        assert_eq!(left, flat.as_shapes().simplified());
    }
    assert_eq!(OwnedShapes::<I>::default().as_shapes().chunks(2).count(), 0);
    let counts: Vec<_> = flat
        .as_shapes()
        .iter()
        .map(|contours| contours.len())
        .collect();
    assert_eq!(counts, [3, 1, 0, 1, 1]);
    let areas = flat
        .as_shapes()
        .iter()
        .flat_map(Contours::iter)
        .map(|ring| ring.area_two());
    assert_eq!(
        areas.map(|area| format!("{area}")).collect::<Vec<_>>(),
        ["32", "0", "-1", "0", "32", "32"]
    );
}

#[test]
fn offsets_that_part_a_list() {
    let fit: [(&[usize], usize); 5] = [
        (&[0], 0),
        (&[3], 3),
        (&[0, 2, 2, 5], 5),
        (&[1, 2], 9),
        (&[0, 0], 0),
    ];
    let unfit: [(&[usize], usize); 4] = [(&[], 0), (&[0, 3, 2], 5), (&[0, 6], 5), (&[1], 0)];
    assert!(
        fit.iter()
            .all(|&(given, count)| offsets::are_fit(given, count))
    );
    assert!(
        !unfit
            .iter()
            .any(|&(given, count)| offsets::are_fit(given, count))
    );
}

#[test]
fn offsets_made_of_lengths_and_ranges() {
    assert_eq!(offsets::from_lengths([5, 0, 3]), [0, 5, 5, 8]);
    assert_eq!(offsets::from_lengths([]), [0]);
    assert_eq!(
        offsets::try_from_lengths([usize::MAX, 1]),
        Err(Error::NoMemory)
    );
    assert_eq!(offsets::from_ranges(&[0..5, 5..5, 5..8]), [0, 5, 5, 8]);
    assert_eq!(offsets::from_ranges(&[]), [0]);
    let bad = |index, offset, most| {
        let least = 5;
        Err(Error::BadOffsets(Some(BadOffset {
            index,
            offset,
            least,
            most,
        })))
    };
    let answer = offsets::try_from_ranges(&[0..5, 4..8]);
    assert_eq!(answer, bad(1, 4, 5));
    let (start, end) = (5, 2);
    let answer = offsets::try_from_ranges(&[0..5, start..end]);
    assert_eq!(answer, bad(2, 2, usize::MAX));
}

#[test]
fn threads_clean_parts() {
    let contours: Vec<_> = given::<i32>().into_iter().cycle().take(6_000).collect();
    let flat = OwnedContours::from_contours(&contours);
    let parts = flat.as_contours().chunks(1_500);
    let left = std::thread::scope(|scope| {
        let parts: Vec<_> = parts
            .map(|part| scope.spawn(move || part.simplified()))
            .collect();
        let mut left = OwnedContours::new();
        for part in parts {
            left.extend(part.join().expect("no part panics").as_contours());
        }
        left
    });
    assert_eq!(left, flat.as_contours().simplified());
}

fn buffers_of_contours<I: Number>() {
    let [square, hole, star] = [&SQUARE[..], &HOLE, &STAR].map(contour::<I>);
    let mut buffer = FlatContoursBuffer::with_capacity(4);
    assert!(buffer.is_empty() && !buffer.is_single_contour());
    buffer.add_contour(&square);
    assert!(buffer.is_single_contour() && !buffer.is_empty());
    buffer.add_contour(&hole);
    assert_eq!(buffer.ranges, [0..4, 4..7]);
    assert_eq!(buffer.to_contours(), [square.clone(), hole.clone()]);
    assert_eq!(buffer.as_first_contour(), square);
    buffer.as_first_contour_mut()[0] = hole[0];
    assert_eq!(buffer.points[0], hole[0]);
    assert!(buffer.iter_paths().eq([&buffer.points[..4], &hole]));
    assert_eq!(buffer.iter_paths().len(), 2);

    buffer.set_with_shapes(&[
        vec![star.clone()],
        vec![],
        vec![square.clone(), hole.clone()],
    ]);
    assert_eq!(
        buffer.to_contours(),
        [star.clone(), square.clone(), hole.clone()]
    );
    buffer.set_with_shape(&[hole.clone(), star.clone()]);
    assert_eq!(buffer.to_contours(), [hole, star.clone()]);
    buffer.set_with_contour(&square);
    assert_eq!(buffer.to_contours(), [square]);
    buffer.clear_and_reserve(5, 1);
    assert_eq!(buffer, FlatContoursBuffer::default());
    buffer.points = star.clone();
    assert_eq!(buffer.as_first_contour(), star);

    let flat = OwnedContours::from_contours(&given::<I>());
    let buffer = FlatContoursBuffer::from(flat.clone());
    assert_eq!(buffer.to_contours(), given());
    assert_eq!(offsets::from_ranges(&buffer.ranges), flat.offsets());
}

fn buffers_of_shapes<I: Number>() {
    let given = shapes::<I>(&[&[&SQUARE, &HOLE], &[], &[&STAR]]);
    let mut buffer = FlatShapesBuffer::with_capacity(12, 3, 3);
    assert!(buffer.is_empty());
    for shape in &given {
        buffer.add_shape(shape);
    }
    assert_eq!(buffer.contour_ranges, [0..4, 4..7, 7..12]);
    assert_eq!(buffer.shape_ranges, [0..2, 2..2, 2..3]);
    assert_eq!(buffer.to_shapes(), given);
    assert!(buffer.iter_paths().eq(given.iter_paths()));
    assert_eq!(
        FlatShapesBuffer::from(OwnedShapes::from_shapes(&given)),
        buffer
    );
    let taken = buffer.clone();
    buffer.set_with_shapes(&given);
    assert_eq!(buffer, taken);
    buffer.set_with_shape(&given[0]);
    assert_eq!(buffer.to_shapes(), given[..1]);
    buffer.set_with_contour(&given[2][0]);
    assert_eq!(buffer.to_shapes(), given[2..]);
    buffer.clear_and_reserve(5, 1, 1);
    assert_eq!(buffer, FlatShapesBuffer::default());
}

fn lists_that_grow_between_two_looks<I: Number>() {
    let ring = contour::<I>(&SQUARE);
    let contours = [(); 2].map(|_| Growing::new(&ring));
    let (points, offsets) = OwnedContours::from_contours(&contours).into_parts();
    assert_eq!(offsets.last(), Some(&points.len()));
    let polygon = shape::<I>(&[&SQUARE, &HOLE, &STAR]);
    let shapes = [(); 2].map(|_| Growing::new(&polygon));
    let (points, contours, shapes) = OwnedShapes::from_shapes(&shapes).into_parts();
    assert_eq!(contours.last(), Some(&points.len()));
    assert_eq!(shapes.last(), Some(&(contours.len() - 1)));
}
