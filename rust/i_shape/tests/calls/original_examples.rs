//! What the README of the crate `i_shape` shows of whole numbers, over this crate: the same names,
//! by the same paths.

use i_shape::flat::buffer::FlatContoursBuffer;
use i_shape::int::area::{Area, IteratorArea, UnsafeArea};
use i_shape::int::{IntNumber, IntPoint, WideIntNumber, path::ContourExtension};
use i_shape::int::{shape::IntContour, simple::SimpleContour};
use i_shape::source::int::buffer::IntBufferResourceIterator;
use i_shape::source::int::contour::ContourResourceIterator;
use i_shape::source::int::resource::IntShapeResource;
use i_shape::source::int::shape::ShapeResourceIterator;
use i_shape::source::int::shapes::ShapesResourceIterator;
use i_shape::{Error, int_path, int_shape, int_shapes, path, paths};

#[test]
fn contour_is_measured_and_tested() {
    let square = int_path![[0_i32, 0], [8, 0], [8, 8], [0, 8]];
    let doubled: i64 = square.area_two();
    assert_eq!((doubled, square.area()), (128, 64));
    assert!(!square.is_clockwise_ordered() && square.is_convex());
    let [inside, outside] = [IntPoint::new(3, 3), IntPoint::new(9, 3)];
    assert!(square.contains_point(inside) && !square.contains_point(outside));
}

#[test]
fn flat_buffer_takes_a_contour_and_gives_it_back() {
    let triangle = int_path![[0_i32, 0], [6, 0], [0, 6]];
    let mut flat = FlatContoursBuffer::default();
    flat.add_contour(&triangle);
    assert_eq!(flat.ranges[0], 0..3);
    assert_eq!(flat.to_contours(), [triangle]);
}

#[test]
fn resources_lend_their_paths() {
    let triangle = int_path![[0_i64, 0], [6, 0], [0, 6]];
    let mut paths = triangle.iter_paths();
    assert_eq!((paths.next(), paths.next()), (Some(&triangle[..]), None));
    // some of the points again, and nothing is copied
    let lent = [&triangle[..], &triangle[1..], &[]];
    let lengths: Vec<_> = lent.iter_paths().map(<[_]>::len).collect();
    assert_eq!(lengths, [3, 2, 0]);
}

#[test]
fn each_kind_of_resource_lends_the_same() {
    let [first, second] = [int_path![[0_i16, 0], [6, 0], [0, 6]], int_path![[1, 1]]];
    let wanted = [&first[..], &second];
    fn lends(
        resource: &(impl IntShapeResource<i16> + ?Sized),
        wanted: &[&[IntPoint<i16>]],
    ) -> bool {
        resource.iter_paths().eq(wanted.iter().copied())
    }
    let shape = vec![first.clone(), second.clone()];
    let shapes = vec![vec![first.clone()], vec![], vec![second.clone()]];
    let mut flat = FlatContoursBuffer::default();
    flat.set_with_shape(&shape);
    assert!(lends(&first, &wanted[..1]) && lends(first.as_slice(), &wanted[..1]));
    assert!(lends(&shape, &wanted) && lends(&shape[..], &wanted) && lends(&&shape, &wanted));
    assert!(lends(&[first.clone(), second.clone()], &wanted) && lends(&wanted, &wanted));
    assert!(lends(&shapes, &wanted) && lends(&flat, &wanted) && lends(&&mut flat, &wanted));
}

#[test]
fn macros_write_lists_out() {
    let path = int_path![[1_i32, 2], [3, 4]];
    assert_eq!(path, [IntPoint::new(1, 2), IntPoint::new(3, 4)]);
    assert_eq!(
        int_shape![[[1_i32, 2], [3, 4]]],
        std::slice::from_ref(&path)
    );
    assert_eq!(
        int_shapes![[[[1_i32, 2], [3, 4]]], []],
        [vec![path], vec![]]
    );
    let floats = path![[0.5, 1.5], [2.5, 3.5]];
    assert_eq!(paths![[[0.5, 1.5], [2.5, 3.5]]], [floats]);
    let none: Vec<IntPoint<i32>> = int_path![];
    assert!(none.is_empty());
}

#[test]
fn iterators_are_measured() {
    let square = int_path![[-1_i32, -1], [1, -1], [1, 1], [-1, 1]];
    assert_eq!(IteratorArea::area_two(square.iter().copied()), 8_i64);
    assert_eq!(square.into_iter().area(), 4);
    // far outside the safe range
    let octagon: [[i32; 2]; 8] = [
        [-3, 2],
        [-3, -2],
        [-2, -3],
        [2, -3],
        [3, -2],
        [3, 2],
        [2, 3],
        [-2, 3],
    ];
    let points = octagon.map(|[x, y]| IntPoint::new(x * 104_857_600, y * 104_857_600));
    let area: i64 = points.into_iter().unsafe_area();
    assert_eq!(area, 747_667_906_887_680_000);
    let none: [IntPoint<i32>; 0] = [];
    assert_eq!(none.into_iter().try_unsafe_area(), Err(Error::NoPoint));
    assert_eq!(
        IteratorArea::try_area(none.into_iter()),
        Err(Error::NoPoint)
    );
}

/// Names each type of iterator, and counts what is left behind the first path.
fn left_behind_first<'a, T: Iterator<Item = &'a [IntPoint<i32>]>>(mut paths: T) -> usize {
    paths.next();
    paths.count()
}

#[test]
fn iterators_have_their_names() {
    let path = int_path![[0_i32, 0], [6, 0]];
    let shape = vec![path.clone(), path.clone()];
    let shapes = vec![shape.clone(), vec![path.clone()]];
    let mut flat = FlatContoursBuffer::default();
    flat.set_with_shapes(&shapes);
    let of_path: ContourResourceIterator<'_, IntPoint<i32>> = path.iter_paths();
    let of_shape: ShapeResourceIterator<'_, IntPoint<i32>> = shape.iter_paths();
    let of_shapes: ShapesResourceIterator<'_, IntPoint<i32>> = shapes.iter_paths();
    let of_buffer: IntBufferResourceIterator<'_, i32> = flat.iter_paths();
    assert_eq!(left_behind_first(of_path), 0);
    assert_eq!(left_behind_first(of_shape), 1);
    assert_eq!(left_behind_first(of_shapes), 2);
    assert_eq!((of_buffer.len(), left_behind_first(of_buffer)), (3, 2));
}

/// Code over any coordinate, as a caller of the original crate writes it: the cross and the dot
/// product of the edges at the middle of three points, and whether it is a zero turn.
fn turn<I: IntNumber>([from, at, to]: [IntPoint<I>; 3]) -> (I::Wide, I::Wide, bool) {
    let (before, behind) = (at - from, to - at);
    let cross = before.cross_product(behind);
    let other = before.x.to_wide() * behind.y.to_wide() - before.y.to_wide() * behind.x.to_wide();
    assert!(cross == other && cross.signum() * cross >= I::Wide::ZERO);
    (cross, before.dot_product(behind), cross == I::Wide::ZERO)
}

#[test]
fn code_may_be_generic_over_the_coordinate() {
    let points = |points: [[i16; 2]; 3]| points.map(IntPoint::from);
    assert_eq!(turn(points([[0, 0], [2, 0], [2, 3]])), (6, 0, false));
    assert_eq!(turn(points([[0, 0], [2, 0], [5, 0]])), (0, 6, true));
    assert_eq!(turn(points([[0, 0], [2, 0], [0, 0]])), (0, -4, true));
    assert_eq!(turn(points([[3, 1], [5, 5], [5, 5]])), (0, 0, true));
    let far = [[-16383, -16383], [16383, 16383], [16383, -16383]];
    assert_eq!(turn(points(far)), (-1_073_610_756, -1_073_610_756, false));
    let least = <i64 as IntNumber>::MIN;
    let [east, up] = [(least, 0), (0, least)].map(IntPoint::from);
    assert_eq!(east.cross_product(up), 1 << 126);
}

/// The corners of the safe range, and the points one further out.
fn corners_are_safe<I: IntNumber>() -> bool {
    let limit = I::ONE << (I::BITS - 2);
    let corners = |far: I| [IntPoint::new(far, -far), IntPoint::new(-far, far)];
    let is_safe = |point: IntPoint<I>| point.is_in_safe_range();
    corners(limit - I::ONE).into_iter().all(is_safe) && !corners(limit).into_iter().any(is_safe)
}

#[test]
fn safe_range_ends_two_bits_below_the_width() {
    assert!(corners_are_safe::<i16>() && corners_are_safe::<i32>() && corners_are_safe::<i64>());
}

/// Twice the area and the cleaned contour, at any width.
fn cleaned<I: IntNumber>(contour: &IntContour<I>) -> (I::Wide, Option<IntContour<I>>) {
    (contour.area_two() / I::Wide::TWO, contour.simplified())
}

#[test]
fn calls_are_generic_over_the_coordinate() {
    let contour = int_path![[0_i64, 0], [3, 0], [6, 0], [6, 2]];
    let corners = int_path![[0, 0], [6, 0], [6, 2]];
    assert_eq!(cleaned(&contour), (6_i128, Some(corners)));
}
