//! `TooManyPoints` of the generic flat buffers, over points of no size, of which a list can have `usize::MAX`.

use crate::erased::callers::copies::copied_paths;
use crate::erased::fallible::alloc::Global;
use crate::erased::i_shape::ShapeError;
use crate::erased::i_shape::flat::float::{FloatFlatContoursBuffer, FloatFlatShapesBuffer};
use crate::erased::i_shape::source::float::resource::ShapePoint;

/// A point of no size.
#[derive(Clone, Copy, Debug)]
struct Nowhere;

impl ShapePoint for Nowhere {}

/// As many points as a list can have.
const MOST: &[Nowhere] = &[Nowhere; usize::MAX];

const ONE: &[Nowhere] = &[Nowhere];

/// As many as a list can have behind that one.
const REST: &[Nowhere] = &[Nowhere; usize::MAX - 1];

#[test]
fn a_contour_too_large_for_the_rest_of_a_buffer() -> Result<(), ShapeError> {
    let mut buffer = FloatFlatContoursBuffer::new(Global);
    buffer.add_contour(ONE)?;
    assert_eq!(buffer.add_contour(MOST), Err(ShapeError::TooManyPoints));
    assert_eq!(buffer.points.len(), 1);
    assert_eq!(buffer.ranges.as_slice(), [0..1]);
    buffer.add_contour(REST)?;
    assert_eq!(buffer.points.len(), usize::MAX);
    assert_eq!(buffer.ranges.as_slice(), [0..1, 1..usize::MAX]);
    assert_eq!(buffer.add_contour(ONE), Err(ShapeError::TooManyPoints));
    Ok(())
}

#[test]
fn a_shape_too_large_for_the_rest_of_a_buffer() -> Result<(), ShapeError> {
    let mut buffer = FloatFlatShapesBuffer::new(Global);
    buffer.add_contour(ONE)?;
    assert_eq!(buffer.add_contour(MOST), Err(ShapeError::TooManyPoints));
    assert_eq!(buffer.points.len(), 1);
    assert_eq!(buffer.contour_ranges.as_slice(), [0..1]);
    assert_eq!(buffer.shape_ranges.as_slice(), [0..1]);
    buffer.add_contour(REST)?;
    assert_eq!(buffer.points.len(), usize::MAX);
    assert_eq!(buffer.contour_ranges.as_slice(), [0..1, 1..usize::MAX]);
    assert_eq!(buffer.shape_ranges.as_slice(), [0..1, 1..2]);
    assert_eq!(buffer.add_contour(ONE), Err(ShapeError::TooManyPoints));
    Ok(())
}

#[test]
fn paths_too_large_for_contours() -> Result<(), ShapeError> {
    let mut buffer = FloatFlatContoursBuffer::new(Global);
    buffer.add_contour(ONE)?;
    let refused = buffer.set_with_resource(&[ONE, MOST]);
    assert_eq!(refused, Err(ShapeError::TooManyPoints));
    assert_eq!(buffer.points.len(), 1);
    assert_eq!(buffer.ranges.as_slice(), [0..1]);
    buffer.set_with_resource(&[ONE, REST])?;
    assert_eq!(buffer.points.len(), usize::MAX);
    assert_eq!(buffer.ranges.as_slice(), [0..1, 1..usize::MAX]);
    Ok(())
}

#[test]
fn paths_too_large_for_a_shape() -> Result<(), ShapeError> {
    let mut buffer = FloatFlatShapesBuffer::new(Global);
    buffer.add_contour(ONE)?;
    let refused = buffer.set_with_resource(&[ONE, MOST]);
    assert_eq!(refused, Err(ShapeError::TooManyPoints));
    assert_eq!(buffer.points.len(), 1);
    assert_eq!(buffer.contour_ranges.as_slice(), [0..1]);
    assert_eq!(buffer.shape_ranges.as_slice(), [0..1]);
    buffer.set_with_resource(&[ONE, REST])?;
    assert_eq!(buffer.points.len(), usize::MAX);
    assert_eq!(buffer.contour_ranges.as_slice(), [0..1, 1..usize::MAX]);
    assert_eq!(buffer.shape_ranges.as_slice(), [0..2]);
    Ok(())
}

#[test]
fn paths_too_large_to_copy() -> Result<(), ShapeError> {
    let copies = copied_paths(Global, &[ONE, REST])?;
    assert_eq!(
        copies.iter().map(|path| path.len()).collect::<Vec<_>>(),
        [1, usize::MAX - 1]
    );
    let refused = copied_paths(Global, &[ONE, MOST]).err();
    assert_eq!(refused, Some(ShapeError::TooManyPoints));
    Ok(())
}
