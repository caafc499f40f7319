//! Each name of the integer side of the crate `i_shape` 5.0.0, under its path: that this compiles is
//! the test.
#![allow(
    unused_imports,
    reason = "what is imported is there, which is all that is tested"
)]

use i_shape::base::data::{Contour, Path, Paths, Shape, Shapes};
use i_shape::flat::buffer::{FlatContoursBuffer, FlatShapesBuffer};
use i_shape::int::IntPoint;
use i_shape::int::area::{Area, IteratorArea, UnsafeArea};
use i_shape::int::count::{IntShapes as CountedShapes, PointsCount};
use i_shape::int::despike::{DeSpike, DeSpikeContour, DeSpikeShape, DeSpikeShapes};
use i_shape::int::path::{ContourExtension, IntPath, IntPaths};
use i_shape::int::safe_range::IntSafeRange;
use i_shape::int::shape::{IntContour, IntShape, IntShapes};
use i_shape::int::simple::{ContourSimplifier, SimpleContour, SimpleShape, SimpleShapes, Simplify};
use i_shape::source::int::buffer::IntBufferResourceIterator;
use i_shape::source::int::contour::ContourResourceIterator;
use i_shape::source::int::resource::IntShapeResource;
use i_shape::source::int::shape::ShapeResourceIterator;
use i_shape::source::int::shapes::ShapesResourceIterator;
use i_shape::{int_path, int_shape, int_shapes, path, paths};
