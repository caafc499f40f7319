//! Contours and shapes that are written out.

/// A path of whole-number points: `int_path![[0_i32, 0], [4, 0], [4, 4]]`.
#[macro_export]
macro_rules! int_path {
    ($([$x:expr, $y:expr]),* $(,)?) => {
        <$crate::int::shape::IntContour<_> as ::core::convert::From<_>>::from([
            $($crate::int::IntPoint::new($x, $y)),*
        ])
    };
}

/// A shape of whole-number points: `int_shape![[[0_i32, 0], [4, 0], [4, 4]]]`.
#[macro_export]
macro_rules! int_shape {
    ($([$([$x:expr, $y:expr]),* $(,)?]),* $(,)?) => {
        <$crate::int::shape::IntShape<_> as ::core::convert::From<_>>::from([
            $($crate::int_path![$([$x, $y]),*]),*
        ])
    };
}

/// A list of shapes of whole-number points: `int_shapes![[[[0_i32, 0], [4, 0], [4, 4]]]]`.
#[macro_export]
macro_rules! int_shapes {
    ($([$([$([$x:expr, $y:expr]),* $(,)?]),* $(,)?]),* $(,)?) => {
        <$crate::int::shape::IntShapes<_> as ::core::convert::From<_>>::from([
            $($crate::int_shape![$([$([$x, $y]),*]),*]),*
        ])
    };
}

/// A path of points of any type: `path![[0, 0], [4, 0], [4, 4]]`.
#[macro_export]
macro_rules! path {
    ($($point:expr),* $(,)?) => {
        <$crate::base::data::Path<_> as ::core::convert::From<_>>::from([
            $($point),*
        ])
    };
}

/// Paths of points of any type: `paths![[[0, 0], [4, 0], [4, 4]]]`.
#[macro_export]
macro_rules! paths {
    ($([$($point:expr),* $(,)?]),* $(,)?) => {
        <$crate::base::data::Paths<_> as ::core::convert::From<_>>::from([
            $($crate::path![$($point),*]),*
        ])
    };
}
