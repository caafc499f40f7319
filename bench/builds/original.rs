//! The calls of the Rust crate i_shape 5.0.0 by the names of the C library, for run.sh. As the file src/lib.rs of a `cdylib` that depends on i_shape and i_float
//! it is built by cargo.

use i_float::int::number::int::IntNumber;
use i_float::int::point::IntPoint;
use i_shape::int::area::Area;
use i_shape::int::despike::DeSpikeContour;
use i_shape::int::path::ContourExtension;
use i_shape::int::safe_range::IntSafeRange;
use i_shape::int::simple::SimpleContour;
use std::mem::ManuallyDrop;

/// The points as the crate takes them, in a list that never grows and is never freed: a point has its two coordinates, and nothing else.
unsafe fn given<I: IntNumber>(points: *const IntPoint<I>, count: usize) -> ManuallyDrop<Vec<IntPoint<I>>> {
    assert!(size_of::<IntPoint<I>>() == 2 * size_of::<I>());
    ManuallyDrop::new(unsafe { Vec::from_raw_parts(points.cast_mut(), count, count) })
}

unsafe fn put<I: IntNumber>(left: Option<Vec<IntPoint<I>>>, out: *mut IntPoint<I>) -> isize {
    let Some(left) = left else { return 0 };
    unsafe { std::ptr::copy_nonoverlapping(left.as_ptr(), out, left.len()) };
    left.len() as isize
}

macro_rules! calls {
    ($int:ty, $wide:ty, $simplify:ident, $despike:ident, $simple:ident, $spikes:ident, $convex:ident, $safe:ident, $contains:ident, $area:ident) => {
        #[unsafe(no_mangle)]
        pub unsafe extern "C" fn $simplify(points: *const IntPoint<$int>, count: usize, out: *mut IntPoint<$int>, _room: usize) -> isize {
            unsafe { put(given(points, count).simplified(), out) }
        }

        #[unsafe(no_mangle)]
        pub unsafe extern "C" fn $despike(points: *const IntPoint<$int>, count: usize, out: *mut IntPoint<$int>, _room: usize) -> isize {
            unsafe { put(given(points, count).despiked_contour(), out) }
        }

        #[unsafe(no_mangle)]
        pub unsafe extern "C" fn $simple(points: *const IntPoint<$int>, count: usize) -> i32 {
            unsafe { given(points, count) }.is_simple().into()
        }

        #[unsafe(no_mangle)]
        pub unsafe extern "C" fn $spikes(points: *const IntPoint<$int>, count: usize) -> i32 {
            unsafe { given(points, count) }.has_no_spikes().into()
        }

        #[unsafe(no_mangle)]
        pub unsafe extern "C" fn $convex(points: *const IntPoint<$int>, count: usize) -> i32 {
            unsafe { given(points, count) }.is_convex().into()
        }

        #[unsafe(no_mangle)]
        pub unsafe extern "C" fn $safe(points: *const IntPoint<$int>, count: usize) -> i32 {
            unsafe { given(points, count) }.is_in_safe_range().into()
        }

        #[unsafe(no_mangle)]
        pub unsafe extern "C" fn $contains(points: *const IntPoint<$int>, count: usize, x: $int, y: $int) -> i32 {
            unsafe { given(points, count) }.contains_point(IntPoint::new(x, y)).into()
        }

        #[unsafe(no_mangle)]
        pub unsafe extern "C" fn $area(points: *const IntPoint<$int>, count: usize, area: *mut $wide) -> bool {
            unsafe { area.write_unaligned(given(points, count).area_two()) };
            true
        }
    };
}

calls!(
    i16, i32, i_shape_simplify_i16, i_shape_despike_i16, i_shape_is_simple_i16, i_shape_has_no_spikes_i16, i_shape_is_convex_i16, i_shape_is_safe_i16,
    i_shape_contains_i16, i_shape_area_two_i16
);
calls!(
    i32, i64, i_shape_simplify_i32, i_shape_despike_i32, i_shape_is_simple_i32, i_shape_has_no_spikes_i32, i_shape_is_convex_i32, i_shape_is_safe_i32,
    i_shape_contains_i32, i_shape_area_two_i32
);
calls!(
    i64, i128, i_shape_simplify_i64, i_shape_despike_i64, i_shape_is_simple_i64, i_shape_has_no_spikes_i64, i_shape_is_convex_i64, i_shape_is_safe_i64,
    i_shape_contains_i64, i_shape_area_two_i64
);
