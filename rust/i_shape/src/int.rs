//! Contours, shapes and shape lists of whole-number points.
//!
//! ```
//! use i_shape::int::IntPoint;
//! use i_shape::int::area::Area;
//! use i_shape::int::path::ContourExtension;
//! use i_shape::int_path;
//!
//! let roof = int_path![[0_i32, 0], [12, 0], [12, 7], [6, 11], [0, 7]];
//! assert_eq!(roof.area_two(), 216_i64);
//! assert!(!roof.is_clockwise_ordered());
//! assert!(roof.contains_point(IntPoint::new(6, 10)));
//! ```

pub mod area;
pub mod canonical;
pub mod contacts;
pub mod count;
pub mod despike;
mod number;
pub mod path;
#[allow(unsafe_code, reason = "it reads points of a caller's type in place")]
mod point;
pub mod safe_range;
pub mod shape;
pub mod simple;
pub mod winding;

pub use number::{IntNumber, WideIntNumber};
pub use point::{AsIntPoints, ContourPoint, IntPoint, from_int_points};
