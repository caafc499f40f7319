//! Many contours in one list of points: the layout of the batch calls, and buffers that grow.
//!
//! [`Contours`] are points that lie end to end, with an offset before each contour and one behind
//! the last: contour k is `points[offsets[k]..offsets[k + 1]]`. [`Shapes`] have a second list of
//! offsets, over their contours. That is the layout of GeoArrow's polygon arrays, but with whole
//! numbers and without a closing point. Both borrow what they are made of, and nothing is copied:
//!
//! ```
//! use i_shape::flat::Contours;
//! use i_shape::int::IntPoint;
//!
//! let points = [[0, 0], [2, 0], [4, 0], [4, 4], [1, 1], [2, 2], [3, 3]];
//! let points = points.map(|[x, y]| IntPoint::<i32>::new(x, y));
//! let left = Contours::new(&points, &[0, 4, 7]).simplified();
//! assert_eq!(left.offsets(), [0, 3, 3]);
//! ```
//!
//! The second contour [collapses](crate::int::simple), and is left empty at its index.
//!
//! # On several processors
//!
//! Every type here is `Sync`, and contours are cleaned one by one. So a batch is divided by
//! [`Contours::chunks`], which copies nothing, and the results are joined by
//! [`OwnedContours::extend`]. With threads of std:
//!
//! ```
//! use i_shape::flat::{Contours, OwnedContours, offsets};
//! use i_shape::int::IntPoint;
//!
//! let square = [[0, 0], [2, 0], [4, 0], [4, 4], [0, 4]].map(|[x, y]| IntPoint::<i32>::new(x, y));
//! let points = square.repeat(1000);
//! let offsets = offsets::from_lengths([5; 1000]);
//! let contours = Contours::new(&points, &offsets);
//!
//! let left = std::thread::scope(|scope| {
//!     let parts = contours.chunks(250);
//!     let parts: Vec<_> = parts.map(|part| scope.spawn(move || part.simplified())).collect();
//!     let mut left = OwnedContours::new();
//!     for part in parts {
//!         left.extend(part.join().expect("no part panics").as_contours());
//!     }
//!     left
//! });
//! assert_eq!(left, contours.simplified());
//! ```
//!
//! With rayon, which this crate doesn't use, collect the chunks, map them by `into_par_iter()`,
//! which keeps their order, and join what is left.

pub mod buffer;
mod contacts;
mod contours;
mod measures;
pub mod offsets;
mod shapes;

pub use contours::{Contours, OwnedContours};
pub use shapes::{OwnedShapes, Shapes};
