//! The calls by their definitions: happy paths at each width, small and large, and each error.

mod all_contacts;
mod contacts;
mod contours;
mod errors;
mod first_containing;
mod flat;
mod original_examples;
mod original_names;
mod own_points;
mod shapes;
mod shared;
mod touching;
