//! What lends paths.

pub mod int {
    //! What lends paths of whole-number points, and the iterators over them.

    pub mod buffer;
    pub mod contour;
    pub mod resource;
    pub mod shape;
    pub mod shapes;
}
