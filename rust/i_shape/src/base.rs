//! Lists of points of any type.

pub mod data {
    //! The types of paths, contours, shapes and shape lists over points of any type.

    use alloc::vec::Vec;

    /// Points in order.
    pub type Path<P> = Vec<P>;
    /// Paths in order.
    pub type Paths<P> = Vec<Path<P>>;
    /// Points read as a cycle: the last one isn't the first one again.
    pub type Contour<P> = Vec<P>;
    /// A polygon: its outer contour, and then its holes.
    pub type Shape<P> = Vec<Contour<P>>;
    /// A list of polygons.
    pub type Shapes<P> = Vec<Shape<P>>;
}
