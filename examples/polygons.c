/* Cleans two polygons by one call, and shows each one that is left, its outer contour and its holes in a line each. */
#include <i_shape.h>
#include <stdio.h>

enum { POINTS = 18, CONTOUR_OFFSETS = 6, SHAPE_OFFSETS = 3 };

int main(void) {
    const i_shape_point_i32 points[POINTS] = {
        {0, 0}, {5, 0}, {9, 0}, {9, 9}, {0, 9}, /* an outer contour with a point on an edge */
        {1, 1}, {1, 3}, {3, 3}, {3, 1},         /* its first hole */
        {5, 5}, {6, 6}, {7, 7},                 /* its second hole has no area: it collapses */
        {20, 0}, {25, 0}, {30, 0},              /* another outer contour: it collapses, with its hole */
        {22, 0}, {23, 1}, {24, 0},
    };
    const size_t contours[CONTOUR_OFFSETS] = {0, 5, 9, 12, 15, 18};
    const size_t shapes[SHAPE_OFFSETS] = {0, 3, 5};
    i_shape_point_i32 left[POINTS];
    size_t left_contours[CONTOUR_OFFSETS], left_shapes[SHAPE_OFFSETS];
    ptrdiff_t count = i_shape_simplify_shapes_i32(points, POINTS, contours, CONTOUR_OFFSETS, shapes, SHAPE_OFFSETS,
        left, POINTS, left_contours, CONTOUR_OFFSETS, left_shapes, SHAPE_OFFSETS);
    if (count < 0) return 1;
    for (ptrdiff_t shape = 0; shape < count; shape++) {
        for (size_t contour = left_shapes[shape]; contour < left_shapes[shape + 1]; contour++) {
            fputs(contour == left_shapes[shape] ? "outer:" : "hole:", stdout);
            for (size_t at = left_contours[contour]; at < left_contours[contour + 1]; at++) printf(" (%d, %d)", (int)left[at].x, (int)left[at].y);
            puts("");
        }
    }
    return 0;
}
