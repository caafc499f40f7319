/* Cleans many contours by one call, and shows each one that is left in a line. */
#include <i_shape.h>
#include <stdio.h>

int main(void) {
    const i_shape_point_i32 points[] = {{0, 0}, {2, 0}, {4, 0}, {4, 4}, {0, 4}, /* a point on an edge */
                                        {0, 0}, {3, 3}, {6, 6},                 /* no area: it collapses */
                                        {9, 0}, {9, 5}, {4, 0}};
    const size_t offsets[] = {0, 5, 8, 11};
    i_shape_point_i32 left[11];
    size_t ends[4];
    if (i_shape_canonical_contours_i32(points, 11, offsets, 4, left, 11, ends, 4) < 0) return 1;
    for (size_t k = 0; k < 3; k++) {
        for (size_t at = ends[k]; at < ends[k + 1]; at++) printf("%s(%d, %d)", at > ends[k] ? " " : "", (int)left[at].x, (int)left[at].y);
        puts(ends[k] < ends[k + 1] ? "" : "none");
    }
    return 0;
}
