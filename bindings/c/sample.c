#include <i_shape.h>
#include <stdio.h>

int main(void) {
    const i_shape_point_i32 contour[] = {{0, 0}, {2, 0}, {4, 0}, {4, 4}, {0, 4}};
    i_shape_point_i32 left[5];
    ptrdiff_t count = i_shape_simplify_i32(contour, 5, left, 5);
    for (ptrdiff_t k = 0; k < count; k++) printf("%d %d\n", (int)left[k].x, (int)left[k].y);
    return count < 0;
}
