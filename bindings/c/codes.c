#include <i_shape.h>
#include <stdio.h>

enum { ROOM = 4 };

static void clean(const i_shape_point_i16 *points, size_t count) {
    i_shape_point_i16 left[ROOM];
    ptrdiff_t answer = i_shape_simplify_i16(points, count, left, ROOM);
    switch (answer) {
    case I_SHAPE_UNSAFE: puts("a coordinate is out of the safe range: scale down, or take 32 bits"); break;
    case I_SHAPE_NO_ROOM: puts("there is no room for so many points"); break;
    case I_SHAPE_NO_MEMORY: puts("there is no memory for it"); break;
    case 0: puts("nothing is left: it encloses no area"); break;
    default: printf("%d points are left\n", (int)answer);
    }
}

int main(void) {
    clean((const i_shape_point_i16[]){{0, 0}, {2, 0}, {4, 0}, {4, 4}}, 4);
    clean((const i_shape_point_i16[]){{0, 0}, {4, 4}, {8, 8}}, 3);
    clean((const i_shape_point_i16[]){{0, 0}, {20000, 0}, {4, 4}}, 3);
    clean((const i_shape_point_i16[]){{0, 0}, {2, 0}, {4, 0}, {4, 4}, {0, 4}}, 5);
    return 0;
}
