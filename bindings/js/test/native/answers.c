/* Reads contours from standard input, each a line: how many points, a point to ask about, and the points. Writes what the library returns of each and, as
 * rings and as polygons, of all that are safe together. The width is WIDTH: 16, 32 or 64. native.test.js writes the same by the WebAssembly modules. */
#include <i_shape.h>
#include <inttypes.h>
#include <stdio.h>
#include <stdlib.h>

#define JOINED(a, b, c) a##b##c
#define JOIN(a, b, c) JOINED(a, b, c)
#define CALL(name) JOIN(i_shape_##name, _i, WIDTH)

typedef JOIN(i_shape_point, _i, WIDTH) point;
typedef JOIN(int, WIDTH, _t) coordinate;

enum { MOST_POINTS = 1000, MOST_RINGS = 1 << 15 };

static void print_points(const char *name, ptrdiff_t answer, const point *points) {
    printf("%s %td", name, answer);
    for (ptrdiff_t k = 0; k < answer; k++) printf(" %" PRId64 " %" PRId64, (int64_t)points[k].x, (int64_t)points[k].y);
    printf("\n");
}

static void print_offsets(const size_t *offsets, size_t count) {
    for (size_t k = 0; k < count; k++) printf("%zu ", offsets[k]);
    printf("\n");
}

/* Twice the area in units of half a square, as the two halves of 128 bits where it has as many. */
static void print_area(const point *points, size_t count) {
#if WIDTH == 64
    i_shape_halves area;
    if (CALL(area_two)(points, count, &area)) printf("area %" PRIx64 " %" PRIx64 "\n", area.high, area.low);
#else
    JOIN(int, WIDTH_TWICE, _t) area;
    if (CALL(area_two)(points, count, &area)) printf("area %" PRId64 "\n", (int64_t)area);
#endif
    else printf("area none\n");
}

static void answer_one(const point *given, size_t count, point asked) {
    static point out[MOST_POINTS];
    print_points("simplify", CALL(simplify)(given, count, out, count), out);
    print_points("despike", CALL(despike)(given, count, out, count), out);
    print_points("canonical", CALL(canonical)(given, count, out, count), out);
    print_points("canonicalUnoriented", CALL(canonical_unoriented)(given, count, out, count), out);
    print_area(given, count);
    printf("tests %d %d %d %d\n", (int)CALL(is_safe)(given, count), (int)CALL(is_simple)(given, count), (int)CALL(has_no_spikes)(given, count),
           (int)CALL(is_convex)(given, count));
    ptrdiff_t winding = CALL(winding)(given, count, asked.x, asked.y);
    printf("about %d ", (int)CALL(contains)(given, count, asked.x, asked.y));
    if (winding == I_SHAPE_NO_WINDING) printf("none\n");
    else printf("%td\n", winding);
}

/* All rings that are safe, end to end, and the polygons that they are taken for: of one, two and three rings in turn. */
static point *points, *left;
static size_t count, rings, polygons;
static size_t ring_offsets[MOST_RINGS], polygon_offsets[MOST_RINGS], left_rings[MOST_RINGS], left_polygons[MOST_RINGS];

static void add_ring(const point *given, size_t given_count) {
    points = realloc(points, (count + given_count + 1) * sizeof *points);
    if (!points || rings + 2 > MOST_RINGS) abort();
    for (size_t k = 0; k < given_count; k++) points[count++] = given[k];
    ring_offsets[++rings] = count;
    if (rings - polygon_offsets[polygons] > polygons % 3) polygon_offsets[++polygons] = rings;
}

typedef ptrdiff_t (*clean_rings)(const point *, size_t, const size_t *, size_t, point *, size_t, size_t *, size_t);
typedef ptrdiff_t (*clean_polygons)(const point *, size_t, const size_t *, size_t, const size_t *, size_t, point *, size_t, size_t *, size_t, size_t *, size_t);

static void answer_rings(const char *name, clean_rings call) {
    print_points(name, call(points, count, ring_offsets, rings + 1, left, count, left_rings, rings + 1), left);
    print_offsets(left_rings, rings + 1);
}

static void answer_polygons(const char *name, clean_polygons call) {
    ptrdiff_t answer = call(points, count, ring_offsets, rings + 1, polygon_offsets, polygons + 1, left, count, left_rings, rings + 1, left_polygons, polygons + 1);
    if (answer < 0) abort();
    size_t ring_count = left_polygons[answer];
    print_points(name, (ptrdiff_t)left_rings[ring_count], left);
    print_offsets(left_rings, ring_count + 1);
    print_offsets(left_polygons, (size_t)answer + 1);
}

static void answer_windings(void) {
    static ptrdiff_t numbers[MOST_POINTS];
    const size_t about = count < 100 ? count : 100;
    if (CALL(windings)(points, count, ring_offsets, rings + 1, points, about, numbers, about) < 0) abort();
    for (size_t k = 0; k < about; k++) printf("%td ", numbers[k]);
    printf("\n");
}

int main(void) {
    size_t given_count;
    int64_t x, y;
    static point given[MOST_POINTS];
    while (scanf("%zu %" SCNd64 " %" SCNd64, &given_count, &x, &y) == 3) {
        const point asked = {(coordinate)x, (coordinate)y};
        if (given_count > MOST_POINTS) abort();
        for (size_t k = 0; k < given_count; k++) {
            if (scanf("%" SCNd64 " %" SCNd64, &x, &y) != 2) abort();
            given[k] = (point){(coordinate)x, (coordinate)y};
        }
        answer_one(given, given_count, asked);
        if (CALL(is_safe)(given, given_count)) add_ring(given, given_count);
    }
    left = malloc((count + 1) * sizeof *left);
    if (!left) abort();
    answer_rings("simplify", CALL(simplify_contours));
    answer_rings("despike", CALL(despike_contours));
    answer_rings("canonical", CALL(canonical_contours));
    answer_rings("canonicalUnoriented", CALL(canonical_unoriented_contours));
    answer_polygons("simplify", CALL(simplify_shapes));
    answer_polygons("despike", CALL(despike_shapes));
    answer_polygons("canonical", CALL(canonical_shapes));
    answer_polygons("canonicalUnoriented", CALL(canonical_unoriented_shapes));
    answer_windings();
    return 0;
}
