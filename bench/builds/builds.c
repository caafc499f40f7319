/*
 * builds LIBRARY..
 *
 * Times the calls of C at the width WIDTH in each of the shared libraries, in turn, and prints rows: width, call, contour, points, and for each library nanoseconds
 * a point, the least of the samples; of calls about many points, nanoseconds a pair of a point and an edge. A dash: the library has no such call. A `!` after a row
 * says that the libraries return different numbers.
 */
#define _GNU_SOURCE
#include "i_shape.h"
#include <dlfcn.h>
#include <math.h>
#include <stdint.h>
#include <stdio.h>
#include <stdlib.h>
#include <string.h>
#include <time.h>

#define JOINED_(a, b) a##b
#define JOINED(a, b) JOINED_(a, b)
#define TEXT_(a) #a
#define TEXT(a) TEXT_(a)
typedef JOINED(i_shape_point_i, WIDTH) point;
typedef JOINED(JOINED(int, WIDTH), _t) number;

enum { MOST_LIBRARIES = 8, SAMPLES = 25, SAMPLE_NS = 100000, LONGEST = 1000, CONTOURS = 10, ABOUT = 100 };

typedef ptrdiff_t clean_call(const point *, size_t, point *, size_t);
typedef ptrdiff_t contours_call(const point *, size_t, const size_t *, size_t, point *, size_t, size_t *, size_t);
typedef ptrdiff_t shapes_call(const point *, size_t, const size_t *, size_t, const size_t *, size_t, point *, size_t, size_t *, size_t, size_t *, size_t);
typedef int32_t test_call(const point *, size_t);
typedef size_t index_call(const point *, size_t);
typedef int32_t contains_call(const point *, size_t, number, number);
typedef int32_t rule_call(const point *, size_t, number, number, int32_t);
typedef ptrdiff_t winding_call(const point *, size_t, number, number);
typedef _Bool area_call(const point *, size_t, int64_t *);
typedef int32_t tests_call(const point *, size_t, const size_t *, size_t, void *, size_t);
typedef int32_t windings_call(const point *, size_t, const size_t *, size_t, const point *, size_t, ptrdiff_t *, size_t);
typedef int32_t about_call(const point *, size_t, const size_t *, size_t, const point *, size_t, int32_t, void *, size_t);

typedef enum { CLEANS, CLEANS_CONTOURS, CLEANS_SHAPES, TESTS, FINDS, CONTAINS, BY_RULE, WINDS, MEASURES, TESTS_CONTOURS, WINDS_ABOUT, ABOUT_BY_RULE } kind;

static const struct {
    const char *name;
    kind kind;
} calls[] = {
    {"simplify", CLEANS}, {"despike", CLEANS}, {"canonical", CLEANS}, {"canonical_unoriented", CLEANS},
    {"is_simple", TESTS}, {"has_no_spikes", TESTS}, {"is_convex", TESTS}, {"is_safe", TESTS}, {"first_unsafe", FINDS},
    {"contains", CONTAINS}, {"contains_by", BY_RULE}, {"winding", WINDS}, {"area_two", MEASURES},
    {"simplify_contours", CLEANS_CONTOURS}, {"despike_contours", CLEANS_CONTOURS}, {"canonical_contours", CLEANS_CONTOURS},
    {"canonical_unoriented_contours", CLEANS_CONTOURS}, {"simplify_shapes", CLEANS_SHAPES}, {"despike_shapes", CLEANS_SHAPES},
    {"canonical_shapes", CLEANS_SHAPES}, {"canonical_unoriented_shapes", CLEANS_SHAPES},
    {"is_simple_contours", TESTS_CONTOURS}, {"has_no_spikes_contours", TESTS_CONTOURS}, {"is_convex_contours", TESTS_CONTOURS},
    {"is_safe_contours", TESTS_CONTOURS}, {"area_two_contours", TESTS_CONTOURS},
    {"windings", WINDS_ABOUT}, {"contains_points", ABOUT_BY_RULE}, {"locate", ABOUT_BY_RULE},
};

/* CONTOURS contours of n points each, which the calls on one contour take the first of. */
static point points[CONTOURS * LONGEST], out[CONTOURS * LONGEST], about[ABOUT];
static size_t n, offsets[CONTOURS + 1], shapes[3] = {0, CONTOURS / 2, CONTOURS}, out_offsets[CONTOURS + 1], out_shapes[3];
static int64_t areas[2 * ABOUT];
static ptrdiff_t windings[ABOUT];

static int64_t called(kind how, void *call) {
    size_t all = CONTOURS * n;
    switch (how) {
    case CLEANS: return ((clean_call *)call)(points, n, out, n);
    case CLEANS_CONTOURS: return ((contours_call *)call)(points, all, offsets, CONTOURS + 1, out, all, out_offsets, CONTOURS + 1);
    case CLEANS_SHAPES:
        return ((shapes_call *)call)(points, all, offsets, CONTOURS + 1, shapes, 3, out, all, out_offsets, CONTOURS + 1, out_shapes, 3);
    case TESTS: return ((test_call *)call)(points, n);
    case FINDS: return (int64_t)((index_call *)call)(points, n);
    case CONTAINS: return ((contains_call *)call)(points, n, 3, 5);
    case BY_RULE: return ((rule_call *)call)(points, n, 3, 5, I_SHAPE_NONZERO);
    case WINDS: return ((winding_call *)call)(points, n, 3, 5);
    case MEASURES: return ((area_call *)call)(points, n, areas);
    case TESTS_CONTOURS: return ((tests_call *)call)(points, all, offsets, CONTOURS + 1, areas, CONTOURS);
    case WINDS_ABOUT: return ((windings_call *)call)(points, n, offsets, 2, about, ABOUT, windings, ABOUT);
    case ABOUT_BY_RULE: return ((about_call *)call)(points, n, offsets, 2, about, ABOUT, I_SHAPE_NONZERO, windings, ABOUT);
    }
    return 0;
}

/* How many points, or pairs, a call takes. */
static size_t taken(kind how) {
    switch (how) {
    case CLEANS_CONTOURS: case CLEANS_SHAPES: case TESTS_CONTOURS: return CONTOURS * n;
    case WINDS_ABOUT: case ABOUT_BY_RULE: return ABOUT * n;
    default: return n;
    }
}

static double now(void) {
    struct timespec t;
    clock_gettime(CLOCK_MONOTONIC, &t);
    return (double)t.tv_sec * 1e9 + (double)t.tv_nsec;
}

static volatile int64_t sink;

static double sample(kind how, void *call, size_t rounds) {
    double start = now();
    for (size_t k = 0; k < rounds; k++) sink = called(how, call);
    return (now() - start) / (double)rounds;
}

/* A star that never runs straight on, or a circle; if dirty, of five points one repeats the one before it, or goes back. */
static void make(int is_circle, int is_dirty) {
    double radius = WIDTH == 16 ? 16000 : WIDTH == 32 ? 1e9 : 4e18;
    for (size_t k = 0; k < CONTOURS * n; k++) {
        double angle = 6.283185307179586 * (double)(k % n) / (double)n, r = is_circle ? radius : radius * (k % 2 ? 0.8 : 0.9);
        points[k] = (point){(number)(r * cos(angle)), (number)(r * sin(angle))};
        if (is_dirty && k % n > 2 && k % 5 == 2) points[k] = points[k - 1 - k % 2];
    }
    for (size_t k = 0; k <= CONTOURS; k++) offsets[k] = k * n;
    for (size_t k = 0; k < ABOUT; k++) about[k] = (point){(number)(radius / ABOUT * (double)k * cos((double)k)), (number)(radius / ABOUT * (double)k * sin((double)k))};
}

static void row(size_t which, const char *contour, void **libraries, int count) {
    char symbol[80];
    void *call[MOST_LIBRARIES];
    double least[MOST_LIBRARIES];
    int64_t first = 0;
    int differs = 0;
    kind how = calls[which].kind;
    snprintf(symbol, sizeof symbol, "i_shape_%s_i" TEXT(WIDTH), calls[which].name);
    for (int l = 0; l < count; l++) {
        call[l] = dlsym(libraries[l], symbol);
        least[l] = INFINITY;
        if (call[l] == NULL) continue;
        int64_t answer = called(how, call[l]);
        if (l == 0) first = answer;
        differs |= answer != first;
    }
    /* a test that is false may end at its first point */
    if (how == TESTS && first == 0) return;
    size_t rounds = (size_t)(SAMPLE_NS / (sample(how, call[0], 8) + 1)) + 1;
    for (int s = 0; s < SAMPLES; s++)
        for (int l = 0; l < count; l++)
            if (call[l]) least[l] = fmin(least[l], sample(how, call[l], rounds));
    printf("i" TEXT(WIDTH) "\t%s\t%s\t%zu", calls[which].name, contour, n);
    for (int l = 0; l < count; l++)
        if (call[l]) printf("\t%.3f", least[l] / (double)taken(how));
        else printf("\t-");
    printf(differs ? "\t!\n" : "\n");
    fflush(stdout);
}

int main(int count, char **words) {
    static const size_t sizes[] = {10, LONGEST};
    void *libraries[MOST_LIBRARIES];
    if (count < 2 || count > MOST_LIBRARIES + 1) return 2;
    for (int k = 1; k < count; k++)
        if ((libraries[k - 1] = dlopen(words[k], RTLD_NOW | RTLD_LOCAL)) == NULL) return fprintf(stderr, "builds: %s\n", dlerror()), 1;
    for (size_t c = 0; c < sizeof calls / sizeof *calls; c++)
        for (size_t s = 0; s < 2; s++)
            for (int is_dirty = 0; is_dirty < 2; is_dirty++) {
                int is_circle = strncmp(calls[c].name, "is_convex", 9) == 0;
                n = sizes[s];
                make(is_circle, is_dirty);
                if (!is_dirty || calls[c].kind <= CLEANS_SHAPES) row(c, is_dirty ? "dirty" : "clean", libraries, count - 1);
            }
    return 0;
}
