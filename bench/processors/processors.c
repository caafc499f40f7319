/* processors DEFAULT OTHER: nanoseconds a point of the same calls in two shared libraries, the least of many samples, taken in turn. */
#include <dlfcn.h>
#include <i_shape.h>
#include <stdio.h>
#include <stdlib.h>
#include <time.h>

enum { COUNT = 1000, SAMPLES = 101, ROUNDS = 100, LIBRARIES = 2 };

static void *libraries[LIBRARIES];

static double now(void) {
    struct timespec t;
    clock_gettime(CLOCK_MONOTONIC, &t);
    return (double)t.tv_sec * 1e9 + (double)t.tv_nsec;
}

/* A saw, none of whose points goes; or steps, of whose points each second one lies on an edge. */
static void place(int is_clean, int k, int *x, int *y) {
    *x = is_clean ? 8 * k : 4 * ((k + 2) / 4) + 2 * (k % 4 == 1);
    *y = is_clean ? k % 2 : 4 * (k / 4) + 2 * (k % 4 == 3);
}

#define WIDTH(W) \
    typedef ptrdiff_t (*clean_i##W)(const i_shape_point_i##W *, size_t, i_shape_point_i##W *, size_t); \
    static double sample_i##W(clean_i##W call, const i_shape_point_i##W *points, ptrdiff_t *left) { \
        static i_shape_point_i##W out[COUNT]; \
        double start = now(); \
        for (int round = 0; round < ROUNDS; round++) *left = call(points, COUNT, out, COUNT); \
        return (now() - start) / ROUNDS / COUNT; \
    } \
    static void measure_i##W(const char *name, int is_clean) { \
        static i_shape_point_i##W points[COUNT]; \
        char symbol[64]; \
        double least[LIBRARIES] = {1e18, 1e18}; \
        ptrdiff_t left[LIBRARIES]; \
        for (int k = 0; k < COUNT; k++) { \
            int x, y; \
            place(is_clean, k, &x, &y); \
            points[k].x = (int##W##_t)x; \
            points[k].y = (int##W##_t)y; \
        } \
        snprintf(symbol, sizeof symbol, "i_shape_%s_i" #W, name); \
        for (int sample = 0; sample < SAMPLES; sample++) \
            for (int k = 0; k < LIBRARIES; k++) { \
                double taken = sample_i##W((clean_i##W)dlsym(libraries[k], symbol), points, &left[k]); \
                if (taken < least[k]) least[k] = taken; \
            } \
        if (left[0] != left[1]) abort(); \
        printf("%-9s %-5s i%d %4td of %d left: %6.2f and %6.2f ns\n", name, is_clean ? "clean" : "dirty", W, left[0], COUNT, least[0], least[1]); \
    }

WIDTH(16)
WIDTH(32)
WIDTH(64)

int main(int count, char **words) {
    static const char *const names[] = {"simplify", "despike", "canonical"};
    if (count != LIBRARIES + 1) return 2;
    for (int k = 0; k < LIBRARIES; k++)
        if (!(libraries[k] = dlopen(words[k + 1], RTLD_NOW | RTLD_LOCAL))) return fprintf(stderr, "%s\n", dlerror()), 2;
    for (int k = 0; k < 3; k++)
        for (int is_clean = 1; is_clean >= 0; is_clean--) {
            measure_i16(names[k], is_clean);
            measure_i32(names[k], is_clean);
            measure_i64(names[k], is_clean);
        }
    return 0;
}
