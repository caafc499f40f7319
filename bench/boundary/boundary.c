/* What a call of the C library takes beside the same call in Rattle: the least times of many samples, taken in turn. */
#include <i_shape.h>
#include <stdio.h>
#include <time.h>

#define CORE(W) uint64_t core_clean_i##W(const i_shape_point_i##W *points, size_t count, size_t call, size_t rounds);
CORE(16)
CORE(32)
CORE(64)

enum { MOST = 1000, SAMPLES = 61, POINTS = 200000 };

static double now(void) {
    struct timespec t;
    clock_gettime(CLOCK_MONOTONIC, &t);
    return (double)t.tv_sec * 1e9 + (double)t.tv_nsec;
}

static const char *const names[] = {"simplify", "despike", "canonical"};

/* A saw, closed by a last point: no turn is zero, so that each point is copied out again. */
#define WIDTH(W) \
    static void fill_i##W(i_shape_point_i##W *points, size_t count) { \
        for (size_t k = 0; k + 1 < count; k++) { \
            points[k].x = (int##W##_t)(8 * (int)k); \
            points[k].y = (int##W##_t)(k % 2); \
        } \
        points[count - 1].x = (int##W##_t)(4 * (int)count); \
        points[count - 1].y = 1000; \
    } \
    static ptrdiff_t clean_i##W(size_t call, const i_shape_point_i##W *points, size_t count, i_shape_point_i##W *out) { \
        if (call == 0) return i_shape_simplify_i##W(points, count, out, count); \
        if (call == 1) return i_shape_despike_i##W(points, count, out, count); \
        return i_shape_canonical_i##W(points, count, out, count); \
    } \
    static int measure_i##W(size_t call, size_t count) { \
        static i_shape_point_i##W points[MOST], out[MOST]; \
        size_t rounds = POINTS / count; \
        double core = 1e18, whole = 1e18, safe = 1e18; \
        fill_i##W(points, count); \
        for (int sample = 0; sample < SAMPLES; sample++) { \
            uint64_t left = 0; \
            double start = now(); \
            uint64_t wanted = core_clean_i##W(points, count, call, rounds); \
            double between = now(); \
            for (size_t k = 0; k < rounds; k++) left += (uint64_t)clean_i##W(call, points, count, out); \
            double end = now(); \
            for (size_t k = 0; k < rounds; k++) left += (uint64_t)i_shape_is_safe_i##W(points, count) - 1; \
            double last = now(); \
            if (left != wanted || left != rounds * count) return printf("%s i" #W ": another answer\n", names[call]), 1; \
            if (between - start < core) core = between - start; \
            if (end - between < whole) whole = end - between; \
            if (last - end < safe) safe = last - end; \
        } \
        printf("%-9s i%d %4zu points: %8.1f ns in Rattle, %8.1f ns from C, %+4.0f %%, of which the test of the points %.0f %%\n", names[call], W, count, \
               core / (double)rounds, whole / (double)rounds, 100 * (whole - core) / core, 100 * safe / core); \
        return 0; \
    }

WIDTH(16)
WIDTH(32)
WIDTH(64)

int main(void) {
    int failed = 0;
    for (size_t call = 0; call < 3; call++)
        for (size_t count = 10; count <= MOST; count *= 100) {
            failed |= measure_i16(call, count);
            failed |= measure_i32(call, count);
            failed |= measure_i64(call, count);
        }
    return failed;
}
