/* What bench.mjs times, by the native library: the least nanoseconds a point of many samples, of contours of which every second point lies on a line. */
#define _POSIX_C_SOURCE 200809L
#include <i_shape.h>
#include <stdio.h>
#include <time.h>

enum { MOST = 100000, SAMPLES = 150, POINTS = 200000 };

static i_shape_point_i32 points[MOST], left[MOST];
static size_t offsets[MOST / 10 + 1], left_offsets[MOST / 10 + 1];

static double now(void) {
    struct timespec at;
    clock_gettime(CLOCK_MONOTONIC, &at);
    return (double)at.tv_sec * 1e9 + (double)at.tv_nsec;
}

/* A saw, with a point in the middle of each edge. */
static void fill(i_shape_point_i32 *to, size_t count) {
    for (size_t k = 0; k < count; k++) to[k] = (i_shape_point_i32){(int32_t)(4 * k), (int32_t[]){0, 1, 2, 1}[k % 4]};
}

static ptrdiff_t clean(size_t count, int by_one_call) {
    if (!by_one_call) return i_shape_simplify_i32(points, count, left, count);
    return i_shape_simplify_contours_i32(points, MOST, offsets, MOST / count + 1, left, MOST, left_offsets, MOST / count + 1);
}

static void measure(size_t count, int by_one_call) {
    size_t each = by_one_call ? MOST : count;
    size_t rounds = POINTS / each;
    double least = 1e18;
    for (size_t k = 0; k + count <= MOST; k += count) fill(points + k, count);
    for (size_t k = 0; k <= MOST / count; k++) offsets[k] = k * count;
    for (int sample = 0; sample < SAMPLES; sample++) {
        double start = now();
        for (size_t k = 0; k < rounds; k++)
            if (clean(count, by_one_call) <= 0) return;
        double taken = (now() - start) / (double)(rounds * each);
        if (taken < least) least = taken;
    }
    printf("%zu points%s: %.1f\n", count, by_one_call ? ", many rings by one call" : "", least);
}

int main(void) {
    for (size_t count = 10; count <= MOST; count *= 100) measure(count, 0);
    measure(10, 1);
    measure(100, 1);
    return 0;
}
