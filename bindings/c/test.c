/* Tests of the C library: worked contours by each call and width, each code, each growth of memory failing in turn, and four threads.
 * It is C11 and C++17. The allocator is this program's own, in place of the archive's. */
#define _DEFAULT_SOURCE /* for MAP_ANONYMOUS */
#include "i_shape.h"

#include <pthread.h>
#include <stdio.h>
#include <stdlib.h>
#include <string.h>
#ifdef __unix__
#include <sys/mman.h>
#include <unistd.h>
#endif

static int passed, failed;

static void check(int holds, int width, const char *call, const char *what) {
    if (holds) {
        passed++;
    } else {
        failed++;
        printf("failed: %s at %d bits: %s\n", call, width, what);
    }
}

/* Memory that is written can be told from memory that is not. */
static void fill(void *at, size_t size) {
    memset(at, 0x5a, size);
}

static int is_filled(const void *at, size_t size) {
    const unsigned char *bytes = (const unsigned char *)at;
    for (size_t k = 0; k < size; k++)
        if (bytes[k] != 0x5a) return 0;
    return 1;
}

#if defined OWN_ALLOCATOR || defined WRAPPED_MALLOC
#define FAILS_GROWTHS
/* The growth of this number fails; none at 0. asked: how many bytes all growths so far have asked for. */
static size_t failing, growths, blocks, asked;
#endif

#ifdef OWN_ALLOCATOR
#include "allocator.h"

struct tried rattle_alloc(size_t size, size_t align) {
    asked += size;
    void *at = ++growths == failing ? NULL : malloc(size ? size : align);
    if (at) blocks++;
    return tried(at);
}

struct tried rattle_realloc(void *before, size_t kept, size_t size, size_t align) {
    asked += size - kept;
    return tried(++growths == failing ? NULL : realloc(before, size ? size : align));
}

void rattle_dealloc(void *at) {
    blocks--;
    free(at);
}
#endif

#ifdef WRAPPED_MALLOC
/* The linker puts these in place of the allocator's malloc, realloc and free, by its word --wrap. */
void *__real_malloc(size_t size);
void *__real_realloc(void *at, size_t size);
void __real_free(void *at);
void *__wrap_malloc(size_t size);
void *__wrap_realloc(void *at, size_t size);
void __wrap_free(void *at);

void *__wrap_malloc(size_t size) {
    asked += size;
    void *at = ++growths == failing ? NULL : __real_malloc(size);
    if (at) blocks++;
    return at;
}

void *__wrap_realloc(void *at, size_t size) {
    asked += size;
    return ++growths == failing ? NULL : __real_realloc(at, size);
}

void __wrap_free(void *at) {
    blocks--;
    __real_free(at);
}
#endif

#ifdef FAILS_GROWTHS
enum { MOST_GROWTHS = 32 };

#define WITH_EACH_GROWTH_FAILED(CALLED, IS_KEPT, GROWS, WIDTH, NAME) \
    do { \
        long long answer = I_SHAPE_NO_MEMORY; \
        for (failing = 1; answer == I_SHAPE_NO_MEMORY && failing <= MOST_GROWTHS; failing++) { \
            growths = 0; \
            answer = (CALLED); \
            check(blocks == 0, WIDTH, NAME, "a block is lost"); \
            check(answer != I_SHAPE_NO_MEMORY || (IS_KEPT), WIDTH, NAME, "what a failed growth leaves"); \
            check((answer == I_SHAPE_NO_MEMORY) == (growths >= failing), WIDTH, NAME, "a failed growth is reported"); \
        } \
        check(answer >= 0, WIDTH, NAME, "it is done where no growth fails"); \
        check(GROWS, WIDTH, NAME, "how often memory is taken"); \
        failing = 0; \
    } while (0)
#else
#define WITH_EACH_GROWTH_FAILED(CALLED, IS_KEPT, GROWS, WIDTH, NAME) check((CALLED) >= 0, WIDTH, NAME, "it is done")
#endif

#include "rows.h"

#define W 16
#define AREA int32_t
#define AREA_IS(area, expected) ((area) == (expected))
#include "width.h"

#define W 32
#define AREA int64_t
#define AREA_IS(area, expected) ((area) == (expected))
#include "width.h"

#define W 64
#define AREA i_shape_halves
#define AREA_IS(area, expected) ((area).low == (uint64_t)(expected) && (area).high == ((expected) < 0 ? UINT64_MAX : 0))
#include "width.h"

/* The first bad offset: at a step back, above the points, at the start, nowhere, and where there is none. */
static void test_bad_offsets(void) {
    const size_t offsets[5] = {0, 3, 2, 9, 9};
    check(i_shape_first_bad_offset(9, offsets, 5) == 2, 0, "first_bad_offset", "an offset that runs backwards");
    check(i_shape_first_bad_offset(8, offsets + 2, 3) == 1, 0, "first_bad_offset", "an offset out of the points");
    check(i_shape_first_bad_offset(8, offsets + 3, 2) == 0, 0, "first_bad_offset", "the first offset out of the points");
    check(i_shape_first_bad_offset(9, offsets + 2, 3) == 3, 0, "first_bad_offset", "each offset is right");
    check(i_shape_first_bad_offset(9, offsets, 0) == 0, 0, "first_bad_offset", "no offset");
}

/* Which polygons and contours are left of one with a hole that collapses, one with a hole whose outer contour collapses, one without contours, one whose only
 * contour collapses, and a triangle. */
static void test_compact(void) {
    static const size_t contours[8] = {2, 6, 6, 9, 9, 12, 12, 15}, shapes[6] = {0, 3, 5, 5, 6, 7};
    static const size_t left_contours[3] = {0, 2, 6}, left_shapes[3] = {0, 2, 4}, left_offsets[4] = {0, 2, 2, 3};
    static const size_t falling[2] = {1, 0}, beyond[2] = {0, 8};
    size_t out_contours[7], out_shapes[5], out_offsets[6];
    const struct { const size_t *contours, *shapes; size_t contour_count, shape_count, contour_room, shape_room, offset_room; ptrdiff_t code; const char *what; } wrong_calls[] = {
        {contours, shapes, 0, 6, 7, 5, 6, I_SHAPE_BAD_OFFSETS, "no offset of contours"},
        {contours, shapes, 8, 0, 7, 5, 6, I_SHAPE_BAD_OFFSETS, "no offset of polygons"},
        {falling, shapes, 2, 1, 7, 5, 6, I_SHAPE_BAD_OFFSETS, "contours that run backwards"},
        {contours, falling, 8, 2, 7, 5, 6, I_SHAPE_BAD_OFFSETS, "polygons that run backwards"},
        {contours, beyond, 8, 2, 7, 5, 6, I_SHAPE_BAD_OFFSETS, "polygons out of the contours"},
        {contours, beyond, 8, 2, 0, 0, 0, I_SHAPE_BAD_OFFSETS, "offsets before room"},
        {contours, shapes, 8, 6, 6, 5, 6, I_SHAPE_NO_ROOM, "no room for contours"},
        {contours, shapes, 8, 6, 7, 4, 6, I_SHAPE_NO_ROOM, "no room for polygons"},
        {contours, shapes, 8, 6, 7, 5, 5, I_SHAPE_NO_ROOM, "no room for offsets"}
    };
    fill(out_contours, sizeof out_contours);
    fill(out_shapes, sizeof out_shapes);
    fill(out_offsets, sizeof out_offsets);
    for (size_t k = 0; k < sizeof wrong_calls / sizeof *wrong_calls; k++) {
        const ptrdiff_t code = i_shape_compact_shapes(wrong_calls[k].contours, wrong_calls[k].contour_count, wrong_calls[k].shapes, wrong_calls[k].shape_count,
                                                      out_contours, wrong_calls[k].contour_room, out_shapes, wrong_calls[k].shape_room, out_offsets, wrong_calls[k].offset_room);
        check(code == wrong_calls[k].code, 0, "compact", wrong_calls[k].what);
        check(is_filled(out_contours, sizeof out_contours) && is_filled(out_shapes, sizeof out_shapes) && is_filled(out_offsets, sizeof out_offsets), 0, "compact", "what a code leaves");
    }
    check(i_shape_compact_shapes(contours, 8, shapes, 6, out_contours, 7, out_shapes, 5, out_offsets, 6) == 3, 0, "compact", "how many are left");
    check(memcmp(out_contours, left_contours, sizeof left_contours) == 0 && is_filled(out_contours + 3, sizeof out_contours - sizeof left_contours), 0, "compact", "contours");
    check(memcmp(out_shapes, left_shapes, sizeof left_shapes) == 0 && is_filled(out_shapes + 3, sizeof out_shapes - sizeof left_shapes), 0, "compact", "polygons");
    check(memcmp(out_offsets, left_offsets, sizeof left_offsets) == 0 && is_filled(out_offsets + 4, sizeof out_offsets - sizeof left_offsets), 0, "compact", "offsets");
    check(i_shape_compact_shapes(contours, 1, shapes, 1, out_contours, 0, out_shapes, 0, out_offsets, 1) == 0 && out_offsets[0] == 0, 0, "compact", "no polygon");
}

/* Each third of many polygons collapses, with its hole. */
static void test_compact_many(void) {
    enum { POLYGONS = 3000 };
    static size_t contours[2 * POLYGONS + 1], shapes[POLYGONS + 1], out_contours[2 * POLYGONS], out_shapes[POLYGONS], out_offsets[POLYGONS + 1];
    int are_left = 1;
    for (size_t k = 0; k < POLYGONS; k++) {
        contours[2 * k + 1] = contours[2 * k] + (k % 3 ? 3 : 0);
        contours[2 * k + 2] = contours[2 * k + 1] + 3;
        shapes[k + 1] = 2 * (k + 1);
    }
    check(i_shape_compact_shapes(contours, 2 * POLYGONS + 1, shapes, POLYGONS + 1, out_contours, 2 * POLYGONS, out_shapes, POLYGONS, out_offsets, POLYGONS + 1) == 2 * POLYGONS / 3, 0, "compact", "how many of many");
    for (size_t k = 0; k < 2 * POLYGONS / 3; k++) {
        const size_t polygon = 3 * (k / 2) + 1 + k % 2;
        are_left &= out_shapes[k] == polygon && out_offsets[k + 1] == 2 * (k + 1) && out_contours[2 * k] == 2 * polygon && out_contours[2 * k + 1] == 2 * polygon + 1;
    }
    check(are_left, 0, "compact", "each of many");
}

/* A square of 2^61 by 2^61 has a double area of 2^123. */
static void test_great_area(void) {
    const int64_t side = INT64_C(1) << 61;
    const i_shape_point_i64 square[4] = {{0, 0}, {side, 0}, {side, side}, {0, side}};
    i_shape_halves area;
    check(i_shape_area_two_i64(square, 4, &area) && area.low == 0 && area.high == UINT64_C(1) << 59, 64, "area_two", "a great square");
}

/* The numbers that halves stand for. Halfway between two doubles, that with the last bit 0 is taken. */
static void test_halves(void) {
    static const struct { i_shape_halves halves; double number; } told[] = {
        {{0, 0}, 0}, {{1, 0}, 1}, {{UINT64_MAX, UINT64_MAX}, -1}, {{0, UINT64_C(1) << 59}, 0x1p123}, {{0, UINT64_C(1) << 63}, -0x1p127},
        {{UINT64_MAX, 0}, 0x1p64}, {{2048, 1}, 0x1p64}, {{2049, 1}, 0x1.0000000000001p64}, {{6144, 1}, 0x1.0000000000002p64},
        {{1, UINT64_C(1) << 11}, 0x1p75}, {{UINT64_MAX - 2048, UINT64_MAX - 1}, -0x1.0000000000001p64}
    };
    for (size_t k = 0; k < sizeof told / sizeof *told; k++) {
        const i_shape_halves halves = told[k].halves;
        check(i_shape_halves_to_double(halves) >= told[k].number && i_shape_halves_to_double(halves) <= told[k].number, 64, "halves", "as a double");
#ifdef __SIZEOF_INT128__
        const i_shape_int128 number = i_shape_halves_to_int128(halves);
        check((uint64_t)number == halves.low && (uint64_t)(number >> 64) == halves.high, 64, "halves", "as a whole number");
#endif
    }
}

#ifndef FAILS_GROWTHS
enum { THREADS = 4, POINTS = 20000, TURNS = 20 };

static i_shape_point_i32 shared[POINTS], expected[POINTS], answers[THREADS][POINTS];
static ptrdiff_t expected_count, counts[THREADS];

static void *clean_often(void *number) {
    size_t own = *(const size_t *)number;
    for (int turn = 0; turn < TURNS; turn++) counts[own] = i_shape_simplify_i32(shared, POINTS, answers[own], POINTS);
    return NULL;
}

static void test_threads(void) {
    pthread_t threads[THREADS];
    size_t numbers[THREADS];
    for (int k = 0; k < POINTS; k++) {
        shared[k].x = k * 7919 % 5 + k / 9;
        shared[k].y = k * 104729 % 7;
    }
    expected_count = i_shape_simplify_i32(shared, POINTS, expected, POINTS);
    for (size_t k = 0; k < THREADS; k++) {
        numbers[k] = k;
        if (pthread_create(&threads[k], NULL, clean_often, &numbers[k]) != 0) abort();
    }
    for (size_t k = 0; k < THREADS; k++) {
        pthread_join(threads[k], NULL);
        check(expected_count > 0 && counts[k] == expected_count && memcmp(answers[k], expected, (size_t)expected_count * sizeof *expected) == 0,
              32, "simplify", "side by side");
    }
}
#else
static void test_threads(void) {}
#endif

int main(void) {
    check(i_shape_version() == I_SHAPE_VERSION, 0, "version", "of the archive and of the header");
    test_width_i16();
    test_width_i32();
    test_width_i64();
    test_bad_offsets();
    test_compact();
    test_compact_many();
    test_great_area();
    test_halves();
    test_threads();
    printf("%d passed, %d failed\n", passed, failed);
    return failed != 0;
}
