/* Times the calls of this library and of GEOS on the same rings, read from standard input, a line `x y x y ..` each. Each time is the processor's, the
 * least of several runs, of one thread; what a call has given is freed outside the clock. bench/coastlines.sh builds and runs it. */
#include <geos_c.h>
#include <i_shape.h>
#include <math.h>
#include <stdbool.h>
#include <stdio.h>
#include <stdlib.h>
#include <time.h>

enum { RUNS = 7 };

typedef struct {
    i_shape_point_i32 *points, *left;
    size_t *offsets, *ends; /* one more than rings */
    size_t count, rings;
} rings;

typedef GEOSGeometry *geometry;
typedef geometry (*geos_call)(const GEOSGeometry *);

static void *kept(void *block) {
    if (block) return block;
    fputs("out of memory\n", stderr);
    exit(3);
}

static void quiet(const char *format, ...) { (void)format; }

static double now(void) {
    struct timespec at;
    clock_gettime(CLOCK_PROCESS_CPUTIME_ID, &at);
    return (double)at.tv_sec + (double)at.tv_nsec * 1e-9;
}

/* Whether to run once more: several times, and for a second. */
static bool again(int run, double begin) { return run < RUNS || now() - begin < 1; }

/* The rings of standard input. */
static rings read_rings(void) {
    rings all = {0};
    size_t room = 0, lines = 0, length = 0;
    char *line = NULL;
    while (getline(&line, &length, stdin) >= 0) {
        if (all.rings + 2 > lines) {
            lines = 2 * lines + 1024;
            all.offsets = kept(realloc(all.offsets, lines * sizeof *all.offsets));
        }
        all.offsets[all.rings++] = all.count;
        char *at = line, *end;
        for (long x = strtol(at, &end, 10); end != at; x = strtol(at, &end, 10)) {
            if (all.count == room) {
                room = 2 * room + 1024;
                all.points = kept(realloc(all.points, room * sizeof *all.points));
            }
            all.points[all.count++] = (i_shape_point_i32){(int32_t)x, (int32_t)strtol(end, &at, 10)};
        }
    }
    free(line);
    if (all.rings == 0) exit(2);
    all.offsets[all.rings] = all.count;
    all.left = kept(malloc((all.count + 1) * sizeof *all.left));
    all.ends = kept(malloc((all.rings + 1) * sizeof *all.ends));
    return all;
}

/* What is left of the rings: how many, their points, in how many a zero turn is left, and how many have another area than the ring that was given. */
typedef struct { size_t rings, points, turns, areas; } tally;

static void show(const char *name, const rings *all, double spent, tally left) {
    printf("| %s | %.1f | %.1f | %zu | %zu | %zu | %zu |\n", name, spent * 1e3, (double)all->count / spent * 1e-6, left.rings, left.points, left.turns,
           left.areas);
}

static int64_t area_two(const i_shape_point_i32 *points, size_t count) {
    int64_t area = 0;
    i_shape_area_two_i32(points, count, &area);
    return area;
}

static tally count_left(const rings *all) {
    tally sum = {.points = all->ends[all->rings]};
    for (size_t k = 0; k < all->rings; k++) {
        size_t start = all->ends[k], count = all->ends[k + 1] - start, first = all->offsets[k];
        sum.rings += count > 0;
        sum.turns += count > 0 && i_shape_is_simple_i32(all->left + start, count) != 1;
        sum.areas += area_two(all->points + first, all->offsets[k + 1] - first) != area_two(all->left + start, count);
    }
    return sum;
}

static void time_batch(const char *name, const rings *all,
                       ptrdiff_t (*call)(const i_shape_point_i32 *, size_t, const size_t *, size_t, i_shape_point_i32 *, size_t, size_t *, size_t)) {
    double least = 1e9, begin = now();
    for (int run = 0; again(run, begin); run++) {
        double start = now();
        if (call(all->points, all->count, all->offsets, all->rings + 1, all->left, all->count, all->ends, all->rings + 1) < 0) exit(1);
        double spent = now() - start;
        if (spent < least) least = spent;
    }
    show(name, all, least, count_left(all));
}

static void time_one_by_one(const char *name, const rings *all) {
    double least = 1e9, begin = now();
    for (int run = 0; again(run, begin); run++) {
        double start = now();
        size_t total = 0;
        for (size_t k = 0; k < all->rings; k++) {
            size_t first = all->offsets[k], count = all->offsets[k + 1] - first;
            all->ends[k] = total;
            ptrdiff_t left = i_shape_simplify_i32(all->points + first, count, all->left + total, count);
            if (left < 0) exit(1);
            total += (size_t)left;
        }
        all->ends[all->rings] = total;
        double spent = now() - start;
        if (spent < least) least = spent;
    }
    show(name, all, least, count_left(all));
}

/* The ring as a polygon of GEOS, which repeats the first point at the end. A polygon of GEOS has no points or at least four with that one. */
static geometry polygon(const i_shape_point_i32 *points, size_t count, double *buffer) {
    if (count < 3) return GEOSGeom_createEmptyPolygon();
    for (size_t k = 0; k <= count; k++) {
        buffer[2 * k] = points[k % count].x;
        buffer[2 * k + 1] = points[k % count].y;
    }
    GEOSCoordSequence *sequence = kept(GEOSCoordSeq_copyFromBuffer(buffer, (unsigned)count + 1, 0, 0));
    return kept(GEOSGeom_createPolygon(kept(GEOSGeom_createLinearRing(sequence)), NULL, 0));
}

/* The points of a ring of GEOS into the buffer, and how many these are without the last one. */
static size_t read_ring(const GEOSGeometry *ring, double *buffer) {
    const GEOSCoordSequence *sequence = GEOSGeom_getCoordSeq(ring);
    unsigned count = 0;
    if (!GEOSCoordSeq_getSize(sequence, &count) || !GEOSCoordSeq_copyToBuffer(sequence, buffer, 0, 0)) exit(1);
    return count > 0 ? count - 1 : 0;
}

/* Whether a ring has a zero turn. That is exact for whole numbers of the sizes here. */
static bool has_zero_turn(const double *points, size_t count) {
    for (size_t k = 0; k < count; k++) {
        const double *a = points + 2 * k, *b = points + 2 * ((k + 1) % count), *c = points + 2 * ((k + 2) % count);
        if ((b[0] - a[0]) * (c[1] - b[1]) == (b[1] - a[1]) * (c[0] - b[0])) return true;
    }
    return false;
}

/* Adds what an answer of GEOS leaves, which may be a polygon, several, one with holes, and parts without area; the area comes without its sign. */
static void count_answer(const GEOSGeometry *answer, int64_t area, double *buffer, tally *sum) {
    double after = 0;
    size_t before = sum->points;
    bool turns = false;
    GEOSArea(answer, &after);
    for (int part = 0; part < GEOSGetNumGeometries(answer); part++) {
        const GEOSGeometry *one = GEOSGetGeometryN(answer, part);
        if (GEOSGeomTypeId(one) != GEOS_POLYGON || GEOSisEmpty(one)) continue;
        for (int hole = -1; hole < GEOSGetNumInteriorRings(one); hole++) {
            size_t count = read_ring(hole < 0 ? GEOSGetExteriorRing(one) : GEOSGetInteriorRingN(one, hole), buffer);
            turns |= has_zero_turn(buffer, count);
            sum->points += count;
        }
    }
    sum->rings += sum->points > before;
    sum->turns += turns;
    sum->areas += fabs(2 * after - fabs((double)area)) > 0.25;
}

static geometry simplify(const GEOSGeometry *given) { return GEOSSimplify(given, 0); }

static geometry preserve(const GEOSGeometry *given) { return GEOSTopologyPreserveSimplify(given, 0); }

static geometry repeated(const GEOSGeometry *given) { return GEOSRemoveRepeatedPoints(given, 0); }

/* A polygon is normalized in place, so a copy is. */
static geometry normalize(const GEOSGeometry *given) {
    geometry copy = GEOSGeom_clone(given);
    if (copy && GEOSNormalize(copy) < 0) exit(1);
    return copy;
}

static void time_geos(const char *name, const rings *all, geos_call call, const geometry *polygons, geometry *answers, double *buffer) {
    double least = 1e9, begin = now();
    tally left = {0};
    for (int run = 0; again(run, begin); run++) {
        double start = now();
        for (size_t k = 0; k < all->rings; k++) answers[k] = call(polygons[k]);
        double spent = now() - start;
        if (spent < least) least = spent;
        for (size_t k = 0; k < all->rings; k++) {
            size_t first = all->offsets[k];
            if (!answers[k]) continue; /* a fault, by GEOS's custom */
            if (run == 0) count_answer(answers[k], area_two(all->points + first, all->offsets[k + 1] - first), buffer, &left);
            GEOSGeom_destroy(answers[k]);
        }
    }
    show(name, all, least, left);
}

/* What it takes to hand the rings to GEOS, and to read them back. */
static void time_ways(const rings *all, geometry *polygons, double *buffer) {
    double there = 1e9, back = 1e9, begin = now();
    for (int run = 0; again(run, begin); run++) {
        for (size_t k = 0; run > 0 && k < all->rings; k++) GEOSGeom_destroy(polygons[k]);
        double start = now();
        for (size_t k = 0; k < all->rings; k++)
            polygons[k] = polygon(all->points + all->offsets[k], all->offsets[k + 1] - all->offsets[k], buffer);
        double middle = now();
        for (size_t k = 0; k < all->rings; k++)
            if (!GEOSisEmpty(polygons[k])) read_ring(GEOSGetExteriorRing(polygons[k]), buffer);
        double end = now();
        if (middle - start < there) there = middle - start;
        if (end - middle < back) back = end - middle;
    }
    printf("| rings to polygons of GEOS, and back | %.1f, %.1f | | | | | |\n", there * 1e3, back * 1e3);
}

int main(void) {
    rings all = read_rings();
    geometry *polygons = kept(malloc(all.rings * sizeof *polygons)), *answers = kept(malloc(all.rings * sizeof *answers));
    double *buffer = kept(malloc((all.count + 1) * 2 * sizeof *buffer));
    initGEOS(quiet, quiet);
    time_batch("`i_shape_simplify_contours_i32`, one call", &all, i_shape_simplify_contours_i32);
    time_batch("`i_shape_despike_contours_i32`, one call", &all, i_shape_despike_contours_i32);
    time_batch("`i_shape_canonical_contours_i32`, one call", &all, i_shape_canonical_contours_i32);
    time_one_by_one("`i_shape_simplify_i32`, a call a ring", &all);
    time_ways(&all, polygons, buffer);
    time_geos("`GEOSRemoveRepeatedPoints`, 0", &all, repeated, polygons, answers, buffer);
    time_geos("`GEOSSimplify`, 0", &all, simplify, polygons, answers, buffer);
    time_geos("`GEOSTopologyPreserveSimplify`, 0", &all, preserve, polygons, answers, buffer);
    time_geos("`GEOSNormalize` of a copy", &all, normalize, polygons, answers, buffer);
    for (size_t k = 0; k < all.rings; k++) GEOSGeom_destroy(polygons[k]);
    finishGEOS();
    free(buffer), free(answers), free(polygons), free(all.ends), free(all.left), free(all.offsets), free(all.points);
    return 0;
}
