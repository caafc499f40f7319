#include "polygons.h"

#include <float.h>
#include <math.h>
#include <stdio.h>
#include <stdlib.h>
#include <string.h>

_Static_assert(FLT_EVAL_METHOD == 0, "double is rounded at each operation, on which keys rest");
_Static_assert(sizeof(size_t) == 8, "sizes of a WKB don't overflow");

enum { ISO_DIMENSIONS = 1000, ISO_Z = 1, ISO_M = 2, ISO_Z_AND_M = 3, POINT_SIZE = 16, HEAD_SIZE = 5, COUNT_SIZE = 4 };
static const uint32_t EWKB_Z = 0x80000000, EWKB_M = 0x40000000, EWKB_SRID = 0x20000000, EWKB_FLAGS = 0xE0000000;
/* Up to here rounding again what was brought back leads to the same whole numbers. */
static const double LIMIT = 562949953421312.0; /* 2^49 */

bool make_grid(double step, Grid *grid) {
    if (!(isfinite(step) && step > 0)) return false;
    double whole = rint(1 / step);
    grid->step = step;
    grid->steps_to_one = isfinite(whole) && whole != 0 && 1 / whole == step ? whole : 0;
    grid->limit = fmin(LIMIT, DBL_MAX / step);
    return true;
}

static double steps_of(double x, Grid grid) {
    return rint(grid.steps_to_one != 0 ? x * grid.steps_to_one : x / grid.step);
}

double brought_back(double k, Grid grid) {
    return grid.steps_to_one != 0 ? k / grid.steps_to_one : k * grid.step;
}

bool to_grid(const double xy[2], Grid grid, i_shape_point_i64 *point) {
    double x = steps_of(xy[0], grid), y = steps_of(xy[1], grid);
    if (!(fabs(x) < grid.limit && fabs(y) < grid.limit)) return false;
    point->x = (int64_t)x;
    point->y = (int64_t)y;
    return true;
}

size_t block_size(Counts counts) {
    return counts.points * sizeof(i_shape_point_i64) + counts.rings * sizeof(Ring) + counts.polygons * sizeof(Polygon);
}

void use_block(Geometry *geometry, void *block) {
    geometry->points = block;
    geometry->rings = (Ring *)(geometry->points + geometry->counts.points);
    geometry->polygons = (Polygon *)(geometry->rings + geometry->counts.rings);
}

/* ---- faults in words ---- */

void put_float(double value, char text[FLOAT_SIZE]) {
    if (!isfinite(value)) {
        strcpy(text, isnan(value) ? "NaN" : value < 0 ? "-Infinity" : "Infinity");
        return;
    }
    for (int digits = DBL_DIG; digits <= DBL_DECIMAL_DIG; digits++) {
        snprintf(text, FLOAT_SIZE, "%.*g", digits, value);
        if (strtod(text, NULL) == value) break;
    }
    /* What is between the digits is the point of the host's locale, of a byte or more. */
    char *point = text + strspn(text, "-0123456789");
    if (*point == 0 || *point == 'e') return;
    char *digits = strpbrk(point, "0123456789");
    *point = '.';
    memmove(point + 1, digits, strlen(digits) + 1);
}

static const char *name_of_type(uint32_t type) {
    static const char *const names[] = {"Geometry", "Point", "LineString", "Polygon", "MultiPoint", "MultiLineString", "MultiPolygon",
                                        "GeometryCollection", "CircularString", "CompoundCurve", "CurvePolygon", "MultiCurve", "MultiSurface",
                                        "Curve", "Surface", "PolyhedralSurface", "Tin", "Triangle"};
    return type < sizeof names / sizeof *names ? names[type] : "geometry of an unknown type";
}

void put_fault(const Fault *fault, const char *wanted, char text[FAULT_SIZE]) {
    char value[FLOAT_SIZE];
    switch (fault->kind) {
    case FINE: *text = 0; return;
    case OTHER_TYPE: snprintf(text, FAULT_SIZE, "expected a %s, not a %s", wanted, name_of_type(fault->type)); return;
    case HAS_Z_OR_M: snprintf(text, FAULT_SIZE, "expected two coordinates a point, and the geometry has Z or M"); return;
    case NOT_WKB: snprintf(text, FAULT_SIZE, "not a geometry: %s", fault->what); return;
    case MIXED_SRIDS: snprintf(text, FAULT_SIZE, "a part of a MultiPolygon has another SRID"); return;
    case OUT_OF_RANGE:
        put_float(fault->value, value);
        snprintf(text, FAULT_SIZE, "polygon %zu, ring %zu, point %zu: %c is %s, %s", fault->polygon, fault->ring, fault->point, fault->axis, value,
                 fault->what);
    }
}

/* ---- why a geometry isn't valid ---- */

enum { POINT_TEXT_SIZE = 2 * FLOAT_SIZE + 4 };

static void put_point_text(const i_shape_point_i64 *point, Grid grid, char text[POINT_TEXT_SIZE]) {
    char x[FLOAT_SIZE], y[FLOAT_SIZE];
    put_float(brought_back(point->x, grid), x);
    put_float(brought_back(point->y, grid), y);
    snprintf(text, POINT_TEXT_SIZE, "(%s, %s)", x, y);
}

static void put_edges(const Place *first, const char *do_what, const Place *second, const char *then, Grid grid, char *text, size_t room) {
    char one[POINT_TEXT_SIZE], other[POINT_TEXT_SIZE], ring[FLOAT_SIZE] = "";
    put_point_text(first->point, grid, one);
    put_point_text(second->point, grid, other);
    if (second->ring != first->ring) snprintf(ring, sizeof ring, " of ring %zu", second->ring);
    snprintf(text, room, "edge %zu from %s %s edge %zu%s from %s%s", first->number, one, do_what, second->number, ring, other, then);
}

void put_reason(const Invalidity *found, Grid grid, char text[REASON_SIZE]) {
    char at[POINT_TEXT_SIZE + 5] = "";
    int size = snprintf(text, REASON_SIZE, "polygon %zu, ring %zu: ", found->polygon, found->first.ring);
    char *words = text + size;
    size_t room = REASON_SIZE - (size_t)size;
    if (found->first.point) {
        strcpy(at, ", at ");
        put_point_text(found->first.point, grid, at + strlen(at));
    }
    switch (found->kind) {
    case I_SHAPE_TOO_FEW_POINTS: snprintf(words, room, "it has fewer than three points, or only equal ones%s", at); return;
    case I_SHAPE_CONTACT: put_edges(&found->first, "meets", &found->second, "", grid, words, room); return;
    case I_SHAPE_DISCONNECTED: put_edges(&found->first, "touches", &found->second, ", which parts the inside", grid, words, room); return;
    case I_SHAPE_HOLE_OUTSIDE: snprintf(words, room, "it is a hole outside the outer ring%s", at); return;
    case I_SHAPE_HOLE_WITHIN: snprintf(words, room, "it is a hole within ring %zu, another hole%s", found->second.ring, at); return;
    default: *text = 0;
    }
}

/* ---- reading ---- */

/* Without a geometry it only counts. */
typedef struct {
    const unsigned char *at, *end;
    bool is_swapped;
    Counts counts;
    Geometry *to;
    Grid grid;
    Pause pause;
    Fault fault;
} Reader;

static Reader reader_of(const void *wkb, size_t size) {
    Reader from = {.at = wkb, .end = (const unsigned char *)wkb + size};
    return from;
}

static bool not_wkb(Reader *from, const char *what) {
    from->fault = (Fault){.kind = NOT_WKB, .what = what};
    return false;
}

static bool has(Reader *from, uint64_t size) {
    return (uint64_t)(from->end - from->at) >= size || not_wkb(from, "it ends too soon");
}

static bool has_ended(Reader *from) {
    return from->at == from->end || not_wkb(from, "bytes are left over");
}

static bool next_number(Reader *from, uint32_t *number) {
    if (!has(from, COUNT_SIZE)) return false;
    memcpy(number, from->at, COUNT_SIZE);
    if (from->is_swapped) *number = __builtin_bswap32(*number);
    from->at += COUNT_SIZE;
    return true;
}

typedef struct {
    uint32_t type;
    bool has_z, has_m, has_srid;
    int32_t srid;
} Head;

/* The byte order, the type and, where it is there, the SRID. */
static bool next_any_head(Reader *from, Head *head) {
    uint32_t number = 0;
    *head = (Head){0};
    if (!has(from, 1)) return false;
    if (*from->at > 1) return not_wkb(from, "its byte order is neither 0 nor 1");
    from->is_swapped = (*from->at++ == 1) == (__BYTE_ORDER__ == __ORDER_BIG_ENDIAN__);
    if (!next_number(from, &head->type)) return false;
    head->has_srid = (head->type & EWKB_SRID) != 0;
    if (head->has_srid && !next_number(from, &number)) return false;
    head->srid = (int32_t)number;
    uint32_t dimensions = (head->type & ~EWKB_FLAGS) / ISO_DIMENSIONS;
    head->has_z = (head->type & EWKB_Z) || dimensions == ISO_Z || dimensions == ISO_Z_AND_M;
    head->has_m = (head->type & EWKB_M) || dimensions == ISO_M || dimensions == ISO_Z_AND_M;
    head->type &= ~EWKB_FLAGS;
    if (dimensions <= ISO_Z_AND_M) head->type %= ISO_DIMENSIONS;
    return true;
}

static bool next_head(Reader *from, Head *head) {
    if (!next_any_head(from, head)) return false;
    if (!head->has_z && !head->has_m) return true;
    from->fault = (Fault){.kind = HAS_Z_OR_M};
    return false;
}

/* The point of a number among those that follow. */
static void point_at(const Reader *from, size_t number, double xy[2]) {
    uint64_t bits[2];
    memcpy(bits, from->at + number * POINT_SIZE, POINT_SIZE);
    if (from->is_swapped)
        for (int k = 0; k < 2; k++) bits[k] = __builtin_bswap64(bits[k]);
    memcpy(xy, bits, POINT_SIZE);
}

static bool out_of_range(Reader *from, const double xy[2], size_t number) {
    const Polygon *polygon = from->to->polygons + from->to->counts.polygons;
    bool is_x = !(fabs(steps_of(xy[0], from->grid)) < from->grid.limit);
    double value = is_x ? xy[0] : xy[1];
    bool is_far = fabs(steps_of(value, from->grid)) >= LIMIT;
    from->fault = (Fault){.kind = OUT_OF_RANGE,
                          .polygon = from->counts.polygons + 1,
                          .ring = polygon->count + 1,
                          .point = number + 1,
                          .axis = is_x ? 'x' : 'y',
                          .value = value,
                          .what = !isfinite(value) ? "which isn't finite" : is_far ? "2^49 steps or more from 0" : "which rounds to no float"};
    return false;
}

/* How many of the points of a ring are left without a last one that is the first one again. */
static size_t open_count(const Reader *from, size_t count) {
    double first[2], last[2];
    if (count < 2) return count;
    point_at(from, 0, first);
    point_at(from, count - 1, last);
    return first[0] == last[0] && first[1] == last[1] ? count - 1 : count;
}

static bool has_minus_zero(const double xy[2]) {
    return (xy[0] == 0 && signbit(xy[0])) || (xy[1] == 0 && signbit(xy[1]));
}

static bool add_ring(Reader *from, size_t count) {
    Geometry *to = from->to;
    i_shape_point_i64 *points = to->points + to->counts.points;
    size_t open = open_count(from, count);
    bool is_on_grid = open < count;
    double xy[2];
    for (size_t k = 0; k < open; k++) {
        if (k % PAUSE_POINTS == PAUSE_POINTS - 1) take_pause(from->pause);
        point_at(from, k, xy);
        if (!to_grid(xy, from->grid, points + k)) return out_of_range(from, xy, k);
        is_on_grid = is_on_grid && brought_back(points[k].x, from->grid) == xy[0] && brought_back(points[k].y, from->grid) == xy[1];
        to->has_minus_zero = to->has_minus_zero || has_minus_zero(xy);
    }
    if (open < count) {
        point_at(from, open, xy);
        to->has_minus_zero = to->has_minus_zero || has_minus_zero(xy);
    }
    to->is_on_grid = to->is_on_grid && is_on_grid;
    to->rings[to->counts.rings++] = (Ring){points, open};
    to->counts.points += open;
    to->polygons[to->counts.polygons].count++;
    return true;
}

static bool walk_ring(Reader *from) {
    uint32_t count;
    take_pause(from->pause);
    if (!next_number(from, &count) || !has(from, (uint64_t)count * POINT_SIZE)) return false;
    if (from->to && !add_ring(from, count)) return false;
    from->counts.rings++;
    from->counts.points += count;
    from->at += (size_t)count * POINT_SIZE;
    return true;
}

/* A polygon without rings is left out: so PostGIS writes POLYGON EMPTY. */
static bool walk_polygon(Reader *from) {
    Geometry *to = from->to;
    uint32_t count;
    take_pause(from->pause);
    if (!next_number(from, &count)) return false;
    if (to) to->polygons[to->counts.polygons] = (Polygon){to->rings + to->counts.rings, 0, from->counts.polygons + 1};
    for (uint32_t k = 0; k < count; k++)
        if (!walk_ring(from)) return false;
    if (to && count > 0) to->counts.polygons++;
    if (to && count == 0 && to->is_multi) to->is_on_grid = false;
    from->counts.polygons++;
    return true;
}

static bool walk_parts(Reader *from, const Head *whole) {
    uint32_t count;
    if (!next_number(from, &count)) return false;
    for (uint32_t k = 0; k < count; k++) {
        Head head;
        if (!next_head(from, &head)) return false;
        if (head.type != WKB_POLYGON) return not_wkb(from, "a part of a MultiPolygon isn't a Polygon");
        if (head.has_srid && head.srid != whole->srid) {
            from->fault = (Fault){.kind = MIXED_SRIDS};
            return false;
        }
        if (!walk_polygon(from)) return false;
    }
    return true;
}

static Fault walk(Reader *from) {
    Head head;
    if (!next_head(from, &head)) return from->fault;
    bool is_multi = head.type == WKB_MULTIPOLYGON;
    if (!is_multi && head.type != WKB_POLYGON) return (Fault){.kind = OTHER_TYPE, .type = head.type};
    if (from->to) {
        from->to->is_multi = is_multi;
        from->to->has_srid = head.has_srid;
        from->to->srid = head.srid;
    }
    if ((is_multi ? walk_parts(from, &head) : walk_polygon(from)) && has_ended(from)) return (Fault){.kind = FINE};
    return from->fault;
}

Fault count_wkb(const void *wkb, size_t size, Pause pause, Counts *counts) {
    Reader from = reader_of(wkb, size);
    from.pause = pause;
    Fault fault = walk(&from);
    *counts = from.counts;
    return fault;
}

Fault read_wkb(const void *wkb, size_t size, Grid grid, Pause pause, Geometry *to) {
    Reader from = reader_of(wkb, size);
    from.to = to;
    from.grid = grid;
    from.pause = pause;
    to->counts = (Counts){0, 0, 0};
    to->is_on_grid = true;
    to->has_minus_zero = false;
    return walk(&from);
}

Fault read_point_wkb(const void *wkb, size_t size, double xy[2], int32_t *srid) {
    Reader from = reader_of(wkb, size);
    Head head;
    if (!next_head(&from, &head)) return from.fault;
    if (head.type != WKB_POINT) return (Fault){.kind = OTHER_TYPE, .type = head.type};
    if (!has(&from, POINT_SIZE)) return from.fault;
    point_at(&from, 0, xy);
    *srid = head.srid;
    from.at += POINT_SIZE;
    return has_ended(&from) ? (Fault){.kind = FINE} : from.fault;
}

/* ---- the box of any geometry ---- */

static void widen(double box[4], const double xy[2]) {
    for (int axis = 0; axis < 2; axis++) {
        if (xy[axis] < box[2 * axis]) box[2 * axis] = xy[axis];
        if (xy[axis] > box[2 * axis + 1]) box[2 * axis + 1] = xy[axis];
    }
}

static bool box_points(Reader *from, uint32_t count, size_t size, double box[4]) {
    if (!has(from, (uint64_t)count * size)) return false;
    for (; count > 0; count--, from->at += size) {
        double xy[2];
        point_at(from, 0, xy);
        widen(box, xy);
    }
    return true;
}

static bool box_rings(Reader *from, uint32_t rings, size_t size, double box[4]) {
    uint32_t count;
    for (; rings > 0; rings--)
        if (!next_number(from, &count) || !box_points(from, count, size, box)) return false;
    return true;
}

/* The next geometry, without its parts, of which there are so many more to come. */
static bool box_head(Reader *from, uint64_t *to_come, double box[4]) {
    Head head;
    uint32_t count = 1;
    if (!next_any_head(from, &head) || (head.type != WKB_POINT && !next_number(from, &count))) return false;
    size_t size = POINT_SIZE + (size_t)(head.has_z + head.has_m) * sizeof(double);
    switch (head.type) {
    case WKB_POINT:
    case WKB_LINESTRING:
    case WKB_CIRCULARSTRING: return box_points(from, count, size, box);
    case WKB_POLYGON:
    case WKB_TRIANGLE: return box_rings(from, count, size, box);
    default: *to_come += count; return head.type < WKB_TRIANGLE;
    }
}

bool box_of_wkb(const void *wkb, size_t size, double box[4]) {
    Reader from = reader_of(wkb, size);
    uint64_t to_come = 1;
    box[0] = box[2] = INFINITY;
    box[1] = box[3] = -INFINITY;
    for (; to_come > 0; to_come--)
        if (!box_head(&from, &to_come, box)) return false;
    return has_ended(&from) && box[0] <= box[1] && box[2] <= box[3];
}

/* ---- writing, in the machine's byte order ---- */

size_t wkb_size(const Geometry *geometry) {
    size_t parts = geometry->is_multi ? geometry->counts.polygons : 0;
    size_t heads = HEAD_SIZE + (geometry->has_srid ? COUNT_SIZE : 0) + parts * HEAD_SIZE;
    size_t counted = (geometry->is_multi || geometry->counts.polygons == 0) + geometry->counts.polygons + geometry->counts.rings;
    return heads + counted * COUNT_SIZE + (geometry->counts.points + geometry->counts.rings) * POINT_SIZE;
}

static unsigned char *put_number(unsigned char *at, uint32_t number) {
    memcpy(at, &number, COUNT_SIZE);
    return at + COUNT_SIZE;
}

static unsigned char *put_head(unsigned char *at, uint32_t type) {
    *at++ = __BYTE_ORDER__ == __ORDER_LITTLE_ENDIAN__;
    return put_number(at, type);
}

static unsigned char *put_point(unsigned char *at, i_shape_point_i64 point, Grid grid) {
    double xy[2] = {brought_back(point.x, grid), brought_back(point.y, grid)};
    memcpy(at, xy, POINT_SIZE);
    return at + POINT_SIZE;
}

static unsigned char *put_ring(unsigned char *at, Ring ring, Grid grid, Pause pause) {
    at = put_number(at, (uint32_t)ring.count + 1);
    for (size_t k = 0; k < ring.count; k++) {
        if (k % PAUSE_POINTS == 0) take_pause(pause);
        at = put_point(at, ring.points[k], grid);
    }
    return put_point(at, ring.points[0], grid);
}

void write_wkb(const Geometry *geometry, Grid grid, Pause pause, void *to) {
    size_t count = geometry->counts.polygons;
    unsigned char *at = put_head(to, (geometry->is_multi ? WKB_MULTIPOLYGON : WKB_POLYGON) | (geometry->has_srid ? EWKB_SRID : 0));
    if (geometry->has_srid) at = put_number(at, (uint32_t)geometry->srid);
    if (geometry->is_multi || count == 0) at = put_number(at, (uint32_t)count);
    for (const Polygon *polygon = geometry->polygons; polygon < geometry->polygons + count; polygon++) {
        if (geometry->is_multi) at = put_head(at, WKB_POLYGON);
        at = put_number(at, (uint32_t)polygon->count);
        for (size_t ring = 0; ring < polygon->count; ring++) at = put_ring(at, polygon->rings[ring], grid, pause);
    }
}

size_t multipoint_size(const MultiPoint *of) {
    return HEAD_SIZE + (of->has_srid ? COUNT_SIZE : 0) + COUNT_SIZE + of->count * (HEAD_SIZE + POINT_SIZE);
}

void write_multipoint(const MultiPoint *of, Pause pause, void *to) {
    unsigned char *at = put_head(to, WKB_MULTIPOINT | (of->has_srid ? EWKB_SRID : 0));
    if (of->has_srid) at = put_number(at, (uint32_t)of->srid);
    at = put_number(at, (uint32_t)of->count);
    for (size_t k = 0; k < of->count; k++, at += POINT_SIZE) {
        if (k % PAUSE_POINTS == 0) take_pause(pause);
        at = put_head(at, WKB_POINT);
        memcpy(at, of->points + k, POINT_SIZE);
    }
}
