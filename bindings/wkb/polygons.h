/* Polygons between well-known binary (WKB, of ISO and of PostGIS) and the points of the C library. Nothing here knows the
 * host: no function takes memory of it, ends the program or jumps, but a pause, where the host may. */
#ifndef I_SHAPE_POLYGONS_H
#define I_SHAPE_POLYGONS_H

#include "i_shape.h"

/* What a host does between rings, and within long ones each so many points that are read or written: nothing is held then. */
typedef struct {
    void (*call)(void *host);
    void *host;
} Pause;

static inline void take_pause(Pause pause) {
    pause.call(pause.host);
}

/* The points of a contact take as long to be found as many are to be read. Of a polygon in which contacts are looked for, so many points count as a ring. */
enum { PAUSE_POINTS = 1 << 16, PAUSE_CONTACTS = 1 << 10, PAUSE_TESTED = 1 << 8 };

/* Whole numbers among floats, by the rule of docs/DATA.md, "Keys". steps_to_one is 0 where no whole number of steps
 * makes 1. Numbers of steps lie strictly between -limit and limit: 2^49, or less where more steps lead beyond the floats. */
typedef struct {
    double step, steps_to_one, limit;
} Grid;

/* The points of a ring, without the first one at the end again. */
typedef struct {
    const i_shape_point_i64 *points;
    size_t count;
} Ring;

/* The outer ring and the holes. Of a polygon that was read, number is its place from 1 on among all of the geometry, those without a ring too. */
typedef struct {
    Ring *rings;
    size_t count, number;
} Polygon;

/* A pause before contacts are looked for in a polygon, which has a ring, and one more for each so many points: that may take quadratic time. */
static inline void take_pauses(Pause pause, const Polygon *polygon) {
    const Ring *last = polygon->rings + polygon->count - 1;
    size_t points = (size_t)(last->points - polygon->rings->points) + last->count;
    for (size_t k = 0; k <= points / PAUSE_TESTED; k++) take_pause(pause);
}

typedef struct {
    size_t points, rings, polygons;
} Counts;

/* A Polygon or a MultiPolygon. Arrays of the host hold its points, rings and polygons, end to end; counts says how many. */
typedef struct {
    i_shape_point_i64 *points;
    Ring *rings;
    Polygon *polygons;
    Counts counts;
    bool is_multi, has_srid;
    int32_t srid;
    /* The WKB of what was read is what would be written: each ring is closed, each coordinate on the grid, and each polygon
     * of a MultiPolygon has a ring. */
    bool is_on_grid;
    /* A coordinate that was read is -0, which would be written as 0. */
    bool has_minus_zero;
} Geometry;

typedef enum {
    FINE,
    OTHER_TYPE,    /* of the given type */
    HAS_Z_OR_M,
    NOT_WKB,       /* what says why */
    MIXED_SRIDS,   /* a polygon has another one than its MultiPolygon */
    OUT_OF_RANGE   /* the coordinate value, x or y, of a point, at its place from 1 on; what says why */
} FaultKind;

typedef struct {
    FaultKind kind;
    uint32_t type;
    const char *what;
    size_t polygon, ring, point;
    char axis;
    double value;
} Fault;

enum { WKB_POINT = 1, WKB_LINESTRING = 2, WKB_POLYGON = 3, WKB_MULTIPOINT = 4, WKB_MULTIPOLYGON = 6 };
enum { WKB_CIRCULARSTRING = 8, WKB_CURVE = 13, WKB_TRIANGLE = 17 };
enum { FLOAT_SIZE = 32, FAULT_SIZE = 256, REASON_SIZE = 384 };

/* A float in the fewest digits that lead back to it. */
void put_float(double value, char text[FLOAT_SIZE]);
/* What is wrong, where wanted names the type that would be right. */
void put_fault(const Fault *fault, const char *wanted, char text[FAULT_SIZE]);

/* Whether step is finite and above 0. */
bool make_grid(double step, Grid *grid);
/* Whether both coordinates lie within the limit of the grid; then where the point lies on it. */
bool to_grid(const double xy[2], Grid grid, i_shape_point_i64 *point);
/* The coordinate of a number of steps, which need not be whole. */
double brought_back(double k, Grid grid);

/* The bytes that hold as many points, rings and polygons, and arrays within such a block, aligned as a pointer is. */
size_t block_size(Counts counts);
void use_block(Geometry *geometry, void *block);

/* How much a WKB holds at most, for which the geometry that it is then read to has arrays. */
Fault count_wkb(const void *wkb, size_t size, Pause pause, Counts *counts);
Fault read_wkb(const void *wkb, size_t size, Grid grid, Pause pause, Geometry *to);
/* A Point. Both coordinates are NaN where it is empty. */
Fault read_point_wkb(const void *wkb, size_t size, double xy[2], int32_t *srid);

/* The least and greatest x, and those of y, of a geometry of any type. It is false where that has no points, or isn't WKB. */
bool box_of_wkb(const void *wkb, size_t size, double box[4]);

size_t wkb_size(const Geometry *geometry);
void write_wkb(const Geometry *geometry, Grid grid, Pause pause, void *to);

typedef ptrdiff_t Cleaner(const i_shape_point_i64 *points, size_t count, i_shape_point_i64 *out, size_t room);

/* What is left of the rings, without those that collapse and the polygons whose outer ring does, in arrays that hold as many
 * as given. It is false where an allocation failed. */
bool clean_polygons(Cleaner *cleaner, const Geometry *given, Pause pause, Geometry *left);
/* The bytes of a block that use_block divides for a form of as many points, rings and polygons, and behind them the offsets that make_form needs. */
size_t form_block_size(Counts counts);
/* The canonical form of the polygons, or the unoriented one, in such a block for the counts of what is given, by one call of the C library. It is false where an
 * allocation failed. */
bool make_form(const Geometry *given, bool oriented, Pause pause, Geometry *form);

size_t key_size(const Geometry *form);
void write_key(const Geometry *form, Pause pause, void *to);

typedef int32_t Test(const i_shape_point_i64 *points, size_t count);

bool is_clean(const Geometry *geometry, Pause pause);
bool has_no_spikes(const Geometry *geometry, Pause pause);
/* Twice the area in cells of the grid: of each polygon that of the outer ring less those of the holes, whichever way they turn. */
__int128 area_two(const Geometry *geometry, Pause pause);
/* A ring of a polygon, and a point of the ring, each by its place from 1 on. The point is NULL where the ring has none. */
typedef struct {
    size_t ring, number;
    const i_shape_point_i64 *point;
} Place;

/* Whether the rings of a polygon may touch at single points. */
typedef enum { RINGS_APART, RINGS_MAY_TOUCH } Rule;

/* Why a geometry isn't valid on its grid: the first fault of the first polygon that has one, at its place from 1 on. The kind is I_SHAPE_VALID or another one
 * of i_shape.h. Of two edges, the places are where they begin; else they are the first points of the ring, and of the hole around it. */
typedef struct {
    size_t kind, polygon;
    Place first, second;
} Invalidity;

/* offsets has room for one more than there are rings. It is false where an allocation failed. */
bool find_invalidity(const Geometry *geometry, Rule rule, Pause pause, size_t *offsets, Invalidity *found);
/* Why a geometry that isn't valid isn't, with points as the grid brings them back. */
void put_reason(const Invalidity *found, Grid grid, char text[REASON_SIZE]);
/* How often the rings wind about a safe point together. */
int64_t winding(const Geometry *geometry, i_shape_point_i64 about, Pause pause);

/* A point in the coordinates of a geometry. */
typedef struct {
    double x, y;
} Position;

/* An array of the host holds its points. */
typedef struct {
    const Position *points;
    size_t count;
    bool has_srid;
    int32_t srid;
} MultiPoint;

/* The edges of one polygon that are in contact, each by the place, in all points of the geometry, of the one from which it leads. It writes as many contacts as
 * fit, and returns how many there are. offsets has room for one more than there are rings. */
size_t list_contacts(const Geometry *geometry, Pause pause, size_t *offsets, i_shape_contact *out, size_t room);
/* Where these are, by x and then y, each point once. The array has room for twice as many points as there are contacts. */
MultiPoint find_contact_points(const Geometry *geometry, const i_shape_contact *contacts, size_t count, Grid grid, Pause pause, Position *room);

size_t multipoint_size(const MultiPoint *of);
void write_multipoint(const MultiPoint *of, Pause pause, void *to);

#endif
