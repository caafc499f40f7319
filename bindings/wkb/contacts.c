#include "polygons.h"

#include <math.h>
#include <stdlib.h>

/* Coordinates lie below 2^49, so that what two vectors between points span lies below 2^101. */
typedef unsigned __int128 Span;

/* ---- which edges are in contact ---- */

/* Writes where the rings of a polygon begin among its points. Returns the number of points. */
static size_t put_offsets(const Polygon *polygon, size_t *offsets) {
    size_t count = 0;
    for (size_t ring = 0; ring < polygon->count; ring++) {
        offsets[ring] = count;
        count += polygon->rings[ring].count;
    }
    offsets[polygon->count] = count;
    return count;
}

/* By places among the points of the polygon. Offsets that begin at 0 aren't copied, and what was read is safe: the library returns no code. */
static size_t contacts_of_polygon(const Polygon *polygon, size_t *offsets, i_shape_contact *out, size_t room) {
    const i_shape_point_i64 *points = polygon->rings->points;
    size_t count = put_offsets(polygon, offsets), first[2];
    /* Where there is none, this takes less time than to list them. */
    if (i_shape_first_contact_of_rings_i64(points, count, offsets, polygon->count + 1, first, 2) == 0) return 0;
    return (size_t)i_shape_contacts_of_rings_i64(points, count, offsets, polygon->count + 1, out, room);
}

static void move_places(i_shape_contact *contacts, size_t count, size_t by) {
    for (size_t k = 0; k < count; k++) {
        contacts[k].first += by;
        contacts[k].second += by;
    }
}

size_t list_contacts(const Geometry *geometry, Pause pause, size_t *offsets, i_shape_contact *out, size_t room) {
    size_t count = 0, written = 0;
    for (const Polygon *polygon = geometry->polygons; polygon < geometry->polygons + geometry->counts.polygons; polygon++) {
        take_pauses(pause, polygon);
        size_t its = contacts_of_polygon(polygon, offsets, out + written, room - written), fit = its < room - written ? its : room - written;
        move_places(out + written, fit, (size_t)(polygon->rings->points - geometry->points));
        count += its;
        written += fit;
    }
    return count;
}

/* ---- where they are ---- */

typedef struct {
    i_shape_point_i64 from, to;
} Edge;

/* The rings lie end to end, so it is the last one that begins at the place or before. */
static Edge edge_from(const Geometry *geometry, size_t place) {
    const i_shape_point_i64 *from = geometry->points + place;
    const Ring *ring = geometry->rings, *end = ring + geometry->counts.rings;
    while (end - ring > 1) {
        const Ring *middle = ring + (end - ring) / 2;
        if (middle->points <= from) ring = middle;
        else end = middle;
    }
    bool is_last = from + 1 == ring->points + ring->count;
    return (Edge){*from, is_last ? *ring->points : from[1]};
}

/* Above 0 where the point lies on the left of the edge's line, and the further from that, the greater. */
static __int128 distance(i_shape_point_i64 point, Edge edge) {
    __int128 along_x = edge.to.x - edge.from.x, along_y = edge.to.y - edge.from.y;
    return along_x * (point.y - edge.from.y) - along_y * (point.x - edge.from.x);
}

static bool is_between(int64_t number, int64_t one, int64_t other) {
    return one < other ? one <= number && number <= other : other <= number && number <= one;
}

static bool is_on(i_shape_point_i64 point, Edge edge) {
    return distance(point, edge) == 0 && is_between(point.x, edge.from.x, edge.to.x) && is_between(point.y, edge.from.y, edge.to.y);
}

static bool has_ends_on_both_sides(Edge edge, Edge line) {
    __int128 from = distance(edge.from, line), to = distance(edge.to, line);
    return (from < 0 && to > 0) || (from > 0 && to < 0);
}

/* The double next to whole + part / unit, ties to even, where the part is less than the unit. */
static double nearest(uint64_t whole, Span part, Span unit) {
    const uint64_t enough = UINT64_C(1) << 54; /* a bit to round by, and another one for all behind it */
    int doublings = 0;
    for (; part > 0 && whole < enough; doublings++) {
        part *= 2;
        whole = 2 * whole + (part >= unit);
        if (part >= unit) part -= unit;
    }
    return ldexp((double)(whole | (part > 0)), -doublings);
}

/* The double next to the number between two, greater than from by so many of the units into which what is between them is divided. */
static double number_between(int64_t from, int64_t to, Span part, Span unit) {
    if (from > to) return number_between(to, from, unit - part, unit);
    const uint64_t length = (uint64_t)(to - from);
    uint64_t whole = 0;
    Span rest = 0; /* whole + rest / unit is as much of the length as its first bits make */
    for (int bit = 63; bit >= 0; bit--) {
        rest = 2 * rest + (length >> bit & 1 ? part : 0);
        for (whole *= 2; rest >= unit; rest -= unit) whole++;
    }
    int64_t below = from + (int64_t)whole;
    if (below >= 0) return nearest((uint64_t)below, rest, unit);
    return rest > 0 ? -nearest((uint64_t)-(below + 1), unit - rest, unit) : -nearest((uint64_t)-below, 0, unit);
}

static Span size_of(__int128 number) {
    return (Span)(number < 0 ? -number : number);
}

/* Where an edge passes through the line of another. */
static Position crossing(Edge one, Edge other, Grid grid) {
    Span part = size_of(distance(one.from, other)), unit = part + size_of(distance(one.to, other));
    return (Position){brought_back(number_between(one.from.x, one.to.x, part, unit), grid),
                      brought_back(number_between(one.from.y, one.to.y, part, unit), grid)};
}

/* The ends of what two edges share, where each is an end of an edge. */
static size_t shared_ends(Edge one, Edge other, Grid grid, Position out[2]) {
    const i_shape_point_i64 ends[] = {one.from, one.to, other.from, other.to};
    i_shape_point_i64 found[2];
    size_t count = 0;
    for (size_t k = 0; k < 4 && count < 2; k++) {
        i_shape_point_i64 end = ends[k];
        bool is_new = count == 0 || end.x != found->x || end.y != found->y;
        if (is_new && is_on(end, k < 2 ? other : one)) found[count++] = end;
    }
    for (size_t k = 0; k < count; k++) out[k] = (Position){brought_back((double)found[k].x, grid), brought_back((double)found[k].y, grid)};
    return count;
}

/* Where the one passes through the line of the other, they share that point alone, which may be an end of the other. */
static size_t points_of_contact(Edge one, Edge other, Grid grid, Position out[2]) {
    if (!has_ends_on_both_sides(one, other)) return shared_ends(one, other, grid, out);
    *out = crossing(one, other, grid);
    return 1;
}

static int compare_floats(double one, double other) {
    return (one > other) - (one < other);
}

static int compare_positions(const void *a, const void *b) {
    const Position *one = a, *other = b;
    int by_x = compare_floats(one->x, other->x);
    return by_x ? by_x : compare_floats(one->y, other->y);
}

/* How many are left of sorted ones. */
static size_t drop_repeats(Position *points, size_t count) {
    size_t left = 0;
    for (size_t k = 0; k < count; k++)
        if (left == 0 || compare_positions(points + left - 1, points + k) != 0) points[left++] = points[k];
    return left;
}

MultiPoint find_contact_points(const Geometry *geometry, const i_shape_contact *contacts, size_t count, Grid grid, Pause pause, Position *room) {
    size_t found = 0;
    for (size_t k = 0; k < count; k++) {
        if (k % PAUSE_CONTACTS == 0) take_pause(pause);
        found += points_of_contact(edge_from(geometry, contacts[k].first), edge_from(geometry, contacts[k].second), grid, room + found);
    }
    qsort(room, found, sizeof *room, compare_positions);
    return (MultiPoint){room, drop_repeats(room, found), geometry->has_srid, geometry->srid};
}
