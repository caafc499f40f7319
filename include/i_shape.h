/* i_shape: contours of whole-number points, cleaned and measured. In the library that the Rattle kit builds, each call
 * is proved to return and write what this header says, except what it calls tested; in that of cargo all is tested.
 * I_SHAPE_NO_MEMORY and what takes memory are tested too, where no clause can state them. docs/C.md names the clauses.
 *
 * Each call tests what it needs of points, offsets and counts, and returns a code if that isn't met. Nothing is kept
 * between calls. No call ends the program or makes a callback, except to an allocator that the host defines
 * (docs/C.md). Calls may run in several threads at the same time.
 *
 * The caller ensures: each pointer is aligned and not null, even for a count of 0, and points to as many items as its
 * count says; an array that a call writes overlaps no other, given or written; there is stack left. No array changes
 * during a call, by another thread or by a process that shares it. A call that takes memory is not made from a signal
 * handler, nor in a child that was forked from a process with threads. The processor is one that the library is built
 * for: those of a release and of cargo run on any; `make c` by the kit builds for x86-64-v2, which has SSE4.2.
 *
 * A contour is an array of points, read as a cycle: the last point isn't the first one again. A point is safe where
 * both coordinates lie strictly between -2^(W-2) and 2^(W-2), and W is 16, 32 or 64. */
#ifndef I_SHAPE_H
#define I_SHAPE_H

#include <stdbool.h>
#include <stddef.h>
#include <stdint.h>

#ifdef __cplusplus
extern "C" {
#endif

/* 2^16 times the major, and 2^8 times the minor version, and the patch. */
#define I_SHAPE_VERSION 0x000200

uint32_t i_shape_version(void);

/* The codes below 0. A call tests in this order: the fill rule and the offsets, the room, the points; then it takes
 * memory. */
enum {
    I_SHAPE_UNSAFE = -1,      /* a point that the call reads isn't safe */
    I_SHAPE_BAD_OFFSETS = -2, /* the offsets don't divide the points, there is no such fill rule, or pairs of edges lack a point */
    I_SHAPE_NO_MEMORY = -3,   /* an allocation failed */
    I_SHAPE_NO_ROOM = -4,     /* an array of the result is too short */
    I_SHAPE_UNFIT = I_SHAPE_BAD_OFFSETS /* the old name, which was also the code of too little room; the next version lacks it */
};

/* The place of the first offset that is below the one before it or above count; offset_count if there is none. Without
 * offsets it is 0 too, and calls return I_SHAPE_BAD_OFFSETS. For shapes[], count is contour_offset_count - 1;
 * for features[], it is shape_offset_count - 1. */
size_t i_shape_first_bad_offset(size_t count, const size_t *offsets, size_t offset_count);

/* Which polygons and contours are left after a call such as i_shape_simplify_contours_iW, which leaves contours that
 * collapse empty: contours[] is the out_offsets of that call, and shapes[] divides these contours into polygons, as for
 * i_shape_simplify_shapes_iW. No points are given, so contours[] may end anywhere. A polygon is left if its outer
 * contour has points, or if it has no contours.
 *
 * It returns the number n of polygons left, and writes to the front of each array: their n indices to out_shapes; the
 * indices of their contours that have points, end to end, to out_contours; and to out_offsets n + 1 offsets, from 0 on,
 * which divide these contours among these polygons. Behind these, and after a code, the arrays are as they were.
 * I_SHAPE_BAD_OFFSETS: contour_offset_count or shape_offset_count is 0, an offset is below the one before it, or one of
 * shapes[] is above the number of contours. I_SHAPE_NO_ROOM: contour_room is below the number of contours, shape_room
 * below the number of polygons, or offset_room below shape_offset_count. It takes no memory. */
ptrdiff_t i_shape_compact_shapes(const size_t *contours, size_t contour_offset_count, const size_t *shapes, size_t shape_offset_count, size_t *out_contours, size_t contour_room, size_t *out_shapes, size_t shape_room, size_t *out_offsets, size_t offset_room);

/* What i_shape_winding_iW returns if a point isn't safe: below every winding number, which may be below 0 itself. */
#define I_SHAPE_NO_WINDING PTRDIFF_MIN

/* What i_shape_locate_in_shapes_iW writes for a point that no polygon holds: above every index. */
#define I_SHAPE_NO_SHAPE SIZE_MAX

/* The fill rules: which points contours fill, by the winding number of all contours together. */
enum {
    I_SHAPE_EVEN_ODD = 0, /* odd numbers */
    I_SHAPE_NONZERO = 1,  /* all but 0 */
    I_SHAPE_POSITIVE = 2, /* numbers above 0 */
    I_SHAPE_NEGATIVE = 3  /* numbers below 0 */
};

typedef struct { int16_t x, y; } i_shape_point_i16;
typedef struct { int32_t x, y; } i_shape_point_i32;
typedef struct { int64_t x, y; } i_shape_point_i64;

/* The two halves of the 128 bits of a whole number. */
typedef struct { uint64_t low, high; } i_shape_halves;

/* The number that two halves make, and the double nearest to it, ties to even. These two are tested. */
#ifdef __SIZEOF_INT128__
__extension__ typedef __int128 i_shape_int128;
static inline i_shape_int128 i_shape_halves_to_int128(i_shape_halves halves) {
    return (int64_t)halves.high * ((i_shape_int128)1 << 64) + halves.low;
}
#endif
static inline double i_shape_halves_to_double(i_shape_halves halves) {
    bool is_negative = halves.high >> 63;
    uint64_t low = is_negative ? 0 - halves.low : halves.low, high = is_negative ? ~halves.high + !halves.low : halves.high;
    double unit = is_negative ? -1 : 1;
    for (; high; high >>= 1, unit *= 2) low = low >> 1 | (low & 1) | high << 63; /* a bit that is lost leaves its trace in the last one */
    return (double)low * unit;
}

/* The calls at 32 bits. Those at 16 and 64 bits follow. */

/* One contour. These return the number of points written to the front of out: at least 3, at most count, and 0 if the
 * contour collapses. I_SHAPE_NO_ROOM: room is below count. Behind these points, and after a code, out is as it was.
 * Below three points (despike: four), and for a contour that is clean, no memory is taken. Otherwise there is at most
 * one allocation, of room for its vertices, before anything is written. */

/* Without zero turns: collinear vertices, spikes and repeated points. One result up to rotation, in whatever order they
 * are removed. */
ptrdiff_t i_shape_simplify_i32(const i_shape_point_i32 *points, size_t count, i_shape_point_i32 *out, size_t room);
/* Without spikes and repeated points. */
ptrdiff_t i_shape_despike_i32(const i_shape_point_i32 *points, size_t count, i_shape_point_i32 *out, size_t room);
/* The least rotation of the simplified contour, compared by x and then y, point by point. */
ptrdiff_t i_shape_canonical_i32(const i_shape_point_i32 *points, size_t count, i_shape_point_i32 *out, size_t room);
/* The lesser of that form and the form of the contour read backwards. */
ptrdiff_t i_shape_canonical_unoriented_i32(const i_shape_point_i32 *points, size_t count, i_shape_point_i32 *out, size_t room);

/* Many contours, end to end in one array: contour k has the points from place offsets[k] up to, but not including,
 * place offsets[k + 1], so that m contours have offset_count = m + 1. The result lies in the same way in out_points and
 * out_offsets, from 0 on. A contour that collapses is empty, at its place. These return the number of points written.
 * I_SHAPE_BAD_OFFSETS: offset_count is 0, or an offset is below the one before it or above count. I_SHAPE_NO_ROOM: room
 * is below count, or offset_room below offset_count. Behind these points and offsets nothing is written, nor after a
 * code anywhere. Where each contour is clean or has fewer than three points (despike: four), no memory is taken.
 * Otherwise there is at most one allocation, of room for the vertices of the longest that isn't clean, before anything
 * is written. */

/* For each contour a result of i_shape_simplify_i32; that it is the same one is tested. */
ptrdiff_t i_shape_simplify_contours_i32(const i_shape_point_i32 *points, size_t count, const size_t *offsets, size_t offset_count, i_shape_point_i32 *out_points, size_t room, size_t *out_offsets, size_t offset_room);
/* For each contour a result of i_shape_despike_i32; that it is the same one is tested. */
ptrdiff_t i_shape_despike_contours_i32(const i_shape_point_i32 *points, size_t count, const size_t *offsets, size_t offset_count, i_shape_point_i32 *out_points, size_t room, size_t *out_offsets, size_t offset_room);
/* For each contour a result of i_shape_canonical_i32; that it is the same one is tested. */
ptrdiff_t i_shape_canonical_contours_i32(const i_shape_point_i32 *points, size_t count, const size_t *offsets, size_t offset_count, i_shape_point_i32 *out_points, size_t room, size_t *out_offsets, size_t offset_room);
/* For each contour a result of i_shape_canonical_unoriented_i32; that it is the same one is tested. */
ptrdiff_t i_shape_canonical_unoriented_contours_i32(const i_shape_point_i32 *points, size_t count, const size_t *offsets, size_t offset_count, i_shape_point_i32 *out_points, size_t room, size_t *out_offsets, size_t offset_room);

/* Polygons: contours[] divides the points into contours, as above. shapes[] divides the contours into polygons: polygon
 * k has the contours from shapes[k] up to, but not including, shapes[k + 1], the outer one first. The result lies in
 * the same way in out_points, out_contours and out_shapes, from 0 on, without the contours that collapse and the
 * polygons whose outer contour does. These return the number of polygons left, n: their contours end at out_shapes[n],
 * and their points at out_contours[out_shapes[n]]. I_SHAPE_BAD_OFFSETS and I_SHAPE_NO_ROOM as above, and where the same
 * is wrong of shapes[] over the contours, or of its room. I_SHAPE_UNSAFE: contours that no polygon has are tested too.
 * Behind the result nothing is written, nor after a code. The first two take no memory where each contour of a polygon
 * is clean or has fewer than three points (despike: four), and otherwise that of many contours. The others take none
 * where no polygon has a contour. Otherwise they make at most ten allocations, before they write anything: that room, a
 * copy of the polygons' points, 40 bytes per contour, at most 136 per polygon, and 16 more. */

/* Without zero turns. */
ptrdiff_t i_shape_simplify_shapes_i32(const i_shape_point_i32 *points, size_t count, const size_t *contours, size_t contour_offset_count, const size_t *shapes, size_t shape_offset_count, i_shape_point_i32 *out_points, size_t room, size_t *out_contours, size_t contour_room, size_t *out_shapes, size_t shape_room);
/* Without spikes. A contour that has none stays as it is. */
ptrdiff_t i_shape_despike_shapes_i32(const i_shape_point_i32 *points, size_t count, const size_t *contours, size_t contour_offset_count, const size_t *shapes, size_t shape_offset_count, i_shape_point_i32 *out_points, size_t room, size_t *out_contours, size_t contour_room, size_t *out_shapes, size_t shape_room);
/* Each contour in canonical form, the holes of each polygon sorted, and then the polygons: two lists of polygons give
 * equal arrays exactly where those that don't collapse are the same (docs/PROOF.md). */
ptrdiff_t i_shape_canonical_shapes_i32(const i_shape_point_i32 *points, size_t count, const size_t *contours, size_t contour_offset_count, const size_t *shapes, size_t shape_offset_count, i_shape_point_i32 *out_points, size_t room, size_t *out_contours, size_t contour_room, size_t *out_shapes, size_t shape_room);
/* The same where a contour may be read backwards too: the lesser of the forms of both ways. */
ptrdiff_t i_shape_canonical_unoriented_shapes_i32(const i_shape_point_i32 *points, size_t count, const size_t *contours, size_t contour_offset_count, const size_t *shapes, size_t shape_offset_count, i_shape_point_i32 *out_points, size_t room, size_t *out_contours, size_t contour_room, size_t *out_shapes, size_t shape_room);

/* The canonical form of each polygon alone. The result lies in out_points and out_contours, from 0 on, and shapes[]
 * divides its contours too: a contour that collapses is empty, and so stays in its polygon. The first contour of a
 * polygon is the form of the first. The forms of the others, the holes, follow sorted: the empty ones first. Where the
 * first contour is empty the polygon collapses; i_shape_compact_shapes returns what is left. Of a contour that no
 * polygon has the form is at its place. These return the number of points written. The codes are those of many
 * contours, and I_SHAPE_BAD_OFFSETS also comes where the same is wrong of shapes[] over the contours. Where there is no
 * contour, no memory is taken. */
ptrdiff_t i_shape_canonical_polygons_i32(const i_shape_point_i32 *points, size_t count, const size_t *contours, size_t contour_offset_count, const size_t *shapes, size_t shape_offset_count, i_shape_point_i32 *out_points, size_t room, size_t *out_contours, size_t contour_room);
/* The same where a contour may be read backwards too: the lesser of the forms of both ways. */
ptrdiff_t i_shape_canonical_unoriented_polygons_i32(const i_shape_point_i32 *points, size_t count, const size_t *contours, size_t contour_offset_count, const size_t *shapes, size_t shape_offset_count, i_shape_point_i32 *out_points, size_t room, size_t *out_contours, size_t contour_room);

/* The canonical form of each of many features, which are lists of polygons: features[] divides the polygons into
 * features. The result lies in out_points, out_contours and out_shapes, from 0 on, and features[] divides its polygons
 * too. The polygons of a feature are those of i_shape_canonical_shapes_i32, but one that collapses stays, without
 * contours, and comes first, like those that had none. Of a polygon that no feature has the form is at its place, and
 * contours that no polygon has are left out. These return the number of polygons, n = shape_offset_count - 1: their
 * contours end at out_shapes[n], and their points at out_contours[out_shapes[n]]. The codes are those of the calls on
 * polygons, and I_SHAPE_BAD_OFFSETS also comes where the same is wrong of features[] over the polygons. Where no
 * polygon has a contour, no memory is taken. */
ptrdiff_t i_shape_canonical_features_i32(const i_shape_point_i32 *points, size_t count, const size_t *contours, size_t contour_offset_count, const size_t *shapes, size_t shape_offset_count, const size_t *features, size_t feature_offset_count, i_shape_point_i32 *out_points, size_t room, size_t *out_contours, size_t contour_room, size_t *out_shapes, size_t shape_room);
/* The same where a contour may be read backwards too: the lesser of the forms of both ways. */
ptrdiff_t i_shape_canonical_unoriented_features_i32(const i_shape_point_i32 *points, size_t count, const size_t *contours, size_t contour_offset_count, const size_t *shapes, size_t shape_offset_count, const size_t *features, size_t feature_offset_count, i_shape_point_i32 *out_points, size_t room, size_t *out_contours, size_t contour_room, size_t *out_shapes, size_t shape_room);

/* Tests of a contour. These, but the last, return 1 or 0, or I_SHAPE_UNSAFE. They take no memory. */

/* At least three points, and no zero turn. */
int32_t i_shape_is_simple_i32(const i_shape_point_i32 *points, size_t count);
/* At least three points, not counting repeated ones, and the contour nowhere turns back. */
int32_t i_shape_has_no_spikes_i32(const i_shape_point_i32 *points, size_t count);
/* At most two points, not counting those equal to the one before, or the contour nowhere turns back, and bends to one
 * side only. A contour that winds round more than once, as a pentagram does, may be one. */
int32_t i_shape_is_convex_i32(const i_shape_point_i32 *points, size_t count);
/* An odd number of edges cross the height of (x, y) strictly to the right of it (the even-odd rule). I_SHAPE_UNSAFE is
 * returned if that point isn't safe, too. */
int32_t i_shape_contains_i32(const i_shape_point_i32 *points, size_t count, int32_t x, int32_t y);
/* Each point is safe. It never returns I_SHAPE_UNSAFE. */
int32_t i_shape_is_safe_i32(const i_shape_point_i32 *points, size_t count);
/* The place of the first point that isn't safe; count where each is. */
size_t i_shape_first_unsafe_i32(const i_shape_point_i32 *points, size_t count);

/* Winding numbers. That about one point takes no memory. Those about many take some if 32 or more points are asked
 * about and count is 64 or more. If that allocation fails, they are the same, and take longer. */

/* The winding number around (x, y), counterclockwise as positive: the number of edges that cross its height upwards,
 * strictly to the right of it, less those that cross it downwards there; or I_SHAPE_NO_WINDING, if that point or one of
 * the contour isn't safe. */
ptrdiff_t i_shape_winding_i32(const i_shape_point_i32 *points, size_t count, int32_t x, int32_t y);
/* The winding number of all contours together, divided as above, around each of about_count points, into out: what a
 * fill rule asks of a polygon's rings. It returns 0. I_SHAPE_BAD_OFFSETS: the offsets are wrong as above.
 * I_SHAPE_NO_ROOM: room is below about_count. I_SHAPE_UNSAFE: a point of a contour or of about isn't safe. After a
 * code, and behind about_count numbers, out is as it was. */
int32_t i_shape_windings_i32(const i_shape_point_i32 *points, size_t count, const size_t *offsets, size_t offset_count, const i_shape_point_i32 *about, size_t about_count, ptrdiff_t *out, size_t room);

/* Which points a fill rule fills, and which lie on an edge. The last two take memory as above, and 8 bytes for each
 * point asked about; where it takes the former, i_shape_locate_iW takes 16 more, at 64 bits 24; if that allocation fails
 * too, they return the same.
 * I_SHAPE_BAD_OFFSETS: there is no such rule, too. */

/* Whether the rule fills (x, y), by the winding number around it: 1 or 0, or I_SHAPE_UNSAFE, if that point or one of
 * the contour isn't safe. It takes no memory. */
int32_t i_shape_contains_by_i32(const i_shape_point_i32 *points, size_t count, int32_t x, int32_t y, int32_t rule);
/* Whether the rule fills each of the points, by the winding number of all contours together around it: 1 or 0, a byte
 * each, into out. What it returns, and when, is as of i_shape_windings_i32. */
int32_t i_shape_contains_points_i32(const i_shape_point_i32 *points, size_t count, const size_t *offsets, size_t offset_count, const i_shape_point_i32 *about, size_t about_count, int32_t rule, uint8_t *out, size_t room);
/* Where each of the points lies, a byte each, into out: 0 on an edge of a contour, its ends included, and elsewhere 1
 * where the rule fills the point, and -1 where it doesn't. What it returns, and when, is as of i_shape_windings_i32. */
int32_t i_shape_locate_i32(const i_shape_point_i32 *points, size_t count, const size_t *offsets, size_t offset_count, const i_shape_point_i32 *about, size_t about_count, int32_t rule, int8_t *out, size_t room);

/* The first polygon that holds each of the points, into out: the least index of a polygon that the rule fills at the
 * point, by the winding number of all of the polygon's contours together around it; or I_SHAPE_NO_SHAPE. The polygons
 * are divided as for i_shape_simplify_shapes_i32. It returns 0. I_SHAPE_BAD_OFFSETS: contours[] or shapes[] are wrong as
 * above, or there is no such rule. I_SHAPE_NO_ROOM: room is below about_count. I_SHAPE_UNSAFE: a point from the first
 * offset to the last, or one of about, isn't safe. After a code, and behind about_count indices, out is as it was. It
 * takes memory for a bounding box of each polygon; if that allocation fails, the indices are the same, and it takes
 * longer. */
int32_t i_shape_locate_in_shapes_i32(const i_shape_point_i32 *points, size_t count, const size_t *contours, size_t contour_offset_count, const size_t *shapes, size_t shape_offset_count, const i_shape_point_i32 *about, size_t about_count, int32_t rule, size_t *out, size_t room);

/* Contacts. An edge leads from each point to the next one, the last edge of a contour to its first point. Two edges are
 * in contact if they share a point other than one at which one of them follows the other: they cross, touch or overlap.
 * The calls that search for contacts take memory if there are 16 or more points, those for validity also for a polygon
 * with two holes or more. If one of these allocations fails, they return the same, and take longer, except where a call
 * says more. */

/* At least three points, not all equal, and no contact: the contour is the boundary of a simple polygon. It returns 1 or
 * 0, or I_SHAPE_UNSAFE. */
int32_t i_shape_is_simple_polygon_i32(const i_shape_point_i32 *points, size_t count);
/* The first contact: of the first edge that is in contact with a later one, and the first such one. It returns 1, and
 * writes to the front of out the places of the two points from which these edges lead, the lesser first; or 0, if there
 * is no contact. I_SHAPE_NO_ROOM: room is below 2. I_SHAPE_UNSAFE: a point isn't safe. After 0 or a code, and behind
 * these places, out is as it was. */
int32_t i_shape_first_contact_i32(const i_shape_point_i32 *points, size_t count, size_t *out, size_t room);
/* The same of many contours together, divided as above: within one of them, or between two. The places are those in
 * points. I_SHAPE_BAD_OFFSETS: the offsets are wrong as above. I_SHAPE_UNSAFE: a point from the first offset to the last
 * isn't safe. If the first offset isn't 0, the offsets are copied; I_SHAPE_NO_MEMORY: that allocation failed. */
int32_t i_shape_first_contact_of_rings_i32(const i_shape_point_i32 *points, size_t count, const size_t *offsets, size_t offset_count, size_t *out, size_t room);

/* Two edges in contact: the places of the points from which they lead, the lesser first. */
typedef struct { size_t first, second; } i_shape_contact;

/* All contacts: by the place of the first edge, and those of one edge by that of the second. It writes as many as fit
 * to the front of out, and returns how many there are, at most PTRDIFF_MAX, also if that is more than room.
 * I_SHAPE_UNSAFE: a point isn't safe. After that, and behind the contacts, out is as it was. */
ptrdiff_t i_shape_contacts_i32(const i_shape_point_i32 *points, size_t count, i_shape_contact *out, size_t room);
/* The same of many contours together, with the offsets, places and codes of i_shape_first_contact_of_rings_i32, except
 * I_SHAPE_NO_ROOM. */
ptrdiff_t i_shape_contacts_of_rings_i32(const i_shape_point_i32 *points, size_t count, const size_t *offsets, size_t offset_count, i_shape_contact *out, size_t room);

/* How two edges meet. An edge includes its ends, and may be a single point. */
enum {
    I_SHAPE_NO_CONTACT = 0, /* they share no point */
    I_SHAPE_CROSSING = 1,   /* the ends of each lie on both sides of the line of the other, none on it */
    I_SHAPE_TOUCH = 2,      /* they share one point, and don't cross: an edge at least touches the one that follows it */
    I_SHAPE_OVERLAP = 3     /* they share more than one point */
};

/* How the edges of each of many pairs meet, a byte each, into out. edges has four points for each pair: the ends of the
 * first edge, and those of the second. It returns 0. I_SHAPE_BAD_OFFSETS: count isn't a multiple of 4. I_SHAPE_NO_ROOM:
 * room is below count / 4. I_SHAPE_UNSAFE: a point isn't safe. After a code, and behind count / 4 bytes, out is as it was.
 * It takes no memory. */
int32_t i_shape_kinds_of_contacts_i32(const i_shape_point_i32 *edges, size_t count, uint8_t *out, size_t room);

/* Validity of many polygons, divided as for i_shape_simplify_shapes_i32. A polygon is valid if each contour has at least
 * three points, not all equal, no two edges are in contact, and each vertex of a hole lies inside the outer contour and
 * inside no other hole: about it, the winding number of the outer contour isn't 0, and that of each other hole is 0.
 * Contours run in either direction; a polygon without contours is valid. Faults come in the order of their kinds, those
 * of a kind by place. Unlike by OGC's rules, contours may not touch at a point; i_shape_touching_validity_shapes_iW allows
 * it. */

/* The first fault of a polygon, or I_SHAPE_VALID, in kind. Contours and points are named by their indices in all
 * contours and in points; first and second are 0 where the kind doesn't use them. */
typedef struct { size_t kind, first, second; } i_shape_fault;
enum {
    I_SHAPE_VALID = 0,          /* no fault */
    I_SHAPE_TOO_FEW_POINTS = 1, /* first: a contour with fewer than three points, or with all points equal */
    I_SHAPE_CONTACT = 2,        /* first, second: the points from which two edges in contact lead, the lesser index first */
    I_SHAPE_HOLE_OUTSIDE = 3,   /* first: a hole with a vertex about which the outer contour doesn't wind */
    I_SHAPE_HOLE_WITHIN = 4,    /* first: a hole with a vertex about which another hole winds; second: that hole */
    I_SHAPE_DISCONNECTED = 5    /* where contours may touch: the edges first and second touch, and close a circle of contours */
};

/* The first fault of each polygon, into out. It returns 0. I_SHAPE_BAD_OFFSETS: contours[] or shapes[] are wrong as
 * above. I_SHAPE_NO_ROOM: room, in faults, is below the number of polygons. I_SHAPE_UNSAFE: a point from the first
 * offset to the last isn't safe. I_SHAPE_NO_MEMORY: there is a polygon, and the copy of the offsets of that with the
 * most contours failed; if another allocation fails, the faults are the same. After a code, and behind a fault for each
 * polygon, out is as it was. */
int32_t i_shape_validity_shapes_i32(const i_shape_point_i32 *points, size_t count, const size_t *contours, size_t contour_offset_count, const size_t *shapes, size_t shape_offset_count, i_shape_fault *out, size_t room);
/* The same if two contours of a polygon may touch: by OGC's rules, except that repeated points are faults. A polygon is
 * valid if each contour has at least three points, not all equal; edges are in contact only if they are of two contours
 * and touch, that is, share one point and don't cross; each point of a hole's edges lies inside the outer contour or on
 * it, and none inside another hole; and the inside is connected: contours that share a point are joined by no other
 * points, also not by way of other contours. Kinds and places are those above, but for these:
 *
 * - I_SHAPE_CONTACT: the first contact of edges that are of one contour, cross or overlap.
 * - I_SHAPE_HOLE_OUTSIDE, I_SHAPE_HOLE_WITHIN: any point of the hole's edges counts, not only its vertices.
 * - I_SHAPE_DISCONNECTED: first and second are the points from which two edges lead that touch, the lesser index first.
 *   Touches at lesser points, by x and then by y, join their contours already. Of such edges they are those that touch at
 *   the least point, and there the first.
 *
 * The codes are those above, and leave out as it was. I_SHAPE_NO_MEMORY: there is a polygon, and an allocation failed, of
 * that copy of the offsets, of a fault for each polygon, or where edges of one are in contact. */
int32_t i_shape_touching_validity_shapes_i32(const i_shape_point_i32 *points, size_t count, const size_t *contours, size_t contour_offset_count, const size_t *shapes, size_t shape_offset_count, i_shape_fault *out, size_t room);

/* Twice the signed area, positive for a counterclockwise contour; false, and *area as it was, if there is no point. No
 * safe range is asked: a sum that doesn't fit wraps. It takes no memory. At 16 bits the area has 32, at 64 bits it is
 * the halves of 128. */
bool i_shape_area_two_i32(const i_shape_point_i32 *points, size_t count, int64_t *area);

/* Tests and areas of many contours, divided as above: what the call on one contour returns is written to out for each
 * of them, so that m contours, which have offset_count = m + 1, have m items. These return 0. I_SHAPE_BAD_OFFSETS: the
 * offsets are wrong as above. I_SHAPE_NO_ROOM: room is below m. I_SHAPE_UNSAFE: a point from the first offset to the
 * last isn't safe; the last two never return it. After a code, and behind m items, out is as it was. They take no
 * memory, except i_shape_are_simple_polygons_iW, of a contour of 16 or more points; if that allocation fails, its items
 * are the same. */

/* Each item is what i_shape_is_simple_i32 returns, 1 or 0. */
int32_t i_shape_is_simple_contours_i32(const i_shape_point_i32 *points, size_t count, const size_t *offsets, size_t offset_count, uint8_t *out, size_t room);
/* Each item is what i_shape_has_no_spikes_i32 returns. */
int32_t i_shape_has_no_spikes_contours_i32(const i_shape_point_i32 *points, size_t count, const size_t *offsets, size_t offset_count, uint8_t *out, size_t room);
/* Each item is what i_shape_is_convex_i32 returns. */
int32_t i_shape_is_convex_contours_i32(const i_shape_point_i32 *points, size_t count, const size_t *offsets, size_t offset_count, uint8_t *out, size_t room);
/* Each item is what i_shape_is_simple_polygon_i32 returns. */
int32_t i_shape_are_simple_polygons_i32(const i_shape_point_i32 *points, size_t count, const size_t *offsets, size_t offset_count, uint8_t *out, size_t room);
/* Each item is what i_shape_is_safe_i32 returns. */
int32_t i_shape_is_safe_contours_i32(const i_shape_point_i32 *points, size_t count, const size_t *offsets, size_t offset_count, uint8_t *out, size_t room);
/* Each item is the area of i_shape_area_two_i32, and 0 where there is no point. */
int32_t i_shape_area_two_contours_i32(const i_shape_point_i32 *points, size_t count, const size_t *offsets, size_t offset_count, int64_t *areas, size_t room);

/* The calls at 16 bits: scripts/widths.sh makes them of those at 32 bits. */
ptrdiff_t i_shape_simplify_i16(const i_shape_point_i16 *points, size_t count, i_shape_point_i16 *out, size_t room);
ptrdiff_t i_shape_despike_i16(const i_shape_point_i16 *points, size_t count, i_shape_point_i16 *out, size_t room);
ptrdiff_t i_shape_canonical_i16(const i_shape_point_i16 *points, size_t count, i_shape_point_i16 *out, size_t room);
ptrdiff_t i_shape_canonical_unoriented_i16(const i_shape_point_i16 *points, size_t count, i_shape_point_i16 *out, size_t room);
ptrdiff_t i_shape_simplify_contours_i16(const i_shape_point_i16 *points, size_t count, const size_t *offsets, size_t offset_count, i_shape_point_i16 *out_points, size_t room, size_t *out_offsets, size_t offset_room);
ptrdiff_t i_shape_despike_contours_i16(const i_shape_point_i16 *points, size_t count, const size_t *offsets, size_t offset_count, i_shape_point_i16 *out_points, size_t room, size_t *out_offsets, size_t offset_room);
ptrdiff_t i_shape_canonical_contours_i16(const i_shape_point_i16 *points, size_t count, const size_t *offsets, size_t offset_count, i_shape_point_i16 *out_points, size_t room, size_t *out_offsets, size_t offset_room);
ptrdiff_t i_shape_canonical_unoriented_contours_i16(const i_shape_point_i16 *points, size_t count, const size_t *offsets, size_t offset_count, i_shape_point_i16 *out_points, size_t room, size_t *out_offsets, size_t offset_room);
ptrdiff_t i_shape_simplify_shapes_i16(const i_shape_point_i16 *points, size_t count, const size_t *contours, size_t contour_offset_count, const size_t *shapes, size_t shape_offset_count, i_shape_point_i16 *out_points, size_t room, size_t *out_contours, size_t contour_room, size_t *out_shapes, size_t shape_room);
ptrdiff_t i_shape_despike_shapes_i16(const i_shape_point_i16 *points, size_t count, const size_t *contours, size_t contour_offset_count, const size_t *shapes, size_t shape_offset_count, i_shape_point_i16 *out_points, size_t room, size_t *out_contours, size_t contour_room, size_t *out_shapes, size_t shape_room);
ptrdiff_t i_shape_canonical_shapes_i16(const i_shape_point_i16 *points, size_t count, const size_t *contours, size_t contour_offset_count, const size_t *shapes, size_t shape_offset_count, i_shape_point_i16 *out_points, size_t room, size_t *out_contours, size_t contour_room, size_t *out_shapes, size_t shape_room);
ptrdiff_t i_shape_canonical_unoriented_shapes_i16(const i_shape_point_i16 *points, size_t count, const size_t *contours, size_t contour_offset_count, const size_t *shapes, size_t shape_offset_count, i_shape_point_i16 *out_points, size_t room, size_t *out_contours, size_t contour_room, size_t *out_shapes, size_t shape_room);
ptrdiff_t i_shape_canonical_polygons_i16(const i_shape_point_i16 *points, size_t count, const size_t *contours, size_t contour_offset_count, const size_t *shapes, size_t shape_offset_count, i_shape_point_i16 *out_points, size_t room, size_t *out_contours, size_t contour_room);
ptrdiff_t i_shape_canonical_unoriented_polygons_i16(const i_shape_point_i16 *points, size_t count, const size_t *contours, size_t contour_offset_count, const size_t *shapes, size_t shape_offset_count, i_shape_point_i16 *out_points, size_t room, size_t *out_contours, size_t contour_room);
ptrdiff_t i_shape_canonical_features_i16(const i_shape_point_i16 *points, size_t count, const size_t *contours, size_t contour_offset_count, const size_t *shapes, size_t shape_offset_count, const size_t *features, size_t feature_offset_count, i_shape_point_i16 *out_points, size_t room, size_t *out_contours, size_t contour_room, size_t *out_shapes, size_t shape_room);
ptrdiff_t i_shape_canonical_unoriented_features_i16(const i_shape_point_i16 *points, size_t count, const size_t *contours, size_t contour_offset_count, const size_t *shapes, size_t shape_offset_count, const size_t *features, size_t feature_offset_count, i_shape_point_i16 *out_points, size_t room, size_t *out_contours, size_t contour_room, size_t *out_shapes, size_t shape_room);
int32_t i_shape_is_simple_i16(const i_shape_point_i16 *points, size_t count);
int32_t i_shape_has_no_spikes_i16(const i_shape_point_i16 *points, size_t count);
int32_t i_shape_is_convex_i16(const i_shape_point_i16 *points, size_t count);
int32_t i_shape_contains_i16(const i_shape_point_i16 *points, size_t count, int16_t x, int16_t y);
int32_t i_shape_is_safe_i16(const i_shape_point_i16 *points, size_t count);
size_t i_shape_first_unsafe_i16(const i_shape_point_i16 *points, size_t count);
ptrdiff_t i_shape_winding_i16(const i_shape_point_i16 *points, size_t count, int16_t x, int16_t y);
int32_t i_shape_windings_i16(const i_shape_point_i16 *points, size_t count, const size_t *offsets, size_t offset_count, const i_shape_point_i16 *about, size_t about_count, ptrdiff_t *out, size_t room);
int32_t i_shape_contains_by_i16(const i_shape_point_i16 *points, size_t count, int16_t x, int16_t y, int32_t rule);
int32_t i_shape_contains_points_i16(const i_shape_point_i16 *points, size_t count, const size_t *offsets, size_t offset_count, const i_shape_point_i16 *about, size_t about_count, int32_t rule, uint8_t *out, size_t room);
int32_t i_shape_locate_i16(const i_shape_point_i16 *points, size_t count, const size_t *offsets, size_t offset_count, const i_shape_point_i16 *about, size_t about_count, int32_t rule, int8_t *out, size_t room);
int32_t i_shape_locate_in_shapes_i16(const i_shape_point_i16 *points, size_t count, const size_t *contours, size_t contour_offset_count, const size_t *shapes, size_t shape_offset_count, const i_shape_point_i16 *about, size_t about_count, int32_t rule, size_t *out, size_t room);
int32_t i_shape_is_simple_polygon_i16(const i_shape_point_i16 *points, size_t count);
int32_t i_shape_first_contact_i16(const i_shape_point_i16 *points, size_t count, size_t *out, size_t room);
int32_t i_shape_first_contact_of_rings_i16(const i_shape_point_i16 *points, size_t count, const size_t *offsets, size_t offset_count, size_t *out, size_t room);
ptrdiff_t i_shape_contacts_i16(const i_shape_point_i16 *points, size_t count, i_shape_contact *out, size_t room);
ptrdiff_t i_shape_contacts_of_rings_i16(const i_shape_point_i16 *points, size_t count, const size_t *offsets, size_t offset_count, i_shape_contact *out, size_t room);
int32_t i_shape_kinds_of_contacts_i16(const i_shape_point_i16 *edges, size_t count, uint8_t *out, size_t room);
int32_t i_shape_validity_shapes_i16(const i_shape_point_i16 *points, size_t count, const size_t *contours, size_t contour_offset_count, const size_t *shapes, size_t shape_offset_count, i_shape_fault *out, size_t room);
int32_t i_shape_touching_validity_shapes_i16(const i_shape_point_i16 *points, size_t count, const size_t *contours, size_t contour_offset_count, const size_t *shapes, size_t shape_offset_count, i_shape_fault *out, size_t room);
bool i_shape_area_two_i16(const i_shape_point_i16 *points, size_t count, int32_t *area);
int32_t i_shape_is_simple_contours_i16(const i_shape_point_i16 *points, size_t count, const size_t *offsets, size_t offset_count, uint8_t *out, size_t room);
int32_t i_shape_has_no_spikes_contours_i16(const i_shape_point_i16 *points, size_t count, const size_t *offsets, size_t offset_count, uint8_t *out, size_t room);
int32_t i_shape_is_convex_contours_i16(const i_shape_point_i16 *points, size_t count, const size_t *offsets, size_t offset_count, uint8_t *out, size_t room);
int32_t i_shape_are_simple_polygons_i16(const i_shape_point_i16 *points, size_t count, const size_t *offsets, size_t offset_count, uint8_t *out, size_t room);
int32_t i_shape_is_safe_contours_i16(const i_shape_point_i16 *points, size_t count, const size_t *offsets, size_t offset_count, uint8_t *out, size_t room);
int32_t i_shape_area_two_contours_i16(const i_shape_point_i16 *points, size_t count, const size_t *offsets, size_t offset_count, int32_t *areas, size_t room);

/* The calls at 64 bits: scripts/widths.sh makes them of those at 32 bits. */
ptrdiff_t i_shape_simplify_i64(const i_shape_point_i64 *points, size_t count, i_shape_point_i64 *out, size_t room);
ptrdiff_t i_shape_despike_i64(const i_shape_point_i64 *points, size_t count, i_shape_point_i64 *out, size_t room);
ptrdiff_t i_shape_canonical_i64(const i_shape_point_i64 *points, size_t count, i_shape_point_i64 *out, size_t room);
ptrdiff_t i_shape_canonical_unoriented_i64(const i_shape_point_i64 *points, size_t count, i_shape_point_i64 *out, size_t room);
ptrdiff_t i_shape_simplify_contours_i64(const i_shape_point_i64 *points, size_t count, const size_t *offsets, size_t offset_count, i_shape_point_i64 *out_points, size_t room, size_t *out_offsets, size_t offset_room);
ptrdiff_t i_shape_despike_contours_i64(const i_shape_point_i64 *points, size_t count, const size_t *offsets, size_t offset_count, i_shape_point_i64 *out_points, size_t room, size_t *out_offsets, size_t offset_room);
ptrdiff_t i_shape_canonical_contours_i64(const i_shape_point_i64 *points, size_t count, const size_t *offsets, size_t offset_count, i_shape_point_i64 *out_points, size_t room, size_t *out_offsets, size_t offset_room);
ptrdiff_t i_shape_canonical_unoriented_contours_i64(const i_shape_point_i64 *points, size_t count, const size_t *offsets, size_t offset_count, i_shape_point_i64 *out_points, size_t room, size_t *out_offsets, size_t offset_room);
ptrdiff_t i_shape_simplify_shapes_i64(const i_shape_point_i64 *points, size_t count, const size_t *contours, size_t contour_offset_count, const size_t *shapes, size_t shape_offset_count, i_shape_point_i64 *out_points, size_t room, size_t *out_contours, size_t contour_room, size_t *out_shapes, size_t shape_room);
ptrdiff_t i_shape_despike_shapes_i64(const i_shape_point_i64 *points, size_t count, const size_t *contours, size_t contour_offset_count, const size_t *shapes, size_t shape_offset_count, i_shape_point_i64 *out_points, size_t room, size_t *out_contours, size_t contour_room, size_t *out_shapes, size_t shape_room);
ptrdiff_t i_shape_canonical_shapes_i64(const i_shape_point_i64 *points, size_t count, const size_t *contours, size_t contour_offset_count, const size_t *shapes, size_t shape_offset_count, i_shape_point_i64 *out_points, size_t room, size_t *out_contours, size_t contour_room, size_t *out_shapes, size_t shape_room);
ptrdiff_t i_shape_canonical_unoriented_shapes_i64(const i_shape_point_i64 *points, size_t count, const size_t *contours, size_t contour_offset_count, const size_t *shapes, size_t shape_offset_count, i_shape_point_i64 *out_points, size_t room, size_t *out_contours, size_t contour_room, size_t *out_shapes, size_t shape_room);
ptrdiff_t i_shape_canonical_polygons_i64(const i_shape_point_i64 *points, size_t count, const size_t *contours, size_t contour_offset_count, const size_t *shapes, size_t shape_offset_count, i_shape_point_i64 *out_points, size_t room, size_t *out_contours, size_t contour_room);
ptrdiff_t i_shape_canonical_unoriented_polygons_i64(const i_shape_point_i64 *points, size_t count, const size_t *contours, size_t contour_offset_count, const size_t *shapes, size_t shape_offset_count, i_shape_point_i64 *out_points, size_t room, size_t *out_contours, size_t contour_room);
ptrdiff_t i_shape_canonical_features_i64(const i_shape_point_i64 *points, size_t count, const size_t *contours, size_t contour_offset_count, const size_t *shapes, size_t shape_offset_count, const size_t *features, size_t feature_offset_count, i_shape_point_i64 *out_points, size_t room, size_t *out_contours, size_t contour_room, size_t *out_shapes, size_t shape_room);
ptrdiff_t i_shape_canonical_unoriented_features_i64(const i_shape_point_i64 *points, size_t count, const size_t *contours, size_t contour_offset_count, const size_t *shapes, size_t shape_offset_count, const size_t *features, size_t feature_offset_count, i_shape_point_i64 *out_points, size_t room, size_t *out_contours, size_t contour_room, size_t *out_shapes, size_t shape_room);
int32_t i_shape_is_simple_i64(const i_shape_point_i64 *points, size_t count);
int32_t i_shape_has_no_spikes_i64(const i_shape_point_i64 *points, size_t count);
int32_t i_shape_is_convex_i64(const i_shape_point_i64 *points, size_t count);
int32_t i_shape_contains_i64(const i_shape_point_i64 *points, size_t count, int64_t x, int64_t y);
int32_t i_shape_is_safe_i64(const i_shape_point_i64 *points, size_t count);
size_t i_shape_first_unsafe_i64(const i_shape_point_i64 *points, size_t count);
ptrdiff_t i_shape_winding_i64(const i_shape_point_i64 *points, size_t count, int64_t x, int64_t y);
int32_t i_shape_windings_i64(const i_shape_point_i64 *points, size_t count, const size_t *offsets, size_t offset_count, const i_shape_point_i64 *about, size_t about_count, ptrdiff_t *out, size_t room);
int32_t i_shape_contains_by_i64(const i_shape_point_i64 *points, size_t count, int64_t x, int64_t y, int32_t rule);
int32_t i_shape_contains_points_i64(const i_shape_point_i64 *points, size_t count, const size_t *offsets, size_t offset_count, const i_shape_point_i64 *about, size_t about_count, int32_t rule, uint8_t *out, size_t room);
int32_t i_shape_locate_i64(const i_shape_point_i64 *points, size_t count, const size_t *offsets, size_t offset_count, const i_shape_point_i64 *about, size_t about_count, int32_t rule, int8_t *out, size_t room);
int32_t i_shape_locate_in_shapes_i64(const i_shape_point_i64 *points, size_t count, const size_t *contours, size_t contour_offset_count, const size_t *shapes, size_t shape_offset_count, const i_shape_point_i64 *about, size_t about_count, int32_t rule, size_t *out, size_t room);
int32_t i_shape_is_simple_polygon_i64(const i_shape_point_i64 *points, size_t count);
int32_t i_shape_first_contact_i64(const i_shape_point_i64 *points, size_t count, size_t *out, size_t room);
int32_t i_shape_first_contact_of_rings_i64(const i_shape_point_i64 *points, size_t count, const size_t *offsets, size_t offset_count, size_t *out, size_t room);
ptrdiff_t i_shape_contacts_i64(const i_shape_point_i64 *points, size_t count, i_shape_contact *out, size_t room);
ptrdiff_t i_shape_contacts_of_rings_i64(const i_shape_point_i64 *points, size_t count, const size_t *offsets, size_t offset_count, i_shape_contact *out, size_t room);
int32_t i_shape_kinds_of_contacts_i64(const i_shape_point_i64 *edges, size_t count, uint8_t *out, size_t room);
int32_t i_shape_validity_shapes_i64(const i_shape_point_i64 *points, size_t count, const size_t *contours, size_t contour_offset_count, const size_t *shapes, size_t shape_offset_count, i_shape_fault *out, size_t room);
int32_t i_shape_touching_validity_shapes_i64(const i_shape_point_i64 *points, size_t count, const size_t *contours, size_t contour_offset_count, const size_t *shapes, size_t shape_offset_count, i_shape_fault *out, size_t room);
bool i_shape_area_two_i64(const i_shape_point_i64 *points, size_t count, i_shape_halves *area);
int32_t i_shape_is_simple_contours_i64(const i_shape_point_i64 *points, size_t count, const size_t *offsets, size_t offset_count, uint8_t *out, size_t room);
int32_t i_shape_has_no_spikes_contours_i64(const i_shape_point_i64 *points, size_t count, const size_t *offsets, size_t offset_count, uint8_t *out, size_t room);
int32_t i_shape_is_convex_contours_i64(const i_shape_point_i64 *points, size_t count, const size_t *offsets, size_t offset_count, uint8_t *out, size_t room);
int32_t i_shape_are_simple_polygons_i64(const i_shape_point_i64 *points, size_t count, const size_t *offsets, size_t offset_count, uint8_t *out, size_t room);
int32_t i_shape_is_safe_contours_i64(const i_shape_point_i64 *points, size_t count, const size_t *offsets, size_t offset_count, uint8_t *out, size_t room);
int32_t i_shape_area_two_contours_i64(const i_shape_point_i64 *points, size_t count, const size_t *offsets, size_t offset_count, i_shape_halves *areas, size_t room);

#ifdef __cplusplus
}
#endif
#endif
