#include "blobs.h"

#include <math.h>
#include <string.h>

_Static_assert(__BYTE_ORDER__ == __ORDER_LITTLE_ENDIAN__, "what is around a WKB is written with the low byte first");

/* GeoPackage: "GP", the version, flags, the SRID, and a box of so many bytes by three bits of the flags. */
enum { VERSION_AT = 2, FLAGS_AT = 3, GP_SRID_AT = 4, GP_HEAD = 8, BOX_SIZE = 4 * sizeof(double) };
enum { LOW_FIRST = 0x01, BOX = 0x02, BOXES = 0x0E, EMPTY = 0x10, EXTENDED = 0x20 };

/* SpatiaLite: 0, 1 for the low byte first, the SRID, a box, a mark in place of the byte order of a WKB, the rest of that, and an end mark. */
enum { SL_SRID_AT = 2, SL_BOX_AT = 6, SL_HEAD = SL_BOX_AT + BOX_SIZE, SL_MARK = 0x7C, SL_PART = 0x69, SL_END = 0xFE, SL_LEAST = SL_HEAD + 10 };
static const uint32_t SL_COMPRESSED = 1000000; /* types from here on */

static uint32_t number_at(const unsigned char *at) {
    uint32_t number;
    memcpy(&number, at, sizeof number);
    return number;
}

/* ---- GeoPackage ---- */

/* The bytes before the WKB; 0 where they are wrong. */
static size_t geopackage_head(const unsigned char *bytes, size_t size) {
    static const size_t boxes[8] = {GP_HEAD, GP_HEAD + 4 * 8, GP_HEAD + 6 * 8, GP_HEAD + 6 * 8, GP_HEAD + 8 * 8};
    if (size < GP_HEAD || memcmp(bytes, "GP", 3) != 0) return 0;
    size_t head = boxes[(bytes[FLAGS_AT] & BOXES) >> 1];
    return head <= size ? head : 0;
}

static const char *open_geopackage(Blob *blob) {
    size_t head = geopackage_head(blob->bytes, blob->size);
    if (!head) return "not a geometry: its GeoPackage header is invalid";
    if (blob->bytes[FLAGS_AT] & EXTENDED) return "a geometry of an extension of GeoPackage isn't read";
    uint32_t srid = number_at(blob->bytes + GP_SRID_AT);
    blob->form = GEOPACKAGE;
    blob->srid = (int32_t)(blob->bytes[FLAGS_AT] & LOW_FIRST ? srid : __builtin_bswap32(srid));
    blob->wkb += head;
    blob->wkb_size -= head;
    return NULL;
}

bool says_empty(const void *bytes, size_t size, bool *is_empty) {
    const unsigned char *at = bytes;
    if (!geopackage_head(at, size)) return false;
    *is_empty = (at[FLAGS_AT] & EMPTY) != 0;
    return true;
}

bool box_of_blob(const void *bytes, size_t size, double box[4]) {
    const unsigned char *at = bytes;
    size_t head = geopackage_head(at, size);
    uint64_t sides[4];
    if (!head) return false;
    if (!(at[FLAGS_AT] & BOXES)) return !(at[FLAGS_AT] & EXTENDED) && box_of_wkb(at + head, size - head, box);
    memcpy(sides, at + GP_HEAD, BOX_SIZE);
    for (int k = 0; k < 4 && !(at[FLAGS_AT] & LOW_FIRST); k++) sides[k] = __builtin_bswap64(sides[k]);
    memcpy(box, sides, BOX_SIZE);
    return true;
}

/* ---- SpatiaLite ---- */

static bool is_spatialite(const Blob *blob) {
    const unsigned char *bytes = blob->bytes;
    return blob->size >= SL_LEAST && bytes[0] == 0 && bytes[1] == 1 && bytes[SL_HEAD] == SL_MARK && bytes[blob->size - 1] == SL_END;
}

/* Sets the byte before each part of a MultiPolygon to `after`. Returns false where one isn't `before`, or where the parts don't fit. */
static bool mark_parts(unsigned char *wkb, size_t size, unsigned char before, unsigned char after) {
    const size_t head = 9, point = 16; /* the byte order, the type and a count */
    size_t at = head;
    for (uint32_t parts = number_at(wkb + at - 4); parts > 0; parts--) {
        if (size - at < head || wkb[at] != before) return false;
        wkb[at] = after;
        at += head;
        for (uint32_t rings = number_at(wkb + at - 4); rings > 0; rings--) {
            if (size - at < 4 || (size - at - 4) / point < number_at(wkb + at)) return false;
            at += 4 + number_at(wkb + at) * point;
        }
    }
    return true;
}

const char *copy_wkb(Blob *blob, unsigned char *wkb) {
    memcpy(wkb, blob->bytes + SL_HEAD, blob->wkb_size);
    wkb[0] = 1;
    blob->wkb = wkb;
    uint32_t type = number_at(wkb + 1);
    if (type >= SL_COMPRESSED) return "a compressed geometry of SpatiaLite isn't read: use UncompressGeometry first";
    bool fits = type != WKB_MULTIPOLYGON || mark_parts(wkb, blob->wkb_size, SL_PART, 1);
    return fits ? NULL : "not a geometry: the parts of SpatiaLite's don't fit";
}

/* ---- each form ---- */

const char *open_blob(const void *bytes, size_t size, Blob *blob) {
    *blob = (Blob){.bytes = bytes, .size = size, .wkb = bytes, .wkb_size = size};
    if (size >= 2 && memcmp(bytes, "GP", 2) == 0) return open_geopackage(blob);
    if (!is_spatialite(blob)) return NULL;
    blob->form = SPATIALITE;
    blob->srid = (int32_t)number_at(blob->bytes + SL_SRID_AT);
    blob->wkb = NULL;
    blob->wkb_size = size - SL_HEAD - 1;
    return NULL;
}

static size_t head_size(const Blob *given, bool is_full) {
    switch (given->form) {
    case GEOPACKAGE: return is_full ? GP_HEAD + BOX_SIZE : GP_HEAD;
    case SPATIALITE: return SL_HEAD;
    default: return 0;
    }
}

size_t blob_size(const Blob *given, const Geometry *left) {
    return head_size(given, left->counts.polygons > 0) + wkb_size(left) + (given->form == SPATIALITE);
}

static void find_box(const Geometry *left, Grid grid, double box[4]) {
    i_shape_point_i64 least = left->points[0], greatest = least;
    for (size_t k = 1; k < left->counts.points; k++) {
        i_shape_point_i64 point = left->points[k];
        least.x = point.x < least.x ? point.x : least.x;
        least.y = point.y < least.y ? point.y : least.y;
        greatest.x = point.x > greatest.x ? point.x : greatest.x;
        greatest.y = point.y > greatest.y ? point.y : greatest.y;
    }
    box[0] = brought_back(least.x, grid);
    box[1] = brought_back(greatest.x, grid);
    box[2] = brought_back(least.y, grid);
    box[3] = brought_back(greatest.y, grid);
}

static void write_geopackage(const Blob *given, const double *box, unsigned char *to) {
    const unsigned char head[] = {'G', 'P', 0, (unsigned char)(LOW_FIRST | (box ? BOX : EMPTY))};
    memcpy(to, head, sizeof head);
    memcpy(to + GP_SRID_AT, &given->srid, sizeof given->srid);
    if (box) memcpy(to + GP_HEAD, box, BOX_SIZE);
}

/* Around a WKB of so many bytes, whose parts are marked. */
static void write_spatialite(const Blob *given, const double box[4], size_t size, unsigned char *to) {
    const double corners[] = {box[0], box[2], box[1], box[3]};
    memcpy(to, given->bytes, SL_BOX_AT);
    memcpy(to + SL_BOX_AT, corners, BOX_SIZE);
    to[SL_HEAD] = SL_MARK;
    to[SL_HEAD + size] = SL_END;
}

void write_blob(const Blob *given, const Geometry *left, Grid grid, Pause pause, unsigned char *to) {
    bool is_full = left->counts.polygons > 0;
    size_t size = wkb_size(left);
    double box[4];
    write_wkb(left, grid, pause, to + head_size(given, is_full));
    if (given->form != PLAIN && is_full) find_box(left, grid, box);
    if (given->form == GEOPACKAGE) write_geopackage(given, is_full ? box : NULL, to);
    if (given->form != SPATIALITE || !is_full) return;
    if (left->is_multi) mark_parts(to + SL_HEAD, size, 1, SL_PART);
    write_spatialite(given, box, size, to);
}

size_t point_blob_size(const Blob *given, const MultiPoint *points) {
    return head_size(given, points->count > 0) + multipoint_size(points) + (given->form == SPATIALITE);
}

static void find_point_box(const MultiPoint *points, double box[4]) {
    box[0] = box[1] = points->points->x;
    box[2] = box[3] = points->points->y;
    for (const Position *point = points->points; point < points->points + points->count; point++) {
        box[0] = fmin(box[0], point->x);
        box[1] = fmax(box[1], point->x);
        box[2] = fmin(box[2], point->y);
        box[3] = fmax(box[3], point->y);
    }
}

static void mark_points(unsigned char *wkb, size_t count) {
    const size_t head = 9, part = 21;
    for (size_t k = 0; k < count; k++) wkb[head + k * part] = SL_PART;
}

void write_point_blob(const Blob *given, const MultiPoint *points, Pause pause, unsigned char *to) {
    bool is_full = points->count > 0;
    size_t head = head_size(given, is_full);
    double box[4];
    write_multipoint(points, pause, to + head);
    if (given->form != PLAIN && is_full) find_point_box(points, box);
    if (given->form == GEOPACKAGE) write_geopackage(given, is_full ? box : NULL, to);
    if (given->form != SPATIALITE || !is_full) return;
    mark_points(to + head, points->count);
    write_spatialite(given, box, multipoint_size(points), to);
}

static bool is_same_polygon(const Polygon *one, const Polygon *other) {
    bool is_same = one->count == other->count;
    for (size_t k = 0; is_same && k < one->count; k++) {
        Ring its = one->rings[k], others = other->rings[k];
        is_same = its.count == others.count && memcmp(its.points, others.points, its.count * sizeof *its.points) == 0;
    }
    return is_same;
}

static bool are_same_polygons(const Geometry *one, const Geometry *other) {
    bool are_same = one->counts.polygons == other->counts.polygons;
    for (size_t k = 0; are_same && k < one->counts.polygons; k++) are_same = is_same_polygon(one->polygons + k, other->polygons + k);
    return are_same;
}

bool is_unchanged(const Blob *given, const Geometry *read, const Geometry *left, const unsigned char *written) {
    if (given->form == PLAIN || given->wkb_size != wkb_size(left)) return false;
    /* Of SpatiaLite's, marks are among the bytes that are written. */
    bool is_as_written = given->form == GEOPACKAGE && given->wkb[0] == 1;
    if (is_as_written) return memcmp(written + head_size(given, left->counts.polygons > 0), given->wkb, given->wkb_size) == 0;
    return read->is_on_grid && !read->has_minus_zero && are_same_polygons(read, left);
}
