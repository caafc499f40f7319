/* Random polygons in WKB, and mutations of what bytes[] holds. One file of a program includes it. */
#include "polygons.h"

#include <stdio.h>
#include <stdlib.h>
#include <string.h>

static void must(bool holds, const char *what) {
    if (holds) return;
    printf("%s\n", what);
    exit(1);
}

static uint64_t state = 88172645463325252u;

static uint64_t below(uint64_t end) {
    state ^= state << 13;
    state ^= state >> 7;
    state ^= state << 17;
    return state % end;
}

static unsigned char bytes[1 << 14];
static size_t length;
static bool is_swapped, is_bare; /* bare: the low byte first, and no SRID */

static void put(const void *from, size_t size) {
    for (size_t k = 0; k < size; k++) bytes[length++] = ((const unsigned char *)from)[is_swapped ? size - 1 - k : k];
}

static void put_number(uint32_t number) {
    put(&number, sizeof number);
}

static void put_head(uint32_t type) {
    is_swapped = below(2) && !is_bare;
    bytes[length++] = (__BYTE_ORDER__ == __ORDER_LITTLE_ENDIAN__) != is_swapped;
    put_number(type);
}

/* On few places of the grid, so that vertices are collinear, and rings collapse and equal one another. */
static void put_ring(void) {
    uint32_t count = (uint32_t)below(12), side = 2 + (uint32_t)below(6);
    double first[2] = {0, 0};
    put_number(count);
    for (uint32_t k = 0; k < count; k++) {
        double xy[2] = {(double)below(side) - 2, (double)below(side) - 2};
        if (k == 0) memcpy(first, xy, sizeof xy);
        if (k + 1 == count && below(4)) memcpy(xy, first, sizeof xy);
        put(xy, sizeof *xy);
        put(xy + 1, sizeof *xy);
    }
}

static void put_polygon(void) {
    uint32_t rings = (uint32_t)below(5);
    put_number(rings);
    while (rings--) put_ring();
}

static void make_wkb(void) {
    bool is_multi = below(2), has_srid = below(2) && !is_bare;
    uint32_t parts = is_multi ? (uint32_t)below(5) : 0;
    length = 0;
    put_head((is_multi ? WKB_MULTIPOLYGON : WKB_POLYGON) | (has_srid ? 0x20000000u : 0));
    if (has_srid) put_number(4326);
    if (is_multi) put_number(parts);
    else put_polygon();
    while (parts--) {
        put_head(WKB_POLYGON);
        put_polygon();
    }
}

static void mutate(void) {
    switch (below(4)) {
    case 0: length = below(length + 1); break;
    case 1: bytes[below(length)] = (unsigned char)below(256); break;
    case 2: bytes[below(length < 30 ? length : 30)] = (unsigned char)below(256); break;
    default: bytes[below(length)] ^= (unsigned char)(1 << below(8));
    }
}
