/* The keys that a program in C makes of the polygons in FOLDER, by docs/DATA.md from what one call returns, into the file FOLDER/c: each behind its length, 64
 * bits. It prints the seconds of processor time that the keys take. usage: keys FOLDER */
#include <stdint.h>
#include <stdio.h>
#include <stdlib.h>
#include <string.h>
#include <time.h>

#include "i_shape.h"

#if __BYTE_ORDER__ != __ORDER_LITTLE_ENDIAN__
#error "words are written as the machine has them"
#endif

static const uint64_t OF_POLYGON = UINT64_C(1) << 62;

static FILE *opened(const char *folder, const char *name, const char *how) {
    char path[4096];
    snprintf(path, sizeof path, "%s/%s", folder, name);
    FILE *file = fopen(path, how);
    if (!file) perror(path), exit(1);
    return file;
}

static void *taken(size_t size) {
    void *block = malloc(size + 1);
    if (!block) perror("keys"), exit(1);
    return block;
}

/* The items of a file, each of so many bytes. */
static void *read_all(const char *folder, const char *name, size_t size, size_t *count) {
    FILE *file = opened(folder, name, "rb");
    fseek(file, 0, SEEK_END);
    *count = (size_t)ftell(file) / size;
    rewind(file);
    void *items = taken(*count * size);
    if (fread(items, size, *count, file) != *count) perror(name), exit(1);
    fclose(file);
    return items;
}

static size_t *read_offsets(const char *folder, const char *name, size_t *count) {
    uint32_t *numbers = read_all(folder, name, sizeof *numbers, count);
    size_t *offsets = taken(*count * sizeof *offsets);
    for (size_t k = 0; k < *count; k++) offsets[k] = numbers[k];
    free(numbers);
    return offsets;
}

static double now(void) {
    struct timespec time;
    clock_gettime(CLOCK_PROCESS_CPUTIME_ID, &time);
    return (double)time.tv_sec + 1e-9 * (double)time.tv_nsec;
}

static uint64_t *put_ring(uint64_t *at, const i_shape_point_i32 *points, size_t count) {
    *at++ = count;
    for (size_t k = 0; k < count; k++) {
        *at++ = (uint64_t)points[k].x;
        *at++ = (uint64_t)points[k].y;
    }
    return at;
}

/* The key of the form whose rings lie between some offsets, behind its length. */
static uint64_t *put_key(uint64_t *at, const i_shape_point_i32 *points, const size_t *offsets, size_t ring_count) {
    uint64_t *length = at++, *head = at++;
    *length = 0;
    if (offsets[0] == offsets[1]) return head;
    *head = OF_POLYGON;
    for (size_t k = 0; k < ring_count; k++) {
        size_t count = offsets[k + 1] - offsets[k];
        if (count == 0) continue;
        at = put_ring(at, points + offsets[k], count);
        ++*head;
    }
    *length = (size_t)(at - head) * sizeof *at;
    return at;
}

int main(int count, char **words) {
    if (count != 2) return 2;
    const char *folder = words[1];
    size_t point_count, ring_count, polygon_count;
    i_shape_point_i32 *points = read_all(folder, "points", sizeof *points, &point_count);
    size_t *rings = read_offsets(folder, "rings", &ring_count), *polygons = read_offsets(folder, "polygons", &polygon_count);
    double start = now();
    i_shape_point_i32 *form = taken(point_count * sizeof *form);
    size_t *form_rings = taken(ring_count * sizeof *form_rings);
    uint64_t *keys = taken((2 * point_count + ring_count + 2 * polygon_count) * sizeof *keys), *end = keys;
    ptrdiff_t left = i_shape_canonical_unoriented_polygons_i32(points, point_count, rings, ring_count, polygons, polygon_count, form, point_count, form_rings,
                                                               ring_count);
    if (left < 0) return 1;
    for (size_t k = 0; k + 1 < polygon_count; k++) end = put_key(end, form, form_rings + polygons[k], polygons[k + 1] - polygons[k]);
    printf("%.3f\n", now() - start);
    FILE *file = opened(folder, "c", "wb");
    fwrite(keys, sizeof *keys, (size_t)(end - keys), file);
    return fclose(file) ? 1 : 0;
}
