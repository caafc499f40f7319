/* COUNT polygons of random numbers that SEED begins, in FOLDER: points (int32), rings and polygons (uint32, offsets), and originals (uint32): for each polygon
 * the index of that which it repeats, or its own. usage: polygons COUNT SEED FOLDER
 *
 * Rings have 4 to 12 points, and polygons up to four holes. Points repeat, go straight on and turn back, and some rings collapse. A third of the polygons repeat
 * an earlier one: each ring from another start, every second one backwards, the holes in another order, and where a ring has room with a point more. */
#include <stdint.h>
#include <stdio.h>
#include <stdlib.h>

enum { MOST_POINTS = 12, MOST_RINGS = 5, BOX = 12, WIDE = 1 << 29 };

typedef struct {
    int32_t x, y;
} Point;

typedef struct {
    int count;
    Point points[MOST_POINTS];
} Ring;

typedef struct {
    uint32_t original;
    int count;
    Ring rings[MOST_RINGS];
} Polygon;

static uint64_t state;

/* A number from 0 to before the bound, by SplitMix64. */
static int32_t below(int32_t bound) {
    uint64_t z = state += 0x9E3779B97F4A7C15;
    z = (z ^ z >> 30) * 0xBF58476D1CE4E5B9;
    z = (z ^ z >> 27) * 0x94D049BB133111EB;
    return (int32_t)((z ^ z >> 31) >> 33) % bound;
}

static void shuffle(Ring *rings, int count) {
    for (int k = count - 1; k > 0; k--) {
        int other = below(k + 1);
        Ring ring = rings[k];
        rings[k] = rings[other];
        rings[other] = ring;
    }
}

/* ---- new polygons ---- */

static Point point_near(Point centre) {
    return (Point){centre.x + below(2 * BOX) - BOX, centre.y + below(2 * BOX) - BOX};
}

static Point next_point(const Ring *ring, Point centre) {
    if (ring->count < 2) return point_near(centre);
    Point last = ring->points[ring->count - 1], before = ring->points[ring->count - 2];
    switch (below(8)) {
    case 0: return last;
    case 1: return before;
    case 2: return (Point){2 * last.x - before.x, 2 * last.y - before.y};
    default: return point_near(centre);
    }
}

static void draw_ring(Ring *ring, Point centre) {
    int count = 4 + below(MOST_POINTS - 3);
    for (ring->count = 0; ring->count < count; ring->count++) ring->points[ring->count] = next_point(ring, centre);
}

/* Every second one about 0, where coordinates have both signs. */
static void draw(Polygon *polygon) {
    Point centre = below(2) ? (Point){0, 0} : (Point){below(2 * WIDE) - WIDE, below(2 * WIDE) - WIDE};
    polygon->count = 1 + below(MOST_RINGS);
    for (int k = 0; k < polygon->count; k++) draw_ring(polygon->rings + k, centre);
}

/* ---- repeats ---- */

static void insert(Ring *ring, int place, Point point) {
    for (int k = ring->count++; k > place; k--) ring->points[k] = ring->points[k - 1];
    ring->points[place] = point;
}

/* A point in the middle of an edge, or where that isn't whole its first point again. */
static void add_point(Ring *ring) {
    int place = below(ring->count);
    Point a = ring->points[place], b = ring->points[(place + 1) % ring->count];
    Point middle = {a.x + (b.x - a.x) / 2, a.y + (b.y - a.y) / 2};
    insert(ring, place + 1, (b.x - a.x) % 2 || (b.y - a.y) % 2 ? a : middle);
}

static void add_spike(Ring *ring) {
    int place = below(ring->count);
    Point foot = ring->points[place];
    insert(ring, place + 1, point_near(foot));
    insert(ring, place + 2, foot);
}

static void write_anew(Ring *ring) {
    Ring given = *ring;
    int start = below(given.count), step = below(2) ? 1 : given.count - 1;
    for (int k = 0; k < given.count; k++) ring->points[k] = given.points[(start + k * step) % given.count];
    if (ring->count < MOST_POINTS && below(2)) add_point(ring);
    if (ring->count < MOST_POINTS - 1 && below(4) == 0) add_spike(ring);
}

static void repeat(Polygon *polygon, const Polygon *earlier) {
    *polygon = *earlier;
    for (int k = 0; k < polygon->count; k++) write_anew(polygon->rings + k);
    shuffle(polygon->rings + 1, polygon->count - 1);
}

/* ---- files ---- */

static FILE *opened(const char *folder, const char *name) {
    char path[4096];
    snprintf(path, sizeof path, "%s/%s", folder, name);
    FILE *file = fopen(path, "wb");
    if (!file) perror(path), exit(1);
    return file;
}

static void put_number(FILE *file, uint32_t number) {
    fwrite(&number, sizeof number, 1, file);
}

static void write_all(const char *folder, const Polygon *all, uint32_t count) {
    FILE *points = opened(folder, "points"), *rings = opened(folder, "rings"), *polygons = opened(folder, "polygons"), *originals = opened(folder, "originals");
    uint32_t point_count = 0, ring_count = 0;
    put_number(rings, 0);
    put_number(polygons, 0);
    for (const Polygon *polygon = all; polygon < all + count; polygon++) {
        for (const Ring *ring = polygon->rings; ring < polygon->rings + polygon->count; ring++) {
            fwrite(ring->points, sizeof *ring->points, (size_t)ring->count, points);
            put_number(rings, point_count += (uint32_t)ring->count);
        }
        put_number(polygons, ring_count += (uint32_t)polygon->count);
        put_number(originals, polygon->original);
    }
    if (fclose(points) | fclose(rings) | fclose(polygons) | fclose(originals)) perror(folder), exit(1);
}

int main(int count, char **words) {
    if (count != 4) return 2;
    uint32_t polygon_count = (uint32_t)strtoul(words[1], NULL, 10);
    state = strtoull(words[2], NULL, 10);
    Polygon *all = malloc(polygon_count * sizeof *all);
    if (!all) return 1;
    for (uint32_t k = 0; k < polygon_count; k++) {
        const Polygon *earlier = k > 0 && below(3) == 0 ? all + below((int32_t)k) : NULL;
        if (earlier) repeat(all + k, earlier);
        else draw(all + k);
        all[k].original = earlier ? earlier->original : k;
    }
    write_all(words[3], all, polygon_count);
    free(all);
    return 0;
}
