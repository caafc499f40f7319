/* Calls each function of i_shape.h with points, offsets and rooms that a seed determines, some of them wrong, and hashes all that each returns and writes. Builds whose
 * calls return and write the same have the same hashes, whatever their compiler, order of bytes and size of a size_t.
 *
 *     hashes -c FILE           compares with the hashes in the file, and ends with status 1 where one differs
 *     hashes [SEED [ROUNDS]]   prints them
 *
 * hashes.txt holds those of the library that Rattle's kit proves and builds: `make c`, and then
 *
 *     cc -Iinclude bindings/c/check/hashes.c bindings/c/out/libi_shape.a -o hashes && ./hashes > bindings/c/check/hashes.txt */
#include "i_shape.h"

#include <inttypes.h>
#include <stdio.h>
#include <stdlib.h>
#include <string.h>

enum { MOST = 256, MOST_ABOUT = 48, MOST_OFFSETS = 12 };

static uint64_t state;

static uint64_t any(void) {
    state ^= state << 13;
    state ^= state >> 7;
    state ^= state << 17;
    return state * UINT64_C(2685821657736338717);
}

/* A number from 0 to bound - 1. */
static size_t below(size_t bound) { return (size_t)(any() >> 33) % bound; }

static int one_in(size_t count) { return below(count) == 0; }

static uint64_t mixed(uint64_t hash, uint64_t number) {
    hash = (hash ^ number) * UINT64_C(0x9e3779b97f4a7c15);
    return hash ^ hash >> 29;
}

/* Each number by its value, so that neither the order of bytes nor the size of a size_t shows. */
#define MIX(hash, items, count) \
    for (size_t at = 0; at < (count); at++) (hash) = mixed(hash, (uint64_t)(int64_t)(items)[at])

/* An answer by a number that doesn't depend on the size of a ptrdiff_t. */
static uint64_t answer_of(int64_t answer) { return answer == I_SHAPE_NO_WINDING ? UINT64_C(1) << 63 : (uint64_t)answer; }

/* Offsets that rise to the end, and in one of twenty runs are wrong. */
static size_t make_offsets(size_t *offsets, size_t end) {
    const size_t count = below(MOST_OFFSETS) + 1;
    for (size_t k = 0; k < count; k++) {
        offsets[k] = below(end + 1);
        for (size_t at = k; at > 0 && offsets[at - 1] > offsets[at]; at--) {
            const size_t greater = offsets[at - 1];
            offsets[at - 1] = offsets[at];
            offsets[at] = greater;
        }
    }
    if (!one_in(4)) offsets[0] = 0;
    if (!one_in(4)) offsets[count - 1] = end;
    if (one_in(20)) {
        const size_t at = below(count);
        offsets[at] = below(end + 4);
    }
    return one_in(60) ? 0 : count;
}

/* Room for so many, and in a few runs less. */
static size_t room(size_t count) { return one_in(20) && count > 0 ? below(count) : count + below(3); }

/* What a call is given and writes, besides points. */
static size_t count, offset_count, shape_count, feature_count, about_count;
static size_t offsets[MOST_OFFSETS], shapes[MOST_OFFSETS], features[MOST_OFFSETS];
static size_t out_offsets[3][MOST_OFFSETS + 4];
static ptrdiff_t numbers[MOST_ABOUT + 4];
static uint8_t bytes[MOST_ABOUT + 4];
static int8_t places[MOST_ABOUT + 4];

static struct {
    size_t points, offsets, shapes, contours, about;
} room_of;

static void make_rooms(void) {
    room_of.points = room(count);
    room_of.offsets = room(offset_count);
    room_of.shapes = room(shape_count);
    room_of.contours = room(offset_count > 0 ? offset_count - 1 : 0);
    room_of.about = room(about_count);
}

static void clear(void) {
    memset(out_offsets, 0, sizeof out_offsets);
    memset(numbers, 0, sizeof numbers);
    memset(bytes, 0, sizeof bytes);
    memset(places, 0, sizeof places);
}

static uint64_t written(uint64_t hash) {
    for (size_t k = 0; k < 3; k++) MIX(hash, out_offsets[k], MOST_OFFSETS + 4);
    MIX(hash, numbers, MOST_ABOUT + 4);
    MIX(hash, bytes, MOST_ABOUT + 4);
    MIX(hash, places, MOST_ABOUT + 4);
    return hash;
}

/* The file to compare with, if there is one, and how many of its lines are those of this run. */
static FILE *recorded;
static int passed, failed;

/* Prints the line of a call, or compares it with the next one of the file. */
static void report(const char *name, uint64_t hash) {
    char line[80], wanted[80] = "";
    snprintf(line, sizeof line, "%016" PRIx64 " %s", hash, name);
    if (recorded == NULL) {
        puts(line);
        return;
    }
    if (fgets(wanted, sizeof wanted, recorded) != NULL) wanted[strcspn(wanted, "\r\n")] = 0;
    if (strcmp(line, wanted) == 0) {
        passed++;
    } else {
        failed++;
        printf("failed: %s: another line than the file's: %s\n", line, wanted);
    }
}

#define W 16
#define AREA int32_t
#define MIX_AREAS(hash, areas, count) MIX(hash, areas, count)
#include "hashes.h"
#define W 32
#define AREA int64_t
#define MIX_AREAS(hash, areas, count) MIX(hash, areas, count)
#include "hashes.h"
#define W 64
#define AREA i_shape_halves
#define MIX_AREAS(hash, areas, count) \
    for (size_t at = 0; at < (count); at++) (hash) = mixed(mixed(hash, (areas)[at].low), (areas)[at].high)
#include "hashes.h"

/* The calls that take no points. */
static void hash_offsets(size_t rounds) {
    uint64_t first_bad = 0, compact = 0;
    for (size_t round = 0; round < rounds; round++) {
        count = below(MOST);
        offset_count = make_offsets(offsets, count);
        shape_count = make_offsets(shapes, offset_count ? offset_count - 1 : 0);
        clear();
        first_bad = mixed(first_bad, i_shape_first_bad_offset(count, offsets, offset_count));
        make_rooms();
        compact = mixed(compact, (uint64_t)(int64_t)i_shape_compact_shapes(offsets, offset_count, shapes, shape_count, out_offsets[0], room_of.contours,
                                                                    out_offsets[1], room_of.shapes, out_offsets[2], room_of.offsets));
        compact = written(compact);
    }
    report("i_shape_first_bad_offset", first_bad);
    report("i_shape_compact_shapes", compact);
}

static void tell_all(uint64_t seed, size_t rounds) {
    state = seed * UINT64_C(0x9e3779b97f4a7c15) + 1;
    /* whether the library has the version of its header, and not which that is */
    report("i_shape_version", i_shape_version() == I_SHAPE_VERSION);
    hash_offsets(rounds);
    hash_i16(rounds);
    hash_i32(rounds);
    hash_i64(rounds);
    hash_contacts_i16(rounds);
    hash_contacts_i32(rounds);
    hash_contacts_i64(rounds);
    hash_validity_i16(rounds);
    hash_validity_i32(rounds);
    hash_validity_i64(rounds);
    hash_holders_i16(rounds);
    hash_holders_i32(rounds);
    hash_holders_i64(rounds);
    hash_all_contacts_i16(rounds);
    hash_all_contacts_i32(rounds);
    hash_all_contacts_i64(rounds);
    hash_forms_i16(rounds);
    hash_forms_i32(rounds);
    hash_forms_i64(rounds);
    hash_kinds_i16(rounds);
    hash_kinds_i32(rounds);
    hash_kinds_i64(rounds);
    hash_features_i16(rounds);
    hash_features_i32(rounds);
    hash_features_i64(rounds);
    hash_touching_i16(rounds);
    hash_touching_i32(rounds);
    hash_touching_i64(rounds);
}

int main(int argc, char **argv) {
    const int compares = argc == 3 && strcmp(argv[1], "-c") == 0;
    if (!compares) {
        tell_all(argc > 1 ? strtoull(argv[1], NULL, 10) : 1, argc > 2 ? (size_t)strtoul(argv[2], NULL, 10) : 1000);
        return 0;
    }
    recorded = fopen(argv[2], "r");
    if (recorded == NULL) {
        perror(argv[2]);
        return 2;
    }
    tell_all(1, 1000);
    if (fgetc(recorded) != EOF) {
        failed++;
        puts("failed: the file has more lines");
    }
    fclose(recorded);
    printf("%d passed, %d failed\n", passed, failed);
    return failed != 0;
}
