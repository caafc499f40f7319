/* COUNT mutated blobs of random polygons, and a quarter as many as they are, in each form through the calls in SQLite, for the address sanitizer: each blob
 * ends where its memory does. What is left is compared with itself when it is read again, and its key with that of the blob. Then each growth of SQLite and of
 * the C library fails in turn. usage: fuzz COUNT */
#include "blobs.h"
#include "tests/random_wkb.h"
#include "tests/failing.h"

#include <sqlite3ext.h>

int sqlite3_modishapegpkg_init(sqlite3 *database, char **error, const sqlite3_api_routines *api);

/* ---- SQLite, and its memory ---- */

static sqlite3_mem_methods own;
static size_t until; /* the next that fails; 0 where none does */

static bool fails_now(void) {
    return until > 0 && --until == 0;
}

static void *take_block(int size) {
    return fails_now() ? NULL : own.xMalloc(size);
}

static void *grow_block(void *block, int size) {
    return fails_now() ? NULL : own.xRealloc(block, size);
}

static void set_memory(void) {
    must(sqlite3_config(SQLITE_CONFIG_GETMALLOC, &own) == SQLITE_OK, "no methods of memory");
    sqlite3_mem_methods tried = own;
    tried.xMalloc = take_block;
    tried.xRealloc = grow_block;
    must(sqlite3_config(SQLITE_CONFIG_MALLOC, &tried) == SQLITE_OK && sqlite3_config(SQLITE_CONFIG_LOOKASIDE, 0, 0) == SQLITE_OK, "no memory of its own");
}

enum { SIMPLIFY, DESPIKE, CANONICAL, KEY, DIGEST, IS_CLEAN, HAS_NO_SPIKES, IS_VALID, REASON, CONTACT_POINTS, AREA_TWO, WINDING, SIDES, CALLS };
static const char *const words[CALLS] = {
    "SELECT i_shape_simplify(?1, ?2)",    "SELECT i_shape_despike(?1, ?2)",  "SELECT i_shape_canonical(?1, ?2, ?3)",
    "SELECT i_shape_key(?1, ?2, ?3)",     "SELECT i_shape_digest(?1, ?2, ?3)", "SELECT i_shape_is_clean(?1, ?2)",
    "SELECT i_shape_has_no_spikes(?1, ?2)", "SELECT i_shape_is_valid(?1, ?2)", "SELECT i_shape_validity_reason(?1, ?2)",
    "SELECT i_shape_contact_points(?1, ?2)", "SELECT i_shape_area_two(?1, ?2)", "SELECT i_shape_winding(?1, ?4, ?2)",
    "SELECT ST_MinX(?1), ST_MaxX(?1), ST_MinY(?1), ST_MaxY(?1), ST_IsEmpty(?1)"};
static sqlite3 *database;
static sqlite3_stmt *calls[CALLS];

static void open_database(void) {
    must(sqlite3_open(":memory:", &database) == SQLITE_OK && sqlite3_modishapegpkg_init(database, NULL, NULL) == SQLITE_OK, "no database");
    for (int call = 0; call < CALLS; call++) must(sqlite3_prepare_v2(database, words[call], -1, calls + call, NULL) == SQLITE_OK, sqlite3_errmsg(database));
}

static void close_database(void) {
    for (int call = 0; call < CALLS; call++) sqlite3_finalize(calls[call]);
    must(sqlite3_close(database) == SQLITE_OK, "a statement is left");
    sqlite3_shutdown();
    must(sqlite3_memory_used() == 0 && blocks == 0, "memory is left");
}

typedef struct {
    unsigned char *at;
    size_t size;
} Block;

static Block copy_of(const void *at, size_t size) {
    Block block = {malloc(size ? size : 1), size};
    if (size) memcpy(block.at, at, size);
    return block;
}

static double step = 1;
static int oriented;
static Block point; /* that winding is asked about */

/* The code of a call; the statement holds the answer. */
static int ask(int call, Block blob) {
    sqlite3_reset(calls[call]);
    sqlite3_bind_blob(calls[call], 1, blob.at, (int)blob.size, SQLITE_STATIC);
    if (call < SIDES) sqlite3_bind_double(calls[call], 2, step);
    if (call >= CANONICAL && call <= DIGEST) sqlite3_bind_int(calls[call], 3, oriented);
    if (call == WINDING) sqlite3_bind_blob(calls[call], 4, point.at, (int)point.size, SQLITE_STATIC);
    return sqlite3_step(calls[call]);
}

/* A copy of the answer, of size 0 where it is NULL. */
static Block answer(int call, Block blob) {
    must(ask(call, blob) == SQLITE_ROW, sqlite3_errmsg(database));
    const void *at = sqlite3_column_blob(calls[call], 0);
    return copy_of(at, (size_t)sqlite3_column_bytes(calls[call], 0));
}

static bool is_equal(Block one, Block other) {
    return one.size == other.size && memcmp(one.at, other.at, one.size) == 0;
}

static bool has_answer(int call, Block blob, Block wanted) {
    Block its = answer(call, blob);
    bool is_same = is_equal(its, wanted);
    free(its.at);
    return is_same;
}

/* ---- blobs ---- */

/* The parts of a MultiPolygon with the low byte first. */
static void mark_random_parts(unsigned char *wkb) {
    uint32_t parts, rings, points;
    memcpy(&parts, wkb + 5, 4);
    for (wkb += 9; parts > 0; parts--) {
        *wkb = 0x69;
        memcpy(&rings, wkb + 5, 4);
        for (wkb += 9; rings > 0; rings--, wkb += 4 + 16 * (size_t)points) memcpy(&points, wkb, 4);
    }
}

static void shift(size_t by) {
    memmove(bytes + by, bytes, length);
    length += by;
}

static void wrap_geopackage(void) {
    static const size_t boxes[] = {0, 32, 48, 48, 64};
    size_t kind = below(5), head = 8 + boxes[kind];
    shift(head);
    for (size_t k = 8; k < head; k++) bytes[k] = (unsigned char)below(256);
    memcpy(bytes, "GP", 3);
    bytes[3] = (unsigned char)(kind << 1 | below(2));
    memcpy(bytes + 4, "\0\0\x10\xe6", 4);
}

/* Of WKB that is bare. */
static void wrap_spatialite(void) {
    if (bytes[1] == WKB_MULTIPOLYGON) mark_random_parts(bytes);
    shift(38);
    memset(bytes, 0, 38);
    bytes[1] = 1;
    bytes[38] = 0x7C;
    bytes[length++] = 0xFE;
}

static void make_blob(bool is_point) {
    uint64_t form = below(3);
    is_bare = is_point || form == 2;
    if (is_point) {
        length = 21;
        memcpy(bytes, "\1\1\0\0\0\0\0\0\0\0\0\xf0?\0\0\0\0\0\0\xf0?", length);
    } else {
        make_wkb();
    }
    if (form == 1) wrap_geopackage();
    if (form == 2) wrap_spatialite();
}

static void mutate_blob(void) {
    for (uint64_t k = below(4) + 1; k-- && length;) mutate();
}

static void make_point(void) {
    make_blob(true);
    if (below(4)) mutate_blob();
    free(point.at);
    point = copy_of(bytes, length);
}

/* ---- what is asked of each ---- */

static void check_left(Block given, Block left, int call) {
    must(has_answer(call, left, left), "cleaned again it is another one");
    Block key = answer(KEY, given);
    must(has_answer(KEY, left, key), "what is left has another key");
    free(key.at);
}

/* A blob that is taken is valid where there is no reason why not. */
static void check_validity(Block given) {
    must(ask(IS_VALID, given) == SQLITE_ROW && ask(REASON, given) == SQLITE_ROW, sqlite3_errmsg(database));
    must(sqlite3_column_int(calls[IS_VALID], 0) == (sqlite3_column_type(calls[REASON], 0) == SQLITE_NULL), "the verdict isn't that of the reason");
}

/* Returns whether the calls take the blob. */
static bool check_bytes(void) {
    Block given = copy_of(bytes, length);
    step = below(4) ? 1 : 0.3;
    oriented = (int)below(2);
    for (int call = AREA_TWO; call < CALLS; call++) ask(call, given);
    bool is_taken = ask(SIMPLIFY, given) == SQLITE_ROW;
    /* An area may have more than 64 bits. */
    for (int call = DESPIKE; call < AREA_TWO; call++) must((ask(call, given) == SQLITE_ROW) == is_taken, "one call takes what another one rejects");
    if (is_taken) check_validity(given);
    for (int call = SIMPLIFY; is_taken && call <= CANONICAL; call++) {
        Block left = answer(call, given);
        if (left.size > 0) check_left(given, left, call);
        int test = call == DESPIKE ? HAS_NO_SPIKES : IS_CLEAN;
        must(left.size == 0 || (ask(test, left) == SQLITE_ROW && sqlite3_column_int(calls[test], 0)), "what is left isn't clean");
        free(left.at);
    }
    for (int call = 0; call < CALLS; call++) sqlite3_reset(calls[call]);
    free(given.at);
    return is_taken;
}

/* ---- failed allocations ---- */

/* Of many polygons, so that the call looks for an interrupt. */
static void make_many(void) {
    uint32_t parts = 90;
    length = 0;
    is_swapped = false;
    put("\1", 1);
    put_number(WKB_MULTIPOLYGON);
    put_number(parts);
    while (parts--) {
        const double xy[] = {0, 0, 2, 0, 4, 0, 4, 4, 4, 7, 4, 4, 0, 0};
        put("\1\3\0\0\0\1\0\0\0\7\0\0\0", 13);
        for (size_t k = 0; k < sizeof xy / sizeof *xy; k++) put(xy + k, sizeof *xy);
    }
}

/* The growth of a number fails, of the C library or of SQLite, which may do without. It returns whether that is reported. */
static bool reports_failure(int call, Block blob, size_t number, bool of_library) {
    growths = 0;
    *(of_library ? &failing : &until) = number;
    int code = ask(call, blob);
    sqlite3_reset(calls[call]);
    failing = 0;
    must(code == SQLITE_NOMEM || (code == SQLITE_ROW && !of_library), "a growth that fails is not reported");
    return code == SQLITE_NOMEM;
}

/* Each growth. It returns how many were reported. */
static size_t fail_growths(int call, Block blob, bool of_library) {
    size_t told = 0;
    ask(call, blob);
    growths = 0;
    ask(call, blob);
    size_t all = of_library ? growths : SIZE_MAX;
    for (size_t number = 1; number <= all && until == 0; number++) told += reports_failure(call, blob, number, of_library);
    until = 0;
    must(ask(call, blob) == SQLITE_ROW, "the connection doesn't go on");
    return told;
}

static void check_failed_growths(void) {
    size_t told[2] = {0, 0};
    make_many();
    Block blob = copy_of(bytes, length);
    for (int call = SIMPLIFY; call < WINDING; call++)
        for (int of_library = 0; of_library < 2; of_library++) told[of_library] += fail_growths(call, blob, of_library);
    must(told[0] >= 20 && told[1] >= 100, "it takes no memory");
    free(blob.at);
}

int main(int count, char **arguments) {
    long rounds = count > 1 ? atol(arguments[1]) : 100000, taken = 0;
    set_memory();
    open_database();
    for (long round = 0; round < rounds; round++) {
        make_point();
        make_blob(false);
        if (round % 4 == 0) must(check_bytes(), "a blob isn't read");
        mutate_blob();
        taken += check_bytes();
    }
    check_failed_growths();
    free(point.at);
    close_database();
    printf("%ld of %ld taken\n", taken, rounds);
    return 0;
}
