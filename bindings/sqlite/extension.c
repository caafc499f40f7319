/* The extension of SQLite: functions over blobs of WKB, of GeoPackages and of SpatiaLite. An entry defines the calls of docs/SQLITE.md, and another one also
 * those that the triggers of a GeoPackage call. */
#include <math.h>
#include <setjmp.h>

#include "blobs.h"
#include "sha256.h"
#include <sqlite3ext.h>
SQLITE_EXTENSION_INIT1

enum { FLAGS = SQLITE_UTF8 | SQLITE_DETERMINISTIC | SQLITE_INNOCUOUS, MOST_HELD = 7, PAUSES = 64 };

/* ---- a call, which frees what it holds however it ends ---- */

typedef struct {
    sqlite3_context *context;
    sqlite3_stmt *look; /* for an interrupt, each so many PAUSES */
    int pauses, held_count;
    void *held[MOST_HELD]; /* a WKB, two geometries and an answer, or the WKB of a point, or offsets; or what points of contacts take */
    jmp_buf end;
} Call;

static _Noreturn void end_call(Call *call, int code) {
    if (code == SQLITE_NOMEM) sqlite3_result_error_nomem(call->context);
    else sqlite3_result_error_code(call->context, code);
    longjmp(call->end, 1);
}

static _Noreturn void end_with_error(Call *call, const char *format, ...) {
    va_list words;
    va_start(words, format);
    char *text = sqlite3_vmprintf(format, words);
    va_end(words);
    if (!text) end_call(call, SQLITE_NOMEM);
    sqlite3_result_error(call->context, text, -1);
    sqlite3_free(text);
    longjmp(call->end, 1);
}

/* A statement within a call ends where the connection is interrupted, and runs its progress handler, which a function doesn't. sqlite3_is_interrupted, from
 * 3.41 on, does the first alone. */
static void let_interrupt(void *host) {
    Call *call = host;
    if (++call->pauses % PAUSES) return;
    int code = SQLITE_OK;
    if (!call->look) code = sqlite3_prepare_v2(sqlite3_context_db_handle(call->context), "SELECT 1", -1, &call->look, NULL);
    if (code == SQLITE_OK) {
        code = sqlite3_step(call->look);
        int ended = sqlite3_reset(call->look);
        if (code == SQLITE_ROW) code = ended;
    }
    if (code == SQLITE_INTERRUPT || code == SQLITE_NOMEM) end_call(call, code);
}

static Pause pause_of(Call *call) {
    return (Pause){let_interrupt, call};
}

static void *take(Call *call, size_t size) {
    void *block = sqlite3_malloc64(size > 0 ? size : 1);
    if (!block) end_call(call, SQLITE_NOMEM);
    return call->held[call->held_count++] = block;
}

/* The answer is the block that was taken last, which SQLite then holds. */
static void answer_block(Call *call, size_t size) {
    sqlite3_result_blob64(call->context, call->held[--call->held_count], size, sqlite3_free);
}

/* ---- arguments ---- */

static const char *kind_of(sqlite3_value *value) {
    switch (sqlite3_value_type(value)) {
    case SQLITE_INTEGER: return "an integer";
    case SQLITE_FLOAT: return "a float";
    case SQLITE_TEXT: return "a text";
    default: return "a blob";
    }
}

static Grid grid_of(Call *call, sqlite3_value *value) {
    int type = sqlite3_value_type(value);
    double step = sqlite3_value_double(value);
    Grid grid;
    char text[FLOAT_SIZE];
    if (type != SQLITE_INTEGER && type != SQLITE_FLOAT) end_with_error(call, "i_shape: step is %s, not a finite number above 0", kind_of(value));
    if (make_grid(step, &grid)) return grid;
    put_float(step, text);
    end_with_error(call, "i_shape: step is %s, not a finite number above 0", text);
}

/* A third argument, which may be left out. */
static bool is_set(Call *call, const char *name, int count, sqlite3_value **values) {
    if (count < 3) return false;
    if (sqlite3_value_type(values[2]) != SQLITE_INTEGER) end_with_error(call, "i_shape: %s is %s, not 0 or 1", name, kind_of(values[2]));
    sqlite3_int64 number = sqlite3_value_int64(values[2]);
    if (number != 0 && number != 1) end_with_error(call, "i_shape: %s is %lld, not 0 or 1", name, number);
    return number == 1;
}

static Blob blob_of(Call *call, const char *name, sqlite3_value *value) {
    if (sqlite3_value_type(value) != SQLITE_BLOB)
        end_with_error(call, "i_shape: %s is %s, not a blob of WKB, GeoPackage or SpatiaLite", name, kind_of(value));
    const void *bytes = sqlite3_value_blob(value);
    size_t size = (size_t)sqlite3_value_bytes(value);
    Blob blob;
    if (!bytes && size > 0) end_call(call, SQLITE_NOMEM);
    const char *fault = open_blob(bytes ? bytes : "", size, &blob);
    if (!fault && blob.form == SPATIALITE) fault = copy_wkb(&blob, take(call, blob.wkb_size));
    if (fault) end_with_error(call, "i_shape: %s", fault);
    return blob;
}

static void end_with_fault(Call *call, Fault fault, const char *wanted) {
    char text[FAULT_SIZE];
    if (fault.kind == FINE) return;
    put_fault(&fault, wanted, text);
    end_with_error(call, "i_shape: %s", text);
}

static Geometry room_for(Call *call, Counts counts) {
    Geometry geometry = {.counts = counts};
    use_block(&geometry, take(call, block_size(counts)));
    return geometry;
}

/* What a function is called with. */
typedef struct {
    Grid grid;
    Blob blob;
    Geometry geometry;
} Given;

static Given given_by(Call *call, sqlite3_value *geom, sqlite3_value *step) {
    static const char wanted[] = "Polygon or a MultiPolygon";
    Given given = {.grid = grid_of(call, step)};
    Blob *blob = &given.blob;
    Counts counts;
    *blob = blob_of(call, "geom", geom);
    end_with_fault(call, count_wkb(blob->wkb, blob->wkb_size, pause_of(call), &counts), wanted);
    given.geometry = room_for(call, counts);
    end_with_fault(call, read_wkb(blob->wkb, blob->wkb_size, given.grid, pause_of(call), &given.geometry), wanted);
    return given;
}

/* ---- the calls ---- */

static Geometry cleaned(Call *call, const Given *given, Cleaner *cleaner) {
    Geometry left = room_for(call, given->geometry.counts);
    if (!clean_polygons(cleaner, &given->geometry, pause_of(call), &left)) end_call(call, SQLITE_NOMEM);
    return left;
}

static Geometry canonical(Call *call, const Given *given, bool oriented) {
    Geometry form = {.counts = given->geometry.counts};
    use_block(&form, take(call, form_block_size(form.counts)));
    if (!make_form(&given->geometry, oriented, pause_of(call), &form)) end_call(call, SQLITE_NOMEM);
    return form;
}

/* In the form of the blob that was given, which is the answer where nothing changes. */
static void answer_geometry(Call *call, sqlite3_value *geom, const Given *given, Geometry left) {
    const Blob *blob = &given->blob;
    if (blob->form == SPATIALITE && left.counts.polygons == 0) return;
    left.has_srid = left.has_srid && blob->form == PLAIN;
    size_t size = blob_size(blob, &left);
    unsigned char *bytes = take(call, size);
    write_blob(blob, &left, given->grid, pause_of(call), bytes);
    if (is_unchanged(blob, &given->geometry, &left, bytes)) sqlite3_result_value(call->context, geom);
    else answer_block(call, size);
}

static void clean(Call *call, sqlite3_value **values, Cleaner *cleaner) {
    Given given = given_by(call, values[0], values[1]);
    answer_geometry(call, values[0], &given, cleaned(call, &given, cleaner));
}

static void simplify(Call *call, int count, sqlite3_value **values) {
    (void)count;
    clean(call, values, i_shape_simplify_i64);
}

static void despike(Call *call, int count, sqlite3_value **values) {
    (void)count;
    clean(call, values, i_shape_despike_i64);
}

static Geometry form_of(Call *call, int count, sqlite3_value **values, Given *given) {
    bool oriented = is_set(call, "oriented", count, values);
    *given = given_by(call, values[0], values[1]);
    return canonical(call, given, oriented);
}

static void make_canonical(Call *call, int count, sqlite3_value **values) {
    Given given;
    Geometry form = form_of(call, count, values, &given);
    answer_geometry(call, values[0], &given, form);
}

/* NULL where nothing is left: a unique index takes many of these, and a join pairs none. */
static unsigned char *take_key(Call *call, int count, sqlite3_value **values, size_t *size) {
    Given given;
    Geometry form = form_of(call, count, values, &given);
    if (form.counts.polygons == 0) return NULL;
    *size = key_size(&form);
    unsigned char *key = take(call, *size);
    write_key(&form, pause_of(call), key);
    return key;
}

static void make_key(Call *call, int count, sqlite3_value **values) {
    size_t size;
    if (take_key(call, count, values, &size)) answer_block(call, size);
}

static void make_digest(Call *call, int count, sqlite3_value **values) {
    unsigned char digest[SHA256_SIZE];
    size_t size;
    unsigned char *key = take_key(call, count, values, &size);
    if (!key) return;
    sha256(key, size, digest);
    sqlite3_result_blob(call->context, digest, sizeof digest, SQLITE_TRANSIENT);
}

static void test_geometry(Call *call, sqlite3_value **values, bool (*holds)(const Geometry *geometry, Pause pause)) {
    Given given = given_by(call, values[0], values[1]);
    sqlite3_result_int(call->context, holds(&given.geometry, pause_of(call)));
}

static void test_clean(Call *call, int count, sqlite3_value **values) {
    (void)count;
    test_geometry(call, values, is_clean);
}

static void test_no_spikes(Call *call, int count, sqlite3_value **values) {
    (void)count;
    test_geometry(call, values, has_no_spikes);
}

static Invalidity invalidity_of(Call *call, int count, sqlite3_value **values, Given *given) {
    Rule rule = is_set(call, "touching", count, values) ? RINGS_MAY_TOUCH : RINGS_APART;
    *given = given_by(call, values[0], values[1]);
    size_t *offsets = take(call, (given->geometry.counts.rings + 1) * sizeof *offsets);
    Invalidity found;
    if (!find_invalidity(&given->geometry, rule, pause_of(call), offsets, &found)) end_call(call, SQLITE_NOMEM);
    return found;
}

static void test_valid(Call *call, int count, sqlite3_value **values) {
    Given given;
    sqlite3_result_int(call->context, invalidity_of(call, count, values, &given).kind == I_SHAPE_VALID);
}

/* NULL where the geometry is valid. */
static void tell_reason(Call *call, int count, sqlite3_value **values) {
    char text[REASON_SIZE];
    Given given;
    Invalidity found = invalidity_of(call, count, values, &given);
    if (found.kind == I_SHAPE_VALID) return;
    put_reason(&found, given.grid, text);
    sqlite3_result_text(call->context, text, -1, SQLITE_TRANSIENT);
}

/* The first room is enough where each edge is in contact with two others, so that contacts are seldom listed twice. */
static const i_shape_contact *contacts_of(Call *call, const Geometry *geometry, size_t *count) {
    size_t room = geometry->counts.points;
    size_t *offsets = take(call, (geometry->counts.rings + 1) * sizeof *offsets);
    i_shape_contact *contacts = take(call, room * sizeof *contacts);
    *count = list_contacts(geometry, pause_of(call), offsets, contacts, room);
    if (*count <= room) return contacts;
    contacts = take(call, *count * sizeof *contacts);
    list_contacts(geometry, pause_of(call), offsets, contacts, *count);
    return contacts;
}

/* In the form of the blob that was given. */
static void find_points(Call *call, int count, sqlite3_value **values) {
    (void)count;
    Given given = given_by(call, values[0], values[1]);
    size_t contact_count;
    const i_shape_contact *contacts = contacts_of(call, &given.geometry, &contact_count);
    Position *room = take(call, 2 * contact_count * sizeof *room);
    MultiPoint points = find_contact_points(&given.geometry, contacts, contact_count, given.grid, pause_of(call), room);
    if (given.blob.form == SPATIALITE && points.count == 0) return;
    points.has_srid = points.has_srid && given.blob.form == PLAIN;
    size_t size = point_blob_size(&given.blob, &points);
    write_point_blob(&given.blob, &points, pause_of(call), take(call, size));
    answer_block(call, size);
}

static void measure_area(Call *call, int count, sqlite3_value **values) {
    (void)count;
    Given given = given_by(call, values[0], values[1]);
    __int128 area = area_two(&given.geometry, pause_of(call));
    if (area > INT64_MAX || area < INT64_MIN) end_with_error(call, "i_shape: twice the area needs more than 64 bits, which an integer has");
    sqlite3_result_int64(call->context, (sqlite3_int64)area);
}

/* Where a Point lies on the grid; it is false where the Point is empty. */
static bool place_of(Call *call, sqlite3_value *point, Grid grid, i_shape_point_i64 *place, int32_t *srid) {
    Blob blob = blob_of(call, "point", point);
    double xy[2];
    char x[FLOAT_SIZE], y[FLOAT_SIZE];
    end_with_fault(call, read_point_wkb(blob.wkb, blob.wkb_size, xy, srid), "Point");
    if (blob.form != PLAIN) *srid = blob.srid;
    if (isnan(xy[0]) && isnan(xy[1])) return false;
    if (to_grid(xy, grid, place)) return true;
    put_float(xy[0], x);
    put_float(xy[1], y);
    end_with_error(call, "i_shape: the point (%s, %s) is 2^49 steps or more from 0, isn't finite, or rounds to no float", x, y);
}

static void count_windings(Call *call, int count, sqlite3_value **values) {
    (void)count;
    Given given = given_by(call, values[0], values[2]);
    i_shape_point_i64 place;
    int32_t srid, own_srid = given.blob.form == PLAIN ? given.geometry.srid : given.blob.srid;
    bool is_there = place_of(call, values[1], given.grid, &place, &srid);
    if (own_srid != srid) end_with_error(call, "i_shape: the SRID of the polygon is %d, and that of the point %d", own_srid, srid);
    if (is_there) sqlite3_result_int64(call->context, winding(&given.geometry, place, pause_of(call)));
}

typedef struct {
    const char *name;
    int least, most; /* arguments */
    void (*run)(Call *call, int count, sqlite3_value **values);
} Function;

static const Function functions[] = {
    {"i_shape_simplify", 2, 2, simplify},     {"i_shape_despike", 2, 2, despike},        {"i_shape_canonical", 2, 3, make_canonical},
    {"i_shape_key", 2, 3, make_key},          {"i_shape_digest", 2, 3, make_digest},     {"i_shape_is_clean", 2, 2, test_clean},
    {"i_shape_area_two", 2, 2, measure_area}, {"i_shape_winding", 3, 3, count_windings}, {"i_shape_has_no_spikes", 2, 2, test_no_spikes},
    {"i_shape_is_valid", 2, 3, test_valid},   {"i_shape_validity_reason", 2, 3, tell_reason}, {"i_shape_contact_points", 2, 2, find_points},
};

/* By itself, so that no variable of a function that calls setjmp changes. */
static void run(Call *call, int count, sqlite3_value **values) {
    const Function *function = sqlite3_user_data(call->context);
    if (!setjmp(call->end)) function->run(call, count, values);
}

static void run_function(sqlite3_context *context, int count, sqlite3_value **values) {
    Call call = {.context = context};
    for (int k = 0; k < count; k++)
        if (sqlite3_value_type(values[k]) == SQLITE_NULL) return;
    run(&call, count, values);
    sqlite3_finalize(call.look);
    while (call.held_count > 0) sqlite3_free(call.held[--call.held_count]);
}

static void tell_version(sqlite3_context *context, int count, sqlite3_value **values) {
    (void)count, (void)values;
    uint32_t version = i_shape_version();
    char *text = sqlite3_mprintf("%u.%u.%u", version >> 16, version >> 8 & 255, version & 255);
    if (text) sqlite3_result_text(context, text, -1, sqlite3_free);
    else sqlite3_result_error_nomem(context);
}

/* ---- what the triggers of a GeoPackage call ---- */

static void tell_side(sqlite3_context *context, int count, sqlite3_value **values) {
    (void)count;
    uintptr_t side = (uintptr_t)sqlite3_user_data(context);
    double box[4];
    if (sqlite3_value_type(values[0]) != SQLITE_BLOB) return;
    const void *bytes = sqlite3_value_blob(values[0]);
    if (bytes && box_of_blob(bytes, (size_t)sqlite3_value_bytes(values[0]), box)) sqlite3_result_double(context, box[side]);
}

static void tell_empty(sqlite3_context *context, int count, sqlite3_value **values) {
    (void)count;
    bool is_empty;
    if (sqlite3_value_type(values[0]) != SQLITE_BLOB) return;
    const void *bytes = sqlite3_value_blob(values[0]);
    if (bytes && says_empty(bytes, (size_t)sqlite3_value_bytes(values[0]), &is_empty)) sqlite3_result_int(context, is_empty);
}

/* ---- the entries ---- */

#define ENTRY(name)                                                                                                    \
    __attribute__((visibility("default"))) int name(sqlite3 *database, char **error, const sqlite3_api_routines *api); \
    int name(sqlite3 *database, char **error, const sqlite3_api_routines *api)

typedef void Run(sqlite3_context *context, int count, sqlite3_value **values);

static int define(sqlite3 *database, const char *name, int count, const void *what, Run *its) {
    return sqlite3_create_function(database, name, count, FLAGS, (void *)what, its, NULL, NULL);
}

static int define_calls(sqlite3 *database) {
    int code = define(database, "i_shape_version", 0, NULL, tell_version);
    for (const Function *function = functions; function < functions + sizeof functions / sizeof *functions; function++)
        for (int count = function->least; code == SQLITE_OK && count <= function->most; count++)
            code = define(database, function->name, count, function, run_function);
    return code;
}

/* Else a program would end where a call comes to such an instruction. */
static bool has_processor(char **error) {
    (void)error;
#if defined X86_64_V2
    if (!__builtin_cpu_supports("sse4.2") || !__builtin_cpu_supports("popcnt")) {
        *error = sqlite3_mprintf("i_shape: the processor has no SSE4.2, for which the C library is built: build the extension with CPU=x86-64");
        return false;
    }
#endif
    return true;
}

ENTRY(sqlite3_modishape_init) {
    SQLITE_EXTENSION_INIT2(api);
    (void)api;
    return has_processor(error) ? define_calls(database) : SQLITE_ERROR;
}

/* The entry of a file that has another name. */
ENTRY(sqlite3_extension_init) {
    return sqlite3_modishape_init(database, error, api);
}

ENTRY(sqlite3_modishapegpkg_init) {
    static const char *const sides[] = {"ST_MinX", "ST_MaxX", "ST_MinY", "ST_MaxY"};
    int code = sqlite3_modishape_init(database, error, api);
    for (uintptr_t side = 0; code == SQLITE_OK && side < 4; side++) code = define(database, sides[side], 1, (const void *)side, tell_side);
    return code == SQLITE_OK ? define(database, "ST_IsEmpty", 1, NULL, tell_empty) : code;
}
