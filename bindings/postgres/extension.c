/* The extension of PostgreSQL: functions over WKB in bytea, of which i_shape--*.sql make those over geometry. */
#include "postgres.h"

#include <math.h>

#include "common/shortest_dec.h"
#include "fmgr.h"
#include "miscadmin.h"
#include "utils/builtins.h"
#include "utils/memutils.h"

#include "polygons.h"

PG_MODULE_MAGIC;

StaticAssertDecl(USE_FLOAT8_BYVAL, "a server of 64 bits");

/* The longest answer that a server takes, but where a test lowers it. */
#ifndef MOST_BYTES
#define MOST_BYTES MaxAllocSize
#endif

PGDLLEXPORT void _PG_init(void);

/* Else a server would end, with all its sessions, where a call comes to such an instruction. */
void _PG_init(void) {
#if defined X86_64_V2
    if (!__builtin_cpu_supports("sse4.2") || !__builtin_cpu_supports("popcnt"))
        ereport(ERROR, errcode(ERRCODE_FEATURE_NOT_SUPPORTED), errmsg("i_shape: the processor has no SSE4.2, for which the C library is built"),
                errhint("Build the extension with CPU=x86-64."));
#endif
}

/* May end the call, and so the memory contexts free what it holds. It runs between calls of the library, which allocates by malloc: no error of the server
 * jumps over one. */
static void check_for_interrupts(void *unused) {
    CHECK_FOR_INTERRUPTS();
}

static const Pause let_interrupt = {check_for_interrupts, NULL};

/* ---- errors ---- */

static int code_of(FaultKind kind) {
    switch (kind) {
    case NOT_WKB: return ERRCODE_INVALID_BINARY_REPRESENTATION;
    case MIXED_SRIDS: return ERRCODE_INVALID_PARAMETER_VALUE;
    case OUT_OF_RANGE: return ERRCODE_NUMERIC_VALUE_OUT_OF_RANGE;
    default: return ERRCODE_FEATURE_NOT_SUPPORTED;
    }
}

/* Of what isn't fine, where wanted names the type that is. */
static void raise_fault(const Fault *fault, const char *wanted) {
    char text[FAULT_SIZE];
    if (fault->kind == FINE) return;
    put_fault(fault, wanted, text);
    bool is_curve = fault->kind == OTHER_TYPE && fault->type >= WKB_CIRCULARSTRING && fault->type <= WKB_CURVE;
    ereport(ERROR, errcode(code_of(fault->kind)), errmsg("i_shape: %s", text),
            is_curve ? errhint("Use ST_CurveToLine first.") : fault->kind == HAS_Z_OR_M ? errhint("Use ST_Force2D first.") : 0);
}

static void raise_no_memory(void) {
    ereport(ERROR, errcode(ERRCODE_OUT_OF_MEMORY), errmsg("i_shape: out of memory"));
}

/* ---- arguments and results ---- */

static Grid grid_of(float8 step) {
    Grid grid;
    if (!make_grid(step, &grid))
        ereport(ERROR, errcode(ERRCODE_INVALID_PARAMETER_VALUE), errmsg("i_shape: step is %g, not a finite number above 0", step));
    return grid;
}

static void take_block(Geometry *geometry, Counts counts) {
    geometry->counts = counts;
    use_block(geometry, MemoryContextAllocHuge(CurrentMemoryContext, block_size(counts)));
}

static void free_block(Geometry *geometry) {
    pfree(geometry->points);
}

static Geometry geometry_of(const bytea *wkb, Grid grid) {
    Geometry geometry;
    Counts counts;
    Fault fault = count_wkb(VARDATA_ANY(wkb), VARSIZE_ANY_EXHDR(wkb), let_interrupt, &counts);
    raise_fault(&fault, "Polygon or a MultiPolygon");
    take_block(&geometry, counts);
    fault = read_wkb(VARDATA_ANY(wkb), VARSIZE_ANY_EXHDR(wkb), grid, let_interrupt, &geometry);
    raise_fault(&fault, "Polygon or a MultiPolygon");
    return geometry;
}

static Geometry cleaned(Cleaner *cleaner, const Geometry *given) {
    Geometry left;
    take_block(&left, given->counts);
    if (!clean_polygons(cleaner, given, let_interrupt, &left)) raise_no_memory();
    return left;
}

static Geometry canonical(bool oriented, const Geometry *given) {
    Geometry form = {.counts = given->counts};
    use_block(&form, MemoryContextAllocHuge(CurrentMemoryContext, form_block_size(form.counts)));
    if (!make_form(given, oriented, let_interrupt, &form)) raise_no_memory();
    return form;
}

static bytea *new_bytea(size_t size, const char *what) {
    bytea *answer;
    if (size > MOST_BYTES - VARHDRSZ)
        ereport(ERROR, errcode(ERRCODE_PROGRAM_LIMIT_EXCEEDED), errmsg("i_shape: the %s is longer than 1 GB", what));
    answer = palloc(size + VARHDRSZ);
    SET_VARSIZE(answer, size + VARHDRSZ);
    return answer;
}

static bytea *wkb_of(const Geometry *geometry, Grid grid) {
    bytea *wkb = new_bytea(wkb_size(geometry), "geometry");
    write_wkb(geometry, grid, let_interrupt, VARDATA(wkb));
    return wkb;
}

static Datum numeric_of(__int128 number) {
    char text[48], *at = text + sizeof text - 1;
    unsigned __int128 rest = number < 0 ? -(unsigned __int128)number : (unsigned __int128)number;
    *at = 0;
    do *--at = (char)('0' + (int)(rest % 10));
    while ((rest /= 10) != 0);
    if (number < 0) *--at = '-';
    return DirectFunctionCall3(numeric_in, CStringGetDatum(at), ObjectIdGetDatum(InvalidOid), Int32GetDatum(-1));
}

/* ---- the calls ---- */

#define CALL(name)                           \
    PG_FUNCTION_INFO_V1(name);               \
    PGDLLEXPORT Datum name(PG_FUNCTION_ARGS); \
    Datum name(PG_FUNCTION_ARGS)

static Datum clean_wkb(FunctionCallInfo fcinfo, Cleaner *cleaner) {
    bytea *wkb = PG_GETARG_BYTEA_PP(0), *answer;
    Grid grid = grid_of(PG_GETARG_FLOAT8(1));
    Geometry given = geometry_of(wkb, grid), left = cleaned(cleaner, &given);
    answer = wkb_of(&left, grid);
    free_block(&given);
    free_block(&left);
    PG_FREE_IF_COPY(wkb, 0);
    PG_RETURN_BYTEA_P(answer);
}

CALL(pg_i_shape_simplify) {
    return clean_wkb(fcinfo, i_shape_simplify_i64);
}

CALL(pg_i_shape_despike) {
    return clean_wkb(fcinfo, i_shape_despike_i64);
}

CALL(pg_i_shape_canonical) {
    bytea *wkb = PG_GETARG_BYTEA_PP(0), *answer;
    Grid grid = grid_of(PG_GETARG_FLOAT8(1));
    Geometry given = geometry_of(wkb, grid), form = canonical(PG_GETARG_BOOL(2), &given);
    answer = wkb_of(&form, grid);
    free_block(&given);
    free_block(&form);
    PG_FREE_IF_COPY(wkb, 0);
    PG_RETURN_BYTEA_P(answer);
}

/* NULL where nothing is left: a unique index takes many of these, and a join pairs none. */
CALL(pg_i_shape_key) {
    bytea *wkb = PG_GETARG_BYTEA_PP(0), *key = NULL;
    Grid grid = grid_of(PG_GETARG_FLOAT8(1));
    Geometry given = geometry_of(wkb, grid), form = canonical(PG_GETARG_BOOL(2), &given);
    if (form.counts.polygons > 0) {
        key = new_bytea(key_size(&form), "key");
        write_key(&form, let_interrupt, VARDATA(key));
    }
    free_block(&given);
    free_block(&form);
    PG_FREE_IF_COPY(wkb, 0);
    if (!key) PG_RETURN_NULL();
    PG_RETURN_BYTEA_P(key);
}

static Datum test_wkb(FunctionCallInfo fcinfo, bool (*holds)(const Geometry *geometry, Pause pause)) {
    bytea *wkb = PG_GETARG_BYTEA_PP(0);
    Geometry given = geometry_of(wkb, grid_of(PG_GETARG_FLOAT8(1)));
    bool answer = holds(&given, let_interrupt);
    free_block(&given);
    PG_FREE_IF_COPY(wkb, 0);
    PG_RETURN_BOOL(answer);
}

CALL(pg_i_shape_is_clean) {
    return test_wkb(fcinfo, is_clean);
}

CALL(pg_i_shape_has_no_spikes) {
    return test_wkb(fcinfo, has_no_spikes);
}

static Invalidity invalidity_of(const Geometry *geometry, Rule rule) {
    Invalidity found;
    size_t *offsets = MemoryContextAllocHuge(CurrentMemoryContext, (geometry->counts.rings + 1) * sizeof(size_t));
    if (!find_invalidity(geometry, rule, let_interrupt, offsets, &found)) raise_no_memory();
    pfree(offsets);
    return found;
}

static Rule rule_of(bool may_touch) {
    return may_touch ? RINGS_MAY_TOUCH : RINGS_APART;
}

CALL(pg_i_shape_is_valid) {
    bytea *wkb = PG_GETARG_BYTEA_PP(0);
    Geometry given = geometry_of(wkb, grid_of(PG_GETARG_FLOAT8(1)));
    Invalidity found = invalidity_of(&given, rule_of(PG_GETARG_BOOL(2)));
    free_block(&given);
    PG_FREE_IF_COPY(wkb, 0);
    PG_RETURN_BOOL(found.kind == I_SHAPE_VALID);
}

/* NULL where the geometry is valid. */
CALL(pg_i_shape_validity_reason) {
    bytea *wkb = PG_GETARG_BYTEA_PP(0);
    Grid grid = grid_of(PG_GETARG_FLOAT8(1));
    Geometry given = geometry_of(wkb, grid);
    Invalidity found = invalidity_of(&given, rule_of(PG_GETARG_BOOL(2)));
    char text[REASON_SIZE];
    if (found.kind != I_SHAPE_VALID) put_reason(&found, grid, text);
    free_block(&given);
    PG_FREE_IF_COPY(wkb, 0);
    if (found.kind == I_SHAPE_VALID) PG_RETURN_NULL();
    PG_RETURN_TEXT_P(cstring_to_text(text));
}

/* The first room is enough where each edge is in contact with two others, so that contacts are seldom listed twice. */
static i_shape_contact *contacts_of(const Geometry *geometry, size_t *count) {
    size_t room = geometry->counts.points;
    size_t *offsets = MemoryContextAllocHuge(CurrentMemoryContext, (geometry->counts.rings + 1) * sizeof *offsets);
    i_shape_contact *contacts = MemoryContextAllocHuge(CurrentMemoryContext, room * sizeof *contacts);
    *count = list_contacts(geometry, let_interrupt, offsets, contacts, room);
    if (*count > room) {
        pfree(contacts);
        contacts = MemoryContextAllocHuge(CurrentMemoryContext, *count * sizeof *contacts);
        list_contacts(geometry, let_interrupt, offsets, contacts, *count);
    }
    pfree(offsets);
    return contacts;
}

CALL(pg_i_shape_contact_points) {
    bytea *wkb = PG_GETARG_BYTEA_PP(0), *answer;
    Grid grid = grid_of(PG_GETARG_FLOAT8(1));
    Geometry given = geometry_of(wkb, grid);
    size_t count;
    i_shape_contact *contacts = contacts_of(&given, &count);
    Position *room = MemoryContextAllocHuge(CurrentMemoryContext, 2 * count * sizeof *room);
    MultiPoint found = find_contact_points(&given, contacts, count, grid, let_interrupt, room);
    answer = new_bytea(multipoint_size(&found), "geometry");
    write_multipoint(&found, let_interrupt, VARDATA(answer));
    pfree(contacts);
    pfree(room);
    free_block(&given);
    PG_FREE_IF_COPY(wkb, 0);
    PG_RETURN_BYTEA_P(answer);
}

CALL(pg_i_shape_area_two) {
    bytea *wkb = PG_GETARG_BYTEA_PP(0);
    Geometry given = geometry_of(wkb, grid_of(PG_GETARG_FLOAT8(1)));
    __int128 area = area_two(&given, let_interrupt);
    free_block(&given);
    PG_FREE_IF_COPY(wkb, 0);
    return numeric_of(area);
}

/* Where a Point lies on the grid; it is false where the Point is empty. */
static bool place_of(const bytea *wkb, Grid grid, i_shape_point_i64 *place, int32 *srid) {
    double xy[2];
    Fault fault = read_point_wkb(VARDATA_ANY(wkb), VARSIZE_ANY_EXHDR(wkb), xy, srid);
    raise_fault(&fault, "Point");
    if (isnan(xy[0]) && isnan(xy[1])) return false;
    if (!to_grid(xy, grid, place))
        ereport(ERROR, errcode(ERRCODE_NUMERIC_VALUE_OUT_OF_RANGE),
                errmsg("i_shape: the point (%s, %s) is 2^49 steps or more from 0, isn't finite, or rounds to no float", double_to_shortest_decimal(xy[0]),
                       double_to_shortest_decimal(xy[1])));
    return true;
}

CALL(pg_i_shape_winding) {
    bytea *wkb = PG_GETARG_BYTEA_PP(0), *point = PG_GETARG_BYTEA_PP(1);
    Grid grid = grid_of(PG_GETARG_FLOAT8(2));
    Geometry given = geometry_of(wkb, grid);
    i_shape_point_i64 place;
    int32 srid;
    bool is_there = place_of(point, grid, &place, &srid);
    int64 answer;
    if (given.srid != srid)
        ereport(ERROR, errcode(ERRCODE_INVALID_PARAMETER_VALUE),
                errmsg("i_shape: the SRID of the polygon is %d, and that of the point %d", given.srid, srid));
    answer = is_there ? winding(&given, place, let_interrupt) : 0;
    free_block(&given);
    PG_FREE_IF_COPY(wkb, 0);
    PG_FREE_IF_COPY(point, 1);
    if (!is_there) PG_RETURN_NULL();
    PG_RETURN_INT64(answer);
}

CALL(pg_i_shape_version) {
    uint32 version = i_shape_version();
    PG_RETURN_TEXT_P(cstring_to_text(psprintf("%u.%u.%u", version >> 16, version >> 8 & 255, version & 255)));
}
