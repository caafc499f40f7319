/* COUNT mutated WKBs of random polygons, and a quarter as many as they are, through the reader, the cleaners, the forms and the writers, each block as
 * long as what it holds, for the address sanitizer. What is returned is compared with the calls of the C library on polygons, and with itself when it is read
 * again. Then each growth of the C library fails in turn, and pauses are counted. usage: fuzz COUNT */
#include "tests/random_wkb.h"
#include "tests/failing.h"

/* ---- what is asked of each ---- */

static void stay(void *host) {
    (void)host;
}

static const Pause no_pause = {stay, NULL};

static void *block_of(size_t size) {
    return malloc(size ? size : 1);
}

static void take_block(Geometry *geometry, Counts counts) {
    geometry->counts = counts;
    use_block(geometry, block_of(block_size(counts)));
}

typedef struct {
    unsigned char *at;
    size_t size;
} Block;

static bool take_if_same(Block one, Block other) {
    bool is_same = one.size == other.size && memcmp(one.at, other.at, one.size) == 0;
    free(other.at);
    return is_same;
}

static Block written(const Geometry *geometry, Grid grid) {
    Block wkb = {block_of(wkb_size(geometry)), wkb_size(geometry)};
    write_wkb(geometry, grid, no_pause, wkb.at);
    return wkb;
}

static Block key_of(const Geometry *form) {
    Block key = {block_of(key_size(form)), key_size(form)};
    write_key(form, no_pause, key.at);
    return key;
}

/* Takes no block where it isn't fine. */
static FaultKind read_block(Block wkb, Grid grid, Geometry *to) {
    Counts counts;
    Fault fault = count_wkb(wkb.at, wkb.size, no_pause, &counts);
    if (fault.kind != FINE) return fault.kind;
    take_block(to, counts);
    fault = read_wkb(wkb.at, wkb.size, grid, no_pause, to);
    if (fault.kind != FINE) free(to->points);
    return fault.kind;
}

typedef ptrdiff_t Call(const i_shape_point_i64 *, size_t, const size_t *, size_t, const size_t *, size_t, i_shape_point_i64 *, size_t, size_t *, size_t,
                       size_t *, size_t);

/* What the call on polygons leaves, read from its arrays. */
static bool is_as_by_call(Call *call, const Geometry *given, const Geometry *left) {
    static size_t rings[1 << 12], parts[1 << 12], out_rings[1 << 12], out_parts[1 << 12];
    static i_shape_point_i64 out[1 << 12];
    size_t count = given->counts.points, ring_count = given->counts.rings, part_count = given->counts.polygons, ring = 0;
    rings[0] = parts[0] = 0;
    for (size_t k = 0; k < ring_count; k++) rings[k + 1] = rings[k] + given->rings[k].count;
    for (size_t k = 0; k < part_count; k++) parts[k + 1] = parts[k] + given->polygons[k].count;
    ptrdiff_t n = call(given->points, count, rings, ring_count + 1, parts, part_count + 1, out, count, out_rings, ring_count + 1, out_parts, part_count + 1);
    bool is_same = n == (ptrdiff_t)left->counts.polygons;
    for (size_t k = 0; is_same && k < left->counts.polygons; k++) {
        is_same = out_parts[k + 1] - out_parts[k] == left->polygons[k].count;
        for (size_t at = 0; is_same && at < left->polygons[k].count; at++, ring++) {
            Ring its = left->polygons[k].rings[at];
            is_same = out_rings[ring + 1] - out_rings[ring] == its.count && memcmp(out + out_rings[ring], its.points, its.count * sizeof *out) == 0;
        }
    }
    return is_same;
}

static Geometry cleaned(Cleaner *cleaner, const Geometry *given) {
    Geometry left;
    take_block(&left, given->counts);
    must(clean_polygons(cleaner, given, no_pause, &left), "no memory");
    return left;
}

static void check_written(const Geometry *left, Grid grid) {
    Block wkb = written(left, grid);
    Geometry again;
    must(read_block(wkb, grid, &again) == FINE, "what is written isn't read");
    must(is_clean(&again, no_pause), "what is left isn't clean");
    must(has_no_spikes(&again, no_pause), "what is left has spikes");
    Geometry twice = cleaned(i_shape_simplify_i64, &again);
    must(take_if_same(wkb, written(&twice, grid)), "cleaned again it is another one");
    free(wkb.at);
    free(again.points);
    free(twice.points);
}

static void take_form_block(Geometry *form, Counts counts) {
    form->counts = counts;
    use_block(form, block_of(form_block_size(counts)));
}

static Geometry form_of(const Geometry *given, bool oriented) {
    Geometry form;
    take_form_block(&form, given->counts);
    must(make_form(given, oriented, no_pause, &form), "no memory");
    return form;
}

static void check_key(const Geometry *given, const Geometry *left, bool oriented) {
    Geometry form = form_of(given, oriented), other = form_of(left, oriented);
    Call *call = oriented ? i_shape_canonical_shapes_i64 : i_shape_canonical_unoriented_shapes_i64;
    Block key = key_of(&form);
    must(is_as_by_call(call, given, &form), "the form isn't that of the C library");
    must(take_if_same(key, key_of(&other)), "what is left has another key");
    free(key.at);
    free(form.points);
    free(other.points);
}

/* The first fault of the first polygon that has one is where the C library finds it in all of them. */
static void check_invalidity(const Geometry *given, Rule rule, Grid grid) {
    __typeof__(&i_shape_validity_shapes_i64) test = rule == RINGS_MAY_TOUCH ? i_shape_touching_validity_shapes_i64 : i_shape_validity_shapes_i64;
    size_t *offsets = block_of((given->counts.rings + 1) * sizeof *offsets);
    size_t *ends = block_of((given->counts.polygons + 1) * sizeof *ends);
    i_shape_fault *faults = block_of((given->counts.polygons + 1) * sizeof *faults);
    char text[REASON_SIZE];
    Invalidity found;
    must(find_invalidity(given, rule, no_pause, offsets, &found), "no memory");
    put_reason(&found, grid, text);
    must((found.kind == I_SHAPE_VALID) == (*text == 0), "a fault without a reason");
    ends[0] = 0;
    for (size_t k = 0; k < given->counts.polygons; k++) ends[k + 1] = ends[k] + given->polygons[k].count;
    must(test(given->points, given->counts.points, offsets, given->counts.rings + 1, ends, given->counts.polygons + 1, faults, given->counts.polygons) == 0,
         "no faults");
    size_t first = 0;
    while (first < given->counts.polygons && faults[first].kind == I_SHAPE_VALID) first++;
    bool is_valid = first == given->counts.polygons;
    must(is_valid == (found.kind == I_SHAPE_VALID), "it is valid for one alone");
    if (!is_valid) must(found.polygon == given->polygons[first].number && found.kind == faults[first].kind, "another fault than the first");
    free(offsets);
    free(ends);
    free(faults);
}

static void must_ascend(const MultiPoint *found) {
    for (size_t k = 1; k < found->count; k++) {
        Position before = found->points[k - 1], point = found->points[k];
        must(before.x < point.x || (before.x == point.x && before.y < point.y), "points of contacts don't ascend");
    }
}

/* No more contacts are written than there is room for; and there are some where that is the fault, and none where there is no fault. */
static void check_contacts(const Geometry *given, Grid grid) {
    size_t *offsets = block_of((given->counts.rings + 1) * sizeof *offsets);
    i_shape_contact *none = block_of(0);
    Invalidity fault;
    must(find_invalidity(given, RINGS_APART, no_pause, offsets, &fault), "no memory");
    size_t count = list_contacts(given, no_pause, offsets, none, 0), half = count / 2;
    if (fault.kind == I_SHAPE_VALID) must(count == 0, "a valid geometry has contacts");
    if (fault.kind == I_SHAPE_CONTACT) must(count > 0, "a geometry with a contact has none");
    i_shape_contact *some = block_of(half * sizeof *some), *all = block_of(count * sizeof *all);
    must(list_contacts(given, no_pause, offsets, some, half) == count, "another count where there is less room");
    must(list_contacts(given, no_pause, offsets, all, count) == count, "another count where there is room");
    must(memcmp(some, all, half * sizeof *some) == 0, "other contacts where there is less room");
    Position *room = block_of(2 * count * sizeof *room);
    MultiPoint found = find_contact_points(given, all, count, grid, no_pause, room);
    must((found.count > 0) == (count > 0), "contacts without a point");
    must_ascend(&found);
    void *wkb = block_of(multipoint_size(&found));
    write_multipoint(&found, no_pause, wkb);
    free(offsets);
    free(none);
    free(some);
    free(all);
    free(room);
    free(wkb);
}

static FaultKind check_block(Block wkb) {
    Grid grid;
    Geometry given;
    make_grid(below(4) ? 1 : 0.3, &grid);
    FaultKind kind = read_block(wkb, grid, &given);
    if (kind != FINE) return kind;
    Geometry left = cleaned(i_shape_simplify_i64, &given), despiked = cleaned(i_shape_despike_i64, &given);
    must(is_as_by_call(i_shape_simplify_shapes_i64, &given, &left), "what is left isn't what the C library leaves");
    for (size_t k = 0; k < despiked.counts.rings; k++)
        must(i_shape_has_no_spikes_i64(despiked.rings[k].points, despiked.rings[k].count), "what is despiked has spikes");
    check_written(&left, grid);
    check_key(&given, &left, below(2));
    check_invalidity(&given, RINGS_APART, grid);
    check_invalidity(&given, RINGS_MAY_TOUCH, grid);
    check_contacts(&given, grid);
    area_two(&given, no_pause);
    winding(&given, (i_shape_point_i64){1, 1}, no_pause);
    free(given.points);
    free(left.points);
    free(despiked.points);
    return FINE;
}

static FaultKind check_bytes(void) {
    double xy[2];
    int32_t srid;
    Block wkb = {block_of(length), length};
    memcpy(wkb.at, bytes, length);
    read_point_wkb(wkb.at, wkb.size, xy, &srid);
    FaultKind kind = check_block(wkb);
    free(wkb.at);
    return kind;
}

/* ---- what is left of polygons, and the memory that it takes ---- */

typedef bool Make(const Geometry *given, Geometry *left);

static bool make_simplified(const Geometry *given, Geometry *left) {
    return clean_polygons(i_shape_simplify_i64, given, no_pause, left);
}

static bool make_despiked(const Geometry *given, Geometry *left) {
    return clean_polygons(i_shape_despike_i64, given, no_pause, left);
}

static bool make_canonical(const Geometry *given, Geometry *left) {
    return make_form(given, true, no_pause, left);
}

static bool make_unoriented(const Geometry *given, Geometry *left) {
    return make_form(given, false, no_pause, left);
}

/* Each growth over several polygons, failing, is reported, and leaves no block. It returns how many there were. */
static size_t check_failed_growths(Make *make) {
    Block wkb = {bytes, 0};
    Geometry given, left;
    Grid grid;
    make_grid(1, &grid);
    do make_wkb();
    while (wkb.size = length, length < 1000 || read_block(wkb, grid, &given) != FINE);
    take_form_block(&left, given.counts);
    growths = failing = 0;
    must(make(&given, &left), "no memory");
    size_t all = growths;
    for (size_t k = 1; k <= all; k++) {
        growths = 0;
        failing = k;
        must(!make(&given, &left), "a growth that fails is not reported");
        must(blocks == 0, "a block is left");
    }
    failing = 0;
    free(given.points);
    free(left.points);
    return all;
}

static size_t pauses;

static void add_one(void *count) {
    ++*(size_t *)count;
}

static const Pause count_pause = {add_one, &pauses};

static void must_have_paused(size_t least) {
    must(pauses >= least, "it doesn't pause");
    pauses = 0;
}

/* Within contacts, all of one edge with itself, and within as many points as four pauses. */
static void check_pauses_of_contacts(const Geometry *given, Grid grid) {
    const size_t count = 4 * PAUSE_POINTS;
    i_shape_contact *contacts = calloc(count, sizeof *contacts);
    Position *points = calloc(2 * count, sizeof *points);
    MultiPoint found = find_contact_points(given, contacts, count, grid, count_pause, points);
    must(found.count == 2, "an edge has two ends");
    must_have_paused(count / PAUSE_CONTACTS);
    found.count = count;
    void *wkb = block_of(multipoint_size(&found));
    write_multipoint(&found, count_pause, wkb);
    must_have_paused(4);
    free(contacts);
    free(points);
    free(wkb);
}

/* Within a ring as long as four pauses, and after it. */
static void check_pauses(void) {
    Counts counts = {4 * PAUSE_POINTS, 1, 1};
    Geometry given = {0}, again, form;
    Grid grid;
    make_grid(1, &grid);
    take_block(&given, counts);
    for (size_t k = 0; k < counts.points; k++) given.points[k] = (i_shape_point_i64){(int64_t)k, (int64_t)(k % 2)};
    given.rings[0] = (Ring){given.points, counts.points};
    given.polygons[0] = (Polygon){given.rings, 1, 1};
    Block wkb = {block_of(wkb_size(&given)), wkb_size(&given)};
    write_wkb(&given, grid, count_pause, wkb.at);
    must_have_paused(4);
    take_block(&again, counts);
    must(read_wkb(wkb.at, wkb.size, grid, count_pause, &again).kind == FINE, "what is written isn't read");
    must_have_paused(4);
    take_form_block(&form, counts);
    must(make_form(&again, true, count_pause, &form), "no memory");
    must_have_paused(1);
    void *key = block_of(key_size(&form));
    write_key(&form, count_pause, key);
    must_have_paused(4);
    is_clean(&form, count_pause);
    must_have_paused(1);
    has_no_spikes(&form, count_pause);
    must_have_paused(1);
    area_two(&form, count_pause);
    must_have_paused(1);
    winding(&form, (i_shape_point_i64){0, 0}, count_pause);
    must_have_paused(1);
    size_t offsets[2];
    Invalidity found;
    must(find_invalidity(&form, RINGS_APART, count_pause, offsets, &found), "no memory");
    must_have_paused(counts.points / PAUSE_TESTED + 1);
    check_pauses_of_contacts(&form, grid);
    free(given.points);
    free(again.points);
    free(form.points);
    free(wkb.at);
    free(key);
}

int main(int count, char **words) {
    long rounds = count > 1 ? atol(words[1]) : 100000, kinds[OUT_OF_RANGE + 1] = {0};
    for (long round = 0; round < rounds; round++) {
        make_wkb();
        if (round % 4 == 0) must(check_bytes() == FINE, "a WKB isn't read");
        for (uint64_t k = below(4) + 1; k-- && length;) mutate();
        kinds[check_bytes()]++;
        must(blocks == 0, "a block is left");
    }
    Make *const makes[] = {make_simplified, make_despiked, make_canonical, make_unoriented};
    for (int k = 0; k < 4; k++) {
        size_t all = 0;
        for (int times = 0; times < 20; times++) all += check_failed_growths(makes[k]);
        must(all > 20, "it takes no memory");
    }
    check_pauses();
    printf("%ld of %ld read; faults: type %ld, dimensions %ld, bytes %ld, SRIDs %ld, range %ld\n", kinds[FINE], rounds, kinds[OTHER_TYPE],
           kinds[HAS_Z_OR_M], kinds[NOT_WKB], kinds[MIXED_SRIDS], kinds[OUT_OF_RANGE]);
    return 0;
}
