/* The hashes of the calls at one width. hashes.c, which includes it, defines W (16, 32 or 64), AREA, and MIX_AREAS. */
#define JOINED(a, b, c) a##b##c
#define JOIN(a, b, c) JOINED(a, b, c)
#define AT(name) JOIN(name, _i, W)
#define CALL(name) AT(i_shape_##name)
#define POINT AT(i_shape_point)
#define COORDINATE JOIN(int, W, _t)
#define LIMIT ((int64_t)1 << (W - 2))

static POINT AT(points)[MOST], AT(about)[MOST_ABOUT], AT(out)[MOST + 4];
static AREA AT(areas)[MOST_OFFSETS + 4];

/* A coordinate from few, from all that are safe, or near the greatest. */
static COORDINATE AT(coordinate)(size_t kind) {
    const int64_t sign = one_in(2) ? 1 : -1;
    switch (kind) {
    case 0: return (COORDINATE)(sign * (int64_t)below(2));
    case 1: return (COORDINATE)(sign * (int64_t)below(100));
    case 2: return (COORDINATE)(sign * (int64_t)(any() % (uint64_t)LIMIT));
    default: return (COORDINATE)(sign * (LIMIT - 1 - (int64_t)below(3)));
    }
}

/* Points of which some repeat those before them, and in one of forty runs one isn't safe. */
static void AT(make)(void) {
    const size_t kind = below(4);
    count = below(one_in(8) ? MOST : 24);
    for (size_t k = 0; k < count; k++) {
        if (k > 1 && one_in(5)) {
            AT(points)[k] = AT(points)[k - 1 - below(2)];
        } else {
            AT(points)[k].x = AT(coordinate)(kind);
            AT(points)[k].y = AT(coordinate)(kind);
        }
    }
    if (count > 0 && one_in(40)) AT(points)[below(count)].x = (COORDINATE)LIMIT;
    about_count = below(one_in(4) ? MOST_ABOUT : 6);
    for (size_t k = 0; k < about_count; k++) {
        AT(about)[k].x = AT(coordinate)(kind);
        AT(about)[k].y = AT(coordinate)(kind);
        if (count > 0 && one_in(3)) AT(about)[k] = AT(points)[below(count)];
    }
    if (about_count > 0 && one_in(40)) AT(about)[below(about_count)].y = (COORDINATE)-LIMIT;
    offset_count = make_offsets(offsets, count);
    shape_count = make_offsets(shapes, offset_count ? offset_count - 1 : 0);
}

static void AT(clear)(void) {
    clear();
    memset(AT(out), 0, sizeof AT(out));
    memset(AT(areas), 0, sizeof AT(areas));
}

static uint64_t AT(written)(uint64_t hash) {
    for (size_t k = 0; k < MOST + 4; k++) hash = mixed(mixed(hash, (uint64_t)(int64_t)AT(out)[k].x), (uint64_t)(int64_t)AT(out)[k].y);
    MIX_AREAS(hash, AT(areas), MOST_OFFSETS + 4);
    return written(hash);
}

/* The same, and in three of four runs the contours are triangles, of which many lie apart or one within another. */
static void AT(make_triangles)(void) {
    AT(make)();
    if (one_in(4)) return;
    const size_t triangles = below(one_in(2) ? 6 : MOST_OFFSETS);
    for (size_t k = 0; k < triangles; k++) {
        const int is_around = k == 0 || one_in(6);
        const COORDINATE x = is_around ? -1 : (COORDINATE)below(64), y = is_around ? -1 : (COORDINATE)below(64);
        const COORDINATE size = (COORDINATE)(is_around ? 256 : one_in(2) ? 2 : 48);
        const POINT corners[3] = {{x, y}, {(COORDINATE)(x + size), y}, {x, (COORDINATE)(y + size)}};
        memcpy(AT(points) + 3 * k, corners, sizeof corners);
        offsets[k] = 3 * k;
    }
    offsets[triangles] = count = 3 * triangles;
    offset_count = triangles + 1;
    shape_count = one_in(2) ? 2 : make_offsets(shapes, triangles);
    if (shape_count == 2) shapes[0] = 0, shapes[1] = triangles;
}

/* Tells the hash of a call with these words in parentheses, over all rounds. Its points, rooms and rule are made anew for each. */
#define HASH(NAME, WORDS) HASH_MADE(make, NAME, WORDS)
#define HASH_MADE(MAKE, NAME, WORDS) \
    do { \
        uint64_t hash = 0; \
        for (size_t round = 0; round < rounds; round++) { \
            AT(MAKE)(); \
            AT(clear)(); \
            make_rooms(); \
            const int32_t rule = (int32_t)below(7) - 1; \
            const COORDINATE x = count ? AT(points)[below(count)].x : 0, y = AT(coordinate)(1); \
            (void)rule, (void)x, (void)y; \
            hash = AT(written)(mixed(hash, answer_of((int64_t)CALL(NAME) WORDS))); \
        } \
        report(TEXT(CALL(NAME)), hash); \
    } while (0)
#define TEXT_OF(name) #name
#define TEXT(name) TEXT_OF(name)

#define POINTS AT(points), count
#define BATCH POINTS, offsets, offset_count
#define ABOUT BATCH, AT(about), about_count
#define CLEANED (POINTS, AT(out), room_of.points)
#define CLEANED_BATCH (BATCH, AT(out), room_of.points, out_offsets[0], room_of.offsets)
#define CLEANED_SHAPES (BATCH, shapes, shape_count, AT(out), room_of.points, out_offsets[0], room_of.offsets, out_offsets[1], room_of.shapes)

static void AT(hash)(size_t rounds) {
    HASH(simplify, CLEANED);
    HASH(despike, CLEANED);
    HASH(canonical, CLEANED);
    HASH(canonical_unoriented, CLEANED);
    HASH(simplify_contours, CLEANED_BATCH);
    HASH(despike_contours, CLEANED_BATCH);
    HASH(canonical_contours, CLEANED_BATCH);
    HASH(canonical_unoriented_contours, CLEANED_BATCH);
    HASH(simplify_shapes, CLEANED_SHAPES);
    HASH(despike_shapes, CLEANED_SHAPES);
    HASH(canonical_shapes, CLEANED_SHAPES);
    HASH(canonical_unoriented_shapes, CLEANED_SHAPES);
    HASH(is_simple, (POINTS));
    HASH(has_no_spikes, (POINTS));
    HASH(is_convex, (POINTS));
    HASH(is_safe, (POINTS));
    HASH(first_unsafe, (POINTS));
    HASH(contains, (POINTS, x, y));
    HASH(contains_by, (POINTS, x, y, rule));
    HASH(winding, (POINTS, x, y));
    HASH(windings, (ABOUT, numbers, room_of.about));
    HASH(contains_points, (ABOUT, rule, bytes, room_of.about));
    HASH(locate, (ABOUT, rule, places, room_of.about));
    HASH(area_two, (POINTS, AT(areas)));
    HASH(area_two_contours, (BATCH, AT(areas), room_of.contours));
    HASH(is_simple_contours, (BATCH, bytes, room_of.contours));
    HASH(has_no_spikes_contours, (BATCH, bytes, room_of.contours));
    HASH(is_convex_contours, (BATCH, bytes, room_of.contours));
    HASH(is_safe_contours, (BATCH, bytes, room_of.contours));
}

static void AT(hash_contacts)(size_t rounds) {
    HASH(is_simple_polygon, (POINTS));
    HASH(are_simple_polygons, (BATCH, bytes, room_of.contours));
    HASH(first_contact, (POINTS, out_offsets[0], room(2)));
    HASH(first_contact_of_rings, (BATCH, out_offsets[0], room(2)));
}

/* A fault is three numbers: those of all polygons fit into the arrays of offsets. */
static void AT(hash_validity)(size_t rounds) {
    HASH_MADE(make_triangles, validity_shapes, (BATCH, shapes, shape_count, (i_shape_fault *)out_offsets[0], room(shape_count > 0 ? shape_count - 1 : 0)));
}

/* An index is read as a signed number, so that I_SHAPE_NO_SHAPE is -1 whatever the size of a size_t. */
static void AT(hash_holders)(size_t rounds) {
    HASH_MADE(make_triangles, locate_in_shapes, (BATCH, shapes, shape_count, AT(about), about_count, rule, (size_t *)numbers, room_of.about));
}

/* A contact is two numbers, as the arrays of offsets are. */
static void AT(hash_all_contacts)(size_t rounds) {
    i_shape_contact *const contacts = (i_shape_contact *)out_offsets[0];
    const size_t most = sizeof out_offsets / sizeof *contacts;
    HASH(contacts, (POINTS, contacts, below(most + 1)));
    HASH(contacts_of_rings, (BATCH, contacts, below(most + 1)));
}

#define FORMED (BATCH, shapes, shape_count, AT(out), room_of.points, out_offsets[0], room_of.offsets)

static void AT(hash_forms)(size_t rounds) {
    HASH(canonical_polygons, FORMED);
    HASH(canonical_unoriented_polygons, FORMED);
}

#define FEATURED (BATCH, shapes, shape_count, features, feature_count, AT(out), room_of.points, out_offsets[0], room_of.offsets, out_offsets[1], room_of.shapes)

/* The same, and offsets of polygons, which divide these into features. */
static void AT(make_features)(void) {
    AT(make)();
    feature_count = make_offsets(features, shape_count ? shape_count - 1 : 0);
}

static void AT(hash_features)(size_t rounds) {
    HASH_MADE(make_features, canonical_features, FEATURED);
    HASH_MADE(make_features, canonical_unoriented_features, FEATURED);
}

/* The same points, as many as there are bytes to write of, and in nine of ten runs four for each pair of edges. */
static void AT(make_pairs)(void) {
    AT(make)();
    if (count > 4 * MOST_ABOUT) count = 4 * MOST_ABOUT;
    if (!one_in(10)) count -= count % 4;
}

static void AT(hash_kinds)(size_t rounds) {
    HASH_MADE(make_pairs, kinds_of_contacts, (POINTS, bytes, room(count / 4)));
}

/* The same points, and in three of four runs a square and diamonds, of which many touch it and each other, in some of these runs also a hole that is a square. */
static void AT(make_diamonds)(void) {
    AT(make)();
    if (one_in(4)) return;
    const size_t rings = below(MOST_OFFSETS - 2) + 1;
    for (size_t k = 0; k < rings; k++) {
        const COORDINATE x = (COORDINATE)(4 * below(5)), y = (COORDINATE)(4 * below(4)), middle_x = (COORDINATE)(x + 2), middle_y = (COORDINATE)(y + 2);
        const COORDINATE low = k == 0 ? 0 : 4, high = (COORDINATE)(16 - low);
        const POINT square[4] = {{low, low}, {high, low}, {high, high}, {low, high}};
        const POINT diamond[4] = {{middle_x, y}, {(COORDINATE)(x + 4), middle_y}, {middle_x, (COORDINATE)(y + 4)}, {x, middle_y}};
        memcpy(AT(points) + 4 * k, k == 0 || (k == 1 && one_in(3)) ? square : diamond, sizeof square);
        offsets[k] = 4 * k;
    }
    offsets[rings] = count = 4 * rings;
    offset_count = rings + 1;
    shape_count = one_in(2) ? 2 : make_offsets(shapes, rings);
    if (shape_count == 2) shapes[0] = 0, shapes[1] = rings;
}

static void AT(hash_touching)(size_t rounds) {
    HASH_MADE(make_diamonds, touching_validity_shapes, (BATCH, shapes, shape_count, (i_shape_fault *)out_offsets[0], room(shape_count > 0 ? shape_count - 1 : 0)));
}

#undef FORMED
#undef FEATURED
#undef JOINED
#undef JOIN
#undef AT
#undef CALL
#undef POINT
#undef COORDINATE
#undef LIMIT
#undef HASH
#undef HASH_MADE
#undef TEXT_OF
#undef TEXT
#undef POINTS
#undef BATCH
#undef ABOUT
#undef CLEANED
#undef CLEANED_BATCH
#undef CLEANED_SHAPES
#undef MIX_AREAS
#undef AREA
#undef W
