/* The tests of the calls at one width. A file that includes it defines W (16, 32 or 64) and AREA_IS(area, expected). */
#define JOINED(a, b, c) a##b##c
#define JOIN(a, b, c) JOINED(a, b, c)
#define AT(name) JOIN(name, _i, W)
#define CALL(name) AT(i_shape_##name)
#define POINT AT(i_shape_point)
#define COORDINATE JOIN(int, W, _t)
#define LEAST_UNSAFE ((COORDINATE)((COORDINATE)1 << (W - 2)))

typedef ptrdiff_t (*AT(clean_one))(const POINT *, size_t, POINT *, size_t);
typedef ptrdiff_t (*AT(clean_many))(const POINT *, size_t, const size_t *, size_t, POINT *, size_t, size_t *, size_t);

typedef ptrdiff_t (*AT(clean_shapes))(const POINT *, size_t, const size_t *, size_t, const size_t *, size_t, POINT *, size_t, size_t *, size_t, size_t *, size_t);

static AT(clean_one) const AT(cleaners)[] = {CALL(simplify), CALL(despike), CALL(canonical), CALL(canonical_unoriented)};
static AT(clean_many) const AT(batches)[] = {CALL(simplify_contours), CALL(despike_contours), CALL(canonical_contours),
                                            CALL(canonical_unoriented_contours)};
static AT(clean_shapes) const AT(polygons)[] = {CALL(simplify_shapes), CALL(despike_shapes), CALL(canonical_shapes), CALL(canonical_unoriented_shapes)};

typedef ptrdiff_t (*AT(form_each))(const POINT *, size_t, const size_t *, size_t, const size_t *, size_t, POINT *, size_t, size_t *, size_t);

static AT(form_each) const AT(forms)[] = {CALL(canonical_polygons), CALL(canonical_unoriented_polygons)};

typedef ptrdiff_t (*AT(form_features))(const POINT *, size_t, const size_t *, size_t, const size_t *, size_t, const size_t *, size_t, POINT *, size_t, size_t *, size_t, size_t *, size_t);

static AT(form_features) const AT(features)[] = {CALL(canonical_features), CALL(canonical_unoriented_features)};

typedef int32_t (*AT(test_many))(const POINT *, size_t, const size_t *, size_t, uint8_t *, size_t);

static AT(test_many) const AT(tests)[] = {CALL(is_simple_contours), CALL(has_no_spikes_contours), CALL(is_convex_contours), CALL(are_simple_polygons),
                                          CALL(is_safe_contours)};

static void AT(points_of)(const int (*from)[2], size_t count, POINT *to) {
    for (size_t k = 0; k < count; k++) {
        to[k].x = (COORDINATE)from[k][0];
        to[k].y = (COORDINATE)from[k][1];
    }
}

/* Whether the points are these, and behind them, up to room, nothing was written. */
static int AT(is_answer)(const POINT *out, const int (*points)[2], size_t count, size_t room) {
    for (size_t k = 0; k < count; k++)
        if (out[k].x != points[k][0] || out[k].y != points[k][1]) return 0;
    return is_filled(out + count, (room - count) * sizeof *out);
}

static void AT(test_one)(void) {
    for (size_t r = 0; r < ROWS; r++) {
        const struct row *row = &rows[r];
        for (int k = 0; k < CLEANERS; k++) {
            POINT given[MOST], out[MOST + 1];
            AT(points_of)(row->points, row->count, given);
            fill(out, sizeof out);
            ptrdiff_t answer = AT(cleaners)[k](given, row->count, out, row->count);
            check(answer == (ptrdiff_t)row->left[k].count && AT(is_answer)(out, row->left[k].points, row->left[k].count, MOST + 1),
                  W, cleaner_names[k], row->name);
        }
    }
}

static void AT(test_codes)(void) {
    for (int k = 0; k < CLEANERS; k++) {
        POINT given[3] = {{0, 0}, {4, 0}, {0, 4}}, out[3];
        fill(out, sizeof out);
        check(AT(cleaners)[k](given, 3, out, 2) == I_SHAPE_NO_ROOM && is_filled(out, sizeof out), W, cleaner_names[k], "room for two of three points");
        given[1].x = LEAST_UNSAFE;
        check(AT(cleaners)[k](given, 3, out, 3) == I_SHAPE_UNSAFE && is_filled(out, sizeof out), W, cleaner_names[k], "a point that isn't safe");
        check(AT(cleaners)[k](given, 3, out, 2) == I_SHAPE_NO_ROOM, W, cleaner_names[k], "the room is tested first");
        given[1].x = (COORDINATE)-LEAST_UNSAFE;
        check(AT(cleaners)[k](given, 3, out, 3) == I_SHAPE_UNSAFE, W, cleaner_names[k], "the least coordinate that isn't safe");
        given[1].x = (COORDINATE)(1 - LEAST_UNSAFE);
        check(AT(cleaners)[k](given, 3, out, 3) == 3, W, cleaner_names[k], "the least safe coordinate");
        check(AT(cleaners)[k](given, 0, out, 0) == 0, W, cleaner_names[k], "no point");
    }
}

/* The worked contours end to end. */
static void AT(all_rows)(POINT *points, size_t *offsets) {
    offsets[0] = 0;
    for (size_t r = 0; r < ROWS; r++) {
        AT(points_of)(rows[r].points, rows[r].count, points + offsets[r]);
        offsets[r + 1] = offsets[r] + rows[r].count;
    }
}

/* The worked contours in one call, the first one left out by the first offset and the last one by the last. */
static void AT(clean_all_rows)(void) {
    POINT given[ROWS * MOST], out[ROWS * MOST];
    size_t offsets[ROWS + 1], out_offsets[ROWS + 2];
    AT(all_rows)(given, offsets);
    for (int k = 0; k < CLEANERS; k++) {
        fill(out, sizeof out);
        fill(out_offsets, sizeof out_offsets);
        ptrdiff_t answer = AT(batches)[k](given, offsets[ROWS], offsets + 1, ROWS - 1, out, ROWS * MOST, out_offsets, ROWS + 2);
        size_t at = 0;
        int is_right = out_offsets[0] == 0;
        for (size_t r = 1; r + 1 < ROWS; r++) {
            is_right &= AT(is_answer)(out + at, rows[r].left[k].points, rows[r].left[k].count, rows[r].left[k].count);
            at += rows[r].left[k].count;
            is_right &= out_offsets[r] == at;
        }
        check(is_right && answer == (ptrdiff_t)at && is_filled(out + at, sizeof out - at * sizeof *out)
                  && is_filled(out_offsets + ROWS - 1, 3 * sizeof *out_offsets),
              W, cleaner_names[k], "many contours");
    }
}

static void AT(test_many_codes)(void) {
    for (int k = 0; k < CLEANERS; k++) {
        POINT given[6] = {{LEAST_UNSAFE, 0}, {0, 0}, {4, 0}, {0, 4}, {0, 0}, {0, LEAST_UNSAFE}}, out[6];
        const size_t inner[] = {1, 5}, low[] = {0, 5}, high[] = {1, 6}, backwards[] = {1, 4, 3}, outside[] = {1, 7}, none[] = {3};
        size_t out_offsets[3];
        AT(clean_many) call = AT(batches)[k];
        const char *name = cleaner_names[k];
        fill(out, sizeof out);
        fill(out_offsets, sizeof out_offsets);
        check(call(given, 6, inner, 0, out, 5, out_offsets, 3) == I_SHAPE_BAD_OFFSETS, W, name, "no offset");
        check(call(given, 6, backwards, 3, out, 6, out_offsets, 3) == I_SHAPE_BAD_OFFSETS, W, name, "offsets that run backwards");
        check(call(given, 6, outside, 2, out, 6, out_offsets, 3) == I_SHAPE_BAD_OFFSETS, W, name, "an offset out of the points");
        check(call(given, 6, low, 2, out, 5, out_offsets, 3) == I_SHAPE_NO_ROOM, W, name, "room for five of six points");
        check(call(given, 6, inner, 2, out, 6, out_offsets, 1) == I_SHAPE_NO_ROOM, W, name, "room for one of two offsets");
        check(call(given, 6, low, 2, out, 6, out_offsets, 3) == I_SHAPE_UNSAFE, W, name, "a first point that isn't safe");
        check(call(given, 6, high, 2, out, 6, out_offsets, 3) == I_SHAPE_UNSAFE, W, name, "a last point that isn't safe");
        check(is_filled(out, sizeof out) && is_filled(out_offsets, sizeof out_offsets), W, name, "codes leave the arrays as they were");
        check(call(given, 6, none, 1, out, 6, out_offsets, 1) == 0 && out_offsets[0] == 0, W, name, "no contour");
        check(call(given, 6, inner, 2, out, 6, out_offsets, 2) > 0, W, name, "points outside the offsets aren't read");
    }
}

/* A square with three holes, of which one collapses; a polygon that collapses, with a hole; an empty one; and a triangle. */
static void AT(test_shapes)(void) {
    const POINT given[24] = {{10, 0}, {10, 10}, {0, 10}, {0, 0}, {5, 0}, {8, 6}, {6, 6}, {6, 8}, {7, 7}, {1, 1}, {2, 2}, {3, 3},
                             {2, 4}, {4, 2}, {2, 2}, {1, 1}, {2, 2}, {3, 3}, {2, 4}, {4, 2}, {2, 2}, {0, -4}, {4, 0}, {-4, 0}};
    const size_t contours[8] = {0, 5, 9, 12, 15, 18, 21, 24}, shapes[5] = {0, 4, 6, 6, 7};
    const size_t none[1] = {0};
    for (int k = 0; k < CLEANERS; k++) {
        const struct polygons *left = &polygons_left[k];
        const size_t points = left->contours[4];
        POINT out[25];
        size_t out_contours[9], out_shapes[6];
        fill(out, sizeof out);
        fill(out_contours, sizeof out_contours);
        fill(out_shapes, sizeof out_shapes);
        check(AT(polygons)[k](given, 24, contours, 8, shapes, 5, out, 25, out_contours, 9, out_shapes, 6) == 3, W, cleaner_names[k], "how many polygons");
        check(AT(is_answer)(out, left->points, points, 25), W, cleaner_names[k], "points of polygons");
        check(memcmp(out_contours, left->contours, sizeof left->contours) == 0 && is_filled(out_contours + 5, 4 * sizeof *out_contours),
              W, cleaner_names[k], "contours of polygons");
        check(memcmp(out_shapes, left->shapes, sizeof left->shapes) == 0 && is_filled(out_shapes + 4, 2 * sizeof *out_shapes),
              W, cleaner_names[k], "polygons");
        check(AT(polygons)[k](given, 24, contours, 8, none, 1, out, 24, out_contours, 8, out_shapes, 1) == 0 && out_shapes[0] == 0
                  && out_contours[0] == 0, W, cleaner_names[k], "no polygon");
        /* Polygons from the second on: that whose outer contour collapses, the empty one, and the triangle. */
        const size_t behind_shapes[3] = {0, 0, 1}, behind_contours[2] = {0, 3};
        if (is_form(k)) continue;
        check(AT(polygons)[k](given, 24, contours, 8, shapes + 1, 4, out, 24, out_contours, 8, out_shapes, 4) == 2
                  && memcmp(out, given + 21, 3 * sizeof *out) == 0 && memcmp(out_contours, behind_contours, sizeof behind_contours) == 0
                  && memcmp(out_shapes, behind_shapes, sizeof behind_shapes) == 0, W, cleaner_names[k], "polygons from the second on");
    }
}

static void AT(test_shapes_codes)(void) {
    const size_t contours[3] = {0, 3, 6}, outside[2] = {0, 7}, shapes[2] = {0, 2}, halves[3] = {0, 1, 2}, backwards[3] = {0, 2, 1}, beyond[2] = {0, 3}, none[1] = {1}, hollow[3] = {1, 1, 1};
    for (int k = 0; k < CLEANERS; k++) {
        POINT given[6] = {{0, 0}, {2, 0}, {0, 4}, {0, 0}, {4, 0}, {0, 4}}, out[6];
        size_t out_contours[3], out_shapes[3];
        const char *name = cleaner_names[k];
        fill(out, sizeof out);
        fill(out_contours, sizeof out_contours);
        fill(out_shapes, sizeof out_shapes);
#define CLEAN(CONTOURS, CONTOUR_OFFSETS, SHAPES, SHAPE_OFFSETS, ROOM, CONTOUR_ROOM, SHAPE_ROOM) \
    AT(polygons)[k](given, 6, CONTOURS, CONTOUR_OFFSETS, SHAPES, SHAPE_OFFSETS, out, ROOM, out_contours, CONTOUR_ROOM, out_shapes, SHAPE_ROOM)
#define IS_UNTOUCHED (is_filled(out, sizeof out) && is_filled(out_contours, sizeof out_contours) && is_filled(out_shapes, sizeof out_shapes))
        check(CLEAN(contours, 0, shapes, 2, 6, 3, 3) == I_SHAPE_BAD_OFFSETS, W, name, "no offset of contours");
        check(CLEAN(contours, 3, shapes, 0, 6, 3, 3) == I_SHAPE_BAD_OFFSETS, W, name, "no offset of polygons");
        check(CLEAN(outside, 2, shapes, 2, 6, 3, 3) == I_SHAPE_BAD_OFFSETS, W, name, "a contour out of the points");
        check(CLEAN(contours, 3, beyond, 2, 6, 3, 3) == I_SHAPE_BAD_OFFSETS, W, name, "a polygon out of the contours");
        check(CLEAN(contours, 3, backwards, 3, 6, 3, 3) == I_SHAPE_BAD_OFFSETS, W, name, "polygons that run backwards");
        check(CLEAN(contours, 3, shapes, 2, 5, 3, 3) == I_SHAPE_NO_ROOM, W, name, "polygons, room for five of six points");
        check(CLEAN(contours, 3, shapes, 2, 6, 2, 3) == I_SHAPE_NO_ROOM, W, name, "room for two of three offsets of contours");
        check(CLEAN(contours, 3, shapes, 2, 6, 3, 1) == I_SHAPE_NO_ROOM, W, name, "room for one of two offsets of polygons");
        given[5].y = LEAST_UNSAFE;
        check(CLEAN(contours, 3, shapes, 2, 6, 3, 3) == I_SHAPE_UNSAFE, W, name, "polygons with a point that isn't safe");
        check(IS_UNTOUCHED, W, name, "codes leave the arrays of polygons as they were");
        given[5].y = 4;
        /* Two polygons of a clean contour each: for a canonical form the points and offsets of what is left, two lists of its contours and
           one of its polygons, and two lists to sort these. */
        WITH_EACH_GROWTH_FAILED(CLEAN(contours, 3, halves, 3, 6, 3, 3), IS_UNTOUCHED, growths == (is_form(k) ? 8 : 0), W, name);
        /* Of no polygon, and of polygons without a contour, no memory is taken. */
        WITH_EACH_GROWTH_FAILED(CLEAN(contours, 3, none, 1, 6, 3, 3), 1, growths == 0, W, name);
        WITH_EACH_GROWTH_FAILED(CLEAN(contours, 3, hollow, 3, 6, 3, 3), 1, growths == 0, W, name);
#undef IS_UNTOUCHED
#undef CLEAN
    }
}

/* The polygons of test_shapes, each alone: the contours that collapse are empty, and the first of the holes. */
static void AT(test_forms)(void) {
    const POINT given[24] = {{10, 0}, {10, 10}, {0, 10}, {0, 0}, {5, 0}, {8, 6}, {6, 6}, {6, 8}, {7, 7}, {1, 1}, {2, 2}, {3, 3},
                             {2, 4}, {4, 2}, {2, 2}, {1, 1}, {2, 2}, {3, 3}, {2, 4}, {4, 2}, {2, 2}, {0, -4}, {4, 0}, {-4, 0}};
    const size_t contours[8] = {0, 5, 9, 12, 15, 18, 21, 24}, shapes[5] = {0, 4, 6, 6, 7}, none[1] = {2};
    const size_t left_contours[8] = {0, 4, 4, 7, 10, 10, 13, 16};
    const int left[2][16][2] = {
        {{0, 0}, {10, 0}, {10, 10}, {0, 10}, {2, 2}, {2, 4}, {4, 2}, {6, 6}, {6, 8}, {8, 6}, {2, 2}, {2, 4}, {4, 2}, {-4, 0}, {0, -4}, {4, 0}},
        {{0, 0}, {0, 10}, {10, 10}, {10, 0}, {2, 2}, {2, 4}, {4, 2}, {6, 6}, {6, 8}, {8, 6}, {2, 2}, {2, 4}, {4, 2}, {-4, 0}, {0, -4}, {4, 0}}};
    for (int k = 0; k < 2; k++) {
        POINT out[25];
        size_t out_contours[9];
        fill(out, sizeof out);
        fill(out_contours, sizeof out_contours);
        check(AT(forms)[k](given, 24, contours, 8, shapes, 5, out, 25, out_contours, 9) == 16, W, form_names[k], "how many points");
        check(AT(is_answer)(out, left[k], 16, 25), W, form_names[k], "points");
        check(memcmp(out_contours, left_contours, sizeof left_contours) == 0 && is_filled(out_contours + 8, sizeof *out_contours), W, form_names[k], "contours");
        /* Contours that no polygon has are not sorted. */
        const size_t unsorted[8] = {0, 4, 7, 7, 10, 10, 13, 16};
        check(AT(forms)[k](given, 24, contours, 8, none, 1, out, 24, out_contours, 8) == 16 && memcmp(out_contours, unsorted, sizeof unsorted) == 0
                  && out[4].x == 6 && out[7].x == 2, W, form_names[k], "no polygon");
    }
}

/* The polygons of test_shapes, in features of two, in one, and some of them in none: one that collapses has no contour. */
static void AT(test_features)(void) {
    const POINT given[24] = {{10, 0}, {10, 10}, {0, 10}, {0, 0}, {5, 0}, {8, 6}, {6, 6}, {6, 8}, {7, 7}, {1, 1}, {2, 2}, {3, 3},
                             {2, 4}, {4, 2}, {2, 2}, {1, 1}, {2, 2}, {3, 3}, {2, 4}, {4, 2}, {2, 2}, {0, -4}, {4, 0}, {-4, 0}};
    const size_t contours[8] = {0, 5, 9, 12, 15, 18, 21, 24}, shapes[5] = {0, 4, 6, 6, 7};
    const size_t halves[3] = {0, 2, 4}, whole[2] = {0, 4}, last[2] = {3, 4};
    const size_t halves_contours[5] = {0, 4, 7, 10, 13}, halves_shapes[5] = {0, 0, 3, 3, 4};
    const size_t whole_contours[5] = {0, 3, 7, 10, 13}, whole_shapes[5] = {0, 0, 0, 1, 4};
    const size_t last_shapes[5] = {0, 3, 3, 3, 4};
    const int left[2][13][2] = {
        {{0, 0}, {10, 0}, {10, 10}, {0, 10}, {2, 2}, {2, 4}, {4, 2}, {6, 6}, {6, 8}, {8, 6}, {-4, 0}, {0, -4}, {4, 0}},
        {{0, 0}, {0, 10}, {10, 10}, {10, 0}, {2, 2}, {2, 4}, {4, 2}, {6, 6}, {6, 8}, {8, 6}, {-4, 0}, {0, -4}, {4, 0}}};
    for (int k = 0; k < 2; k++) {
        POINT out[25];
        size_t out_contours[9], out_shapes[6];
        const char *name = feature_names[k];
        fill(out, sizeof out);
        fill(out_contours, sizeof out_contours);
        fill(out_shapes, sizeof out_shapes);
#define FORM(FEATURES, FEATURE_OFFSETS) \
    AT(features)[k](given, 24, contours, 8, shapes, 5, FEATURES, FEATURE_OFFSETS, out, 25, out_contours, 9, out_shapes, 6)
        check(FORM(halves, 3) == 4, W, name, "how many polygons");
        check(AT(is_answer)(out, left[k], 13, 25), W, name, "points");
        check(memcmp(out_contours, halves_contours, sizeof halves_contours) == 0 && is_filled(out_contours + 5, 4 * sizeof *out_contours), W, name, "contours");
        check(memcmp(out_shapes, halves_shapes, sizeof halves_shapes) == 0 && is_filled(out_shapes + 5, sizeof *out_shapes), W, name, "polygons");
        check(FORM(whole, 2) == 4 && AT(is_answer)(out, left[k] + 10, 3, 3) && AT(is_answer)(out + 3, left[k], 10, 10)
                  && memcmp(out_contours, whole_contours, sizeof whole_contours) == 0 && memcmp(out_shapes, whole_shapes, sizeof whole_shapes) == 0,
              W, name, "one feature");
        check(FORM(last, 2) == 4 && AT(is_answer)(out, left[k], 13, 13) && memcmp(out_contours, halves_contours, sizeof halves_contours) == 0
                  && memcmp(out_shapes, last_shapes, sizeof last_shapes) == 0, W, name, "polygons that no feature has");
#undef FORM
    }
}

static void AT(test_features_codes)(void) {
    const size_t contours[3] = {0, 3, 6}, outside[2] = {0, 7}, shapes[3] = {0, 1, 2}, backwards[3] = {0, 2, 1}, beyond[2] = {0, 3}, features[2] = {0, 2}, none[1] = {1}, hollow[3] = {1, 1, 1};
    for (int k = 0; k < 2; k++) {
        POINT given[6] = {{0, 0}, {2, 0}, {0, 4}, {0, 0}, {4, 0}, {0, 4}}, out[6];
        size_t out_contours[3], out_shapes[3];
        const char *name = feature_names[k];
        fill(out, sizeof out);
        fill(out_contours, sizeof out_contours);
        fill(out_shapes, sizeof out_shapes);
#define FORM(CONTOURS, CONTOUR_OFFSETS, SHAPES, SHAPE_OFFSETS, FEATURES, FEATURE_OFFSETS, ROOM, CONTOUR_ROOM, SHAPE_ROOM) \
    AT(features)[k](given, 6, CONTOURS, CONTOUR_OFFSETS, SHAPES, SHAPE_OFFSETS, FEATURES, FEATURE_OFFSETS, out, ROOM, out_contours, CONTOUR_ROOM, out_shapes, SHAPE_ROOM)
#define IS_UNTOUCHED (is_filled(out, sizeof out) && is_filled(out_contours, sizeof out_contours) && is_filled(out_shapes, sizeof out_shapes))
        check(FORM(contours, 0, shapes, 3, features, 2, 6, 3, 3) == I_SHAPE_BAD_OFFSETS, W, name, "no offset of contours");
        check(FORM(contours, 3, shapes, 0, features, 2, 6, 3, 3) == I_SHAPE_BAD_OFFSETS, W, name, "no offset of polygons");
        check(FORM(contours, 3, shapes, 3, features, 0, 6, 3, 3) == I_SHAPE_BAD_OFFSETS, W, name, "no offset of features");
        check(FORM(outside, 2, shapes, 3, features, 2, 6, 3, 3) == I_SHAPE_BAD_OFFSETS, W, name, "a contour out of the points");
        check(FORM(contours, 3, beyond, 2, features, 2, 6, 3, 3) == I_SHAPE_BAD_OFFSETS, W, name, "a polygon out of the contours");
        check(FORM(contours, 3, shapes, 3, beyond, 2, 6, 3, 3) == I_SHAPE_BAD_OFFSETS, W, name, "a feature out of the polygons");
        check(FORM(contours, 3, shapes, 3, backwards, 3, 6, 3, 3) == I_SHAPE_BAD_OFFSETS, W, name, "features that run backwards");
        check(FORM(contours, 3, shapes, 3, features, 2, 5, 3, 3) == I_SHAPE_NO_ROOM, W, name, "room for five of six points");
        check(FORM(contours, 3, shapes, 3, features, 2, 6, 2, 3) == I_SHAPE_NO_ROOM, W, name, "room for two of three offsets of contours");
        check(FORM(contours, 3, shapes, 3, features, 2, 6, 3, 2) == I_SHAPE_NO_ROOM, W, name, "room for two of three offsets of polygons");
        given[5].y = LEAST_UNSAFE;
        check(FORM(contours, 3, shapes, 3, features, 2, 6, 3, 3) == I_SHAPE_UNSAFE, W, name, "features with a point that isn't safe");
        check(IS_UNTOUCHED, W, name, "codes leave the arrays of features as they were");
        given[5].y = 4;
        /* The points, and the offsets of contours and polygons, of what is left, two lists of the contours and one of the polygons. */
        WITH_EACH_GROWTH_FAILED(FORM(contours, 3, shapes, 3, features, 2, 6, 3, 3), IS_UNTOUCHED, growths == 6, W, name);
        /* Of no polygon, and of polygons without a contour, no memory is taken. */
        WITH_EACH_GROWTH_FAILED(FORM(contours, 3, none, 1, features, 1, 6, 3, 3), 1, growths == 0, W, name);
        WITH_EACH_GROWTH_FAILED(FORM(contours, 3, hollow, 3, features, 2, 6, 3, 3), 1, growths == 0, W, name);
#undef IS_UNTOUCHED
#undef FORM
    }
}

static void AT(test_forms_codes)(void) {
    const size_t contours[3] = {0, 3, 6}, outside[2] = {0, 7}, shapes[2] = {0, 2}, backwards[3] = {0, 2, 1}, beyond[2] = {0, 3}, none[1] = {0};
    for (int k = 0; k < 2; k++) {
        POINT given[6] = {{0, 0}, {2, 0}, {0, 4}, {0, 0}, {4, 0}, {0, 4}}, out[6];
        size_t out_contours[3];
        const char *name = form_names[k];
        fill(out, sizeof out);
        fill(out_contours, sizeof out_contours);
#define FORM(CONTOURS, CONTOUR_OFFSETS, SHAPES, SHAPE_OFFSETS, ROOM, CONTOUR_ROOM) \
    AT(forms)[k](given, 6, CONTOURS, CONTOUR_OFFSETS, SHAPES, SHAPE_OFFSETS, out, ROOM, out_contours, CONTOUR_ROOM)
#define IS_UNTOUCHED (is_filled(out, sizeof out) && is_filled(out_contours, sizeof out_contours))
        check(FORM(contours, 0, shapes, 2, 6, 3) == I_SHAPE_BAD_OFFSETS, W, name, "no offset of contours");
        check(FORM(contours, 3, shapes, 0, 6, 3) == I_SHAPE_BAD_OFFSETS, W, name, "no offset of polygons");
        check(FORM(outside, 2, shapes, 2, 6, 3) == I_SHAPE_BAD_OFFSETS, W, name, "a contour out of the points");
        check(FORM(contours, 3, beyond, 2, 6, 3) == I_SHAPE_BAD_OFFSETS, W, name, "a polygon out of the contours");
        check(FORM(contours, 3, backwards, 3, 6, 3) == I_SHAPE_BAD_OFFSETS, W, name, "polygons that run backwards");
        check(FORM(contours, 3, shapes, 2, 5, 3) == I_SHAPE_NO_ROOM, W, name, "room for five of six points");
        check(FORM(contours, 3, shapes, 2, 6, 2) == I_SHAPE_NO_ROOM, W, name, "room for two of three offsets of contours");
        given[5].y = LEAST_UNSAFE;
        check(FORM(contours, 3, shapes, 2, 6, 3) == I_SHAPE_UNSAFE, W, name, "polygons with a point that isn't safe");
        check(IS_UNTOUCHED, W, name, "codes leave the arrays of forms as they were");
        given[5].y = 4;
        /* Copies of both arrays, and a list of the contours. */
        WITH_EACH_GROWTH_FAILED(FORM(contours, 3, shapes, 2, 6, 3), IS_UNTOUCHED, growths == 3, W, name);
        WITH_EACH_GROWTH_FAILED(FORM(contours, 1, none, 1, 6, 3), 1, growths == 0, W, name);
#undef IS_UNTOUCHED
#undef FORM
    }
}

static void AT(test_tests)(void) {
    for (size_t r = 0; r < ROWS; r++) {
        const struct row *row = &rows[r];
        POINT given[MOST];
        AT(points_of)(row->points, row->count, given);
        check(CALL(is_simple)(given, row->count) == row->is_simple, W, "is_simple", row->name);
        check(CALL(has_no_spikes)(given, row->count) == row->has_no_spikes, W, "has_no_spikes", row->name);
        check(CALL(is_convex)(given, row->count) == row->is_convex, W, "is_convex", row->name);
        check(CALL(is_simple_polygon)(given, row->count) == row->is_simple_polygon, W, "is_simple_polygon", row->name);
        check(CALL(is_safe)(given, row->count) == 1, W, "is_safe", row->name);
    }
    POINT square[4] = {{0, 0}, {4, 0}, {4, 4}, {0, 4}};
    check(CALL(contains)(square, 4, 1, 1) == 1, W, "contains", "a point inside");
    check(CALL(contains)(square, 4, 5, 1) == 0, W, "contains", "a point outside");
    check(CALL(contains)(square, 0, 5, 1) == 0, W, "contains", "no contour");
    check(CALL(contains_by)(square, 0, 5, 1, I_SHAPE_EVEN_ODD) == 0, W, "contains_by", "no contour");
    check(CALL(contains_by)(square, 4, 1, 1, 4) == I_SHAPE_BAD_OFFSETS, W, "contains_by", "no such rule");
    check(CALL(contains_by)(square, 4, 1, LEAST_UNSAFE, I_SHAPE_NONZERO) == I_SHAPE_UNSAFE, W, "contains_by", "a point that isn't safe");
    check(CALL(first_unsafe)(square, 4) == 4 && CALL(first_unsafe)(square, 0) == 0, W, "first_unsafe", "each point is safe");
    check(CALL(contains)(square, 4, LEAST_UNSAFE, 1) == I_SHAPE_UNSAFE, W, "contains", "a point that isn't safe");
    square[3].y = LEAST_UNSAFE;
    check(CALL(is_safe)(square, 4) == 0, W, "is_safe", "a vertex that isn't safe");
    check(CALL(contains_by)(square, 4, 1, 1, I_SHAPE_NONZERO) == I_SHAPE_UNSAFE, W, "contains_by", "a vertex that isn't safe");
    square[1].x = (COORDINATE)-LEAST_UNSAFE;
    check(CALL(first_unsafe)(square, 4) == 1 && CALL(first_unsafe)(square + 2, 2) == 1, W, "first_unsafe", "two that aren't safe");
    check(CALL(is_simple)(square, 4) == I_SHAPE_UNSAFE, W, "is_simple", "a vertex that isn't safe");
    check(CALL(has_no_spikes)(square, 4) == I_SHAPE_UNSAFE, W, "has_no_spikes", "a vertex that isn't safe");
    check(CALL(is_convex)(square, 4) == I_SHAPE_UNSAFE, W, "is_convex", "a vertex that isn't safe");
    check(CALL(is_simple_polygon)(square, 4) == I_SHAPE_UNSAFE, W, "is_simple_polygon", "a vertex that isn't safe");
    check(CALL(contains)(square, 4, 1, 1) == I_SHAPE_UNSAFE, W, "contains", "a vertex that isn't safe");
}

/* The same of the tests and areas, of all worked contours and of the inner ones. */
/* Corners of a parabola, and the middle of one edge at each place in turn. */
static void AT(test_one_zero_turn)(void) {
    enum { CORNERS = 40 };
    POINT corners[CORNERS], given[CORNERS + 1], out[CORNERS + 1];
    for (int k = 0; k < CORNERS; k++) {
        corners[k].x = (COORDINATE)(2 * (k - 20));
        corners[k].y = (COORDINATE)(2 * (k - 20) * (k - 20));
    }
    check(CALL(is_simple)(corners, CORNERS) == 1, W, "is_simple", "a parabola");
    for (int place = 0; place <= CORNERS; place++) {
        const POINT before = corners[(place + CORNERS - 1) % CORNERS], behind = corners[place % CORNERS];
        for (int k = 0; k < CORNERS; k++)
            given[k + (k >= place)] = corners[k];
        given[place].x = (COORDINATE)((before.x + behind.x) / 2);
        given[place].y = (COORDINATE)((before.y + behind.y) / 2);
        check(CALL(is_simple)(given, CORNERS + 1) == 0, W, "is_simple", "one zero turn");
        check(CALL(simplify)(given, CORNERS + 1, out, CORNERS + 1) == CORNERS && memcmp(out, corners, sizeof corners) == 0, W, "simplify", "one zero turn");
    }
}

static void AT(test_all_rows)(void) {
    POINT given[ROWS * MOST];
    size_t offsets[ROWS + 1];
    AT(all_rows)(given, offsets);
    for (size_t left_out = 0; left_out < 2; left_out++) {
        const size_t many = ROWS - 2 * left_out;
        for (int k = 0; k < TESTS; k++) {
            uint8_t out[ROWS + 1];
            fill(out, sizeof out);
            int is_right = AT(tests)[k](given, offsets[ROWS], offsets + left_out, many + 1, out, ROWS + 1) == 0;
            for (size_t r = 0; r < many; r++) is_right &= out[r] == told(&rows[r + left_out], k);
            check(is_right && is_filled(out + many, sizeof out - many), W, test_names[k], "many contours");
        }
        AREA areas[ROWS + 1];
        fill(areas, sizeof areas);
        int is_right = CALL(area_two_contours)(given, offsets[ROWS], offsets + left_out, many + 1, areas, ROWS + 1) == 0;
        for (size_t r = 0; r < many; r++) is_right &= AREA_IS(areas[r], rows[r + left_out].area_two);
        check(is_right && is_filled(areas + many, sizeof areas - many * sizeof *areas), W, "area_two", "many contours");
    }
}

static void AT(test_codes_of_tests)(void) {
    POINT given[8] = {{LEAST_UNSAFE, 0}, {0, 0}, {4, 0}, {0, 4}, {0, 0}, {4, 0}, {0, 4}, {0, LEAST_UNSAFE}};
    const size_t inner[] = {1, 4, 7}, low[] = {0, 4, 7}, high[] = {1, 4, 8}, backwards[] = {1, 7, 4}, outside[] = {1, 9}, none[] = {8};
    for (int k = 0; k < TESTS; k++) {
        const int any_points = k == TESTS - 1;
        AT(test_many) call = AT(tests)[k];
        const char *name = test_names[k];
        uint8_t out[3];
        fill(out, sizeof out);
        check(call(given, 8, inner, 0, out, 3) == I_SHAPE_BAD_OFFSETS, W, name, "of many, no offset");
        check(call(given, 8, backwards, 3, out, 3) == I_SHAPE_BAD_OFFSETS, W, name, "of many, offsets that run backwards");
        check(call(given, 8, outside, 2, out, 3) == I_SHAPE_BAD_OFFSETS, W, name, "of many, an offset out of the points");
        check(call(given, 8, inner, 3, out, 1) == I_SHAPE_NO_ROOM, W, name, "of many, room for one of two bytes");
        check(call(given, 8, low, 3, out, 1) == I_SHAPE_NO_ROOM, W, name, "of many, the room is tested first");
        check(is_filled(out, sizeof out), W, name, "of many, codes leave the array as it was");
        check(call(given, 8, low, 3, out, 2) == (any_points ? 0 : I_SHAPE_UNSAFE), W, name, "of many, a first point that isn't safe");
        check(any_points ? out[0] == 0 && out[1] == 1 : is_filled(out, sizeof out), W, name, "of many, what that leaves");
        fill(out, sizeof out);
        check(call(given, 8, high, 3, out, 2) == (any_points ? 0 : I_SHAPE_UNSAFE), W, name, "of many, a last point that isn't safe");
        check(any_points ? out[0] == 1 && out[1] == 0 : is_filled(out, sizeof out), W, name, "of many, what that leaves");
        fill(out, sizeof out);
        check(call(given, 8, none, 1, out, 0) == 0 && is_filled(out, sizeof out), W, name, "of many, no contour");
        check(call(given, 8, inner, 3, out, 2) == 0 && out[0] == 1 && out[1] == 1 && is_filled(out + 2, 1), W, name,
              "of many, points outside the offsets aren't read");
        WITH_EACH_GROWTH_FAILED(call(given, 8, inner, 3, out, 2), 1, growths == 0, W, name);
    }
}

static void AT(test_codes_of_areas)(void) {
    /* A triangle, and one that has a point that isn't safe. */
    const POINT given[7] = {{9, 9}, {0, 0}, {4, 0}, {0, 4}, {0, 0}, {LEAST_UNSAFE, 0}, {0, 1}};
    const size_t both[] = {1, 4, 7}, empty[] = {4, 4}, backwards[] = {1, 7, 4}, outside[] = {1, 8}, none[] = {7};
    AREA areas[3];
    fill(areas, sizeof areas);
    check(CALL(area_two_contours)(given, 7, both, 0, areas, 3) == I_SHAPE_BAD_OFFSETS, W, "area_two", "of many, no offset");
    check(CALL(area_two_contours)(given, 7, backwards, 3, areas, 3) == I_SHAPE_BAD_OFFSETS, W, "area_two", "of many, offsets that run backwards");
    check(CALL(area_two_contours)(given, 7, outside, 2, areas, 3) == I_SHAPE_BAD_OFFSETS, W, "area_two", "of many, an offset out of the points");
    check(CALL(area_two_contours)(given, 7, both, 3, areas, 1) == I_SHAPE_NO_ROOM, W, "area_two", "of many, room for one of two areas");
    check(CALL(area_two_contours)(given, 7, none, 1, areas, 0) == 0, W, "area_two", "of many, no contour");
    check(is_filled(areas, sizeof areas), W, "area_two", "of many, a code leaves the array as it was");
    check(CALL(area_two_contours)(given, 7, both, 3, areas, 2) == 0 && AREA_IS(areas[0], 16) && AREA_IS(areas[1], (int64_t)LEAST_UNSAFE)
              && is_filled(areas + 2, sizeof *areas), W, "area_two", "of many, a point that isn't safe");
    check(CALL(area_two_contours)(given, 7, empty, 2, areas, 1) == 0 && AREA_IS(areas[0], 0), W, "area_two", "of many, a contour without a point");
    WITH_EACH_GROWTH_FAILED(CALL(area_two_contours)(given, 7, both, 3, areas, 2), 1, growths == 0, W, "area_two");
}

static void AT(test_windings)(void) {
    /* A square wound twice; one in it that turns right; and a triangle that is left out by the offsets. */
    POINT given[15] = {{0, 0}, {4, 0}, {4, 4}, {0, 4}, {0, 0}, {4, 0}, {4, 4}, {0, 4}, {1, 1}, {1, 3}, {3, 3}, {3, 1}, {0, 0}, {4, 0}, {0, 4}};
    POINT about[3] = {{2, 2}, {0, 2}, {4, 2}};
    const ptrdiff_t twice[3] = {2, 2, 0}, both[3] = {1, 2, 0};
    const size_t offsets[3] = {0, 8, 12}, backwards[3] = {0, 12, 8}, outside[2] = {0, 16};
    ptrdiff_t out[4];
    for (size_t k = 0; k < 3; k++)
        check(CALL(winding)(given, 8, about[k].x, about[k].y) == twice[k], W, "winding", "a square twice");
    check(CALL(winding)(given + 8, 4, 2, 2) == -1, W, "winding", "a square that turns right");
    for (int rule = I_SHAPE_EVEN_ODD; rule <= I_SHAPE_NEGATIVE; rule++) {
        const int32_t of_two[4] = {0, 1, 1, 0}, of_less[4] = {1, 1, 0, 1};
        check(CALL(contains_by)(given, 8, 2, 2, rule) == of_two[rule], W, "contains_by", "a square twice by each rule");
        check(CALL(contains_by)(given + 8, 4, 2, 2, rule) == of_less[rule], W, "contains_by", "a square that turns right by each rule");
    }
    check(CALL(winding)(given, 0, 2, 2) == 0, W, "winding", "no contour");
    check(CALL(winding)(given, 4, 2, LEAST_UNSAFE) == I_SHAPE_NO_WINDING, W, "winding", "a point that isn't safe");
    fill(out, sizeof out);
    check(CALL(windings)(given, 15, offsets, 3, about, 3, out, 4) == 0 && memcmp(out, both, sizeof both) == 0 && is_filled(out + 3, sizeof *out),
          W, "windings", "two contours together");
    check(CALL(windings)(given, 15, offsets, 1, about, 1, out, 4) == 0 && out[0] == 0, W, "windings", "no contour");
    fill(out, sizeof out);
    check(CALL(windings)(given, 15, offsets, 3, about, 0, out, 0) == 0, W, "windings", "no point");
    check(CALL(windings)(given, 15, offsets, 0, about, 3, out, 4) == I_SHAPE_BAD_OFFSETS, W, "windings", "no offset");
    check(CALL(windings)(given, 15, backwards, 3, about, 3, out, 4) == I_SHAPE_BAD_OFFSETS, W, "windings", "offsets that run backwards");
    check(CALL(windings)(given, 15, outside, 2, about, 3, out, 4) == I_SHAPE_BAD_OFFSETS, W, "windings", "an offset out of the points");
    check(CALL(windings)(given, 15, offsets, 3, about, 3, out, 2) == I_SHAPE_NO_ROOM, W, "windings", "room for two of three numbers");
    about[1].x = LEAST_UNSAFE;
    check(CALL(windings)(given, 15, offsets, 3, about, 3, out, 4) == I_SHAPE_UNSAFE, W, "windings", "a point that isn't safe");
    about[1].x = 0;
    given[13].x = LEAST_UNSAFE;
    check(is_filled(out, sizeof out), W, "windings", "codes leave the array as it was");
    check(CALL(windings)(given, 15, offsets, 3, about, 3, out, 4) == 0, W, "windings", "points outside the offsets aren't read");
    given[11].x = LEAST_UNSAFE;
    check(CALL(windings)(given, 15, offsets, 3, about, 3, out, 4) == I_SHAPE_UNSAFE, W, "windings", "a vertex that isn't safe");
    check(CALL(winding)(given + 8, 4, 2, 2) == I_SHAPE_NO_WINDING, W, "winding", "a vertex that isn't safe");
}

/* 64 points of a square, and 32 points along a line through it: with memory for the sorted points, and with each growth failing. */
static void AT(test_many_points)(void) {
    enum { SIDE = 16, ASKED = 32 };
    POINT ring[4 * SIDE], about[ASKED];
    for (int k = 0; k < SIDE; k++) {
        const POINT sides[4] = {{(COORDINATE)k, 0}, {SIDE, (COORDINATE)k}, {(COORDINATE)(SIDE - k), SIDE}, {0, (COORDINATE)(SIDE - k)}};
        for (int side = 0; side < 4; side++) ring[side * SIDE + k] = sides[side];
    }
    for (int k = 0; k < ASKED; k++) {
        const POINT at = {(COORDINATE)(k - 8), 5};
        about[k] = at;
    }
    const size_t offsets[2] = {0, 4 * SIDE};
    ptrdiff_t numbers[ASKED];
    uint8_t filled[ASKED];
    int8_t located[ASKED];
    for (int growth = 0; growth <= 5; growth++) {
#ifdef FAILS_GROWTHS
        failing = (size_t)growth;
        growths = 0;
#endif
        check(CALL(windings)(ring, 4 * SIDE, offsets, 2, about, ASKED, numbers, ASKED) == 0, W, "windings", "memory that fails");
#ifdef FAILS_GROWTHS
        check(growth != 0 || growths == 2, W, "windings", "how often memory is taken");
        growths = 0;
#endif
        check(CALL(contains_points)(ring, 4 * SIDE, offsets, 2, about, ASKED, I_SHAPE_EVEN_ODD, filled, ASKED) == 0, W, "contains_points",
              "memory that fails");
#ifdef FAILS_GROWTHS
        check(growth != 0 || growths == 3, W, "contains_points", "how often memory is taken");
        growths = 0;
#endif
        check(CALL(locate)(ring, 4 * SIDE, offsets, 2, about, ASKED, I_SHAPE_EVEN_ODD, located, ASKED) == 0, W, "locate", "memory that fails");
#ifdef FAILS_GROWTHS
        check(growth != 0 || growths == 4, W, "locate", "how often memory is taken");
        check(blocks == 0, W, "locate", "a block is lost");
        failing = 0;
#endif
        for (int k = 0; k < ASKED; k++) {
            const int x = (int)about[k].x, inside = 0 < x && x < SIDE, on = x == 0 || x == SIDE;
            check(numbers[k] == (x == 0 || inside), W, "windings", "a point of many");
            check(filled[k] == (x == 0 || inside), W, "contains_points", "a point of many");
            check(located[k] == (on ? 0 : inside ? 1 : -1), W, "locate", "a point of many");
        }
    }
}

/* Two squares that turn left, and one in both that turns right, by each rule. */
static void AT(test_locations)(void) {
    POINT given[12] = {{0, 0}, {4, 0}, {4, 4}, {0, 4}, {0, 0}, {9, 0}, {9, 4}, {0, 4}, {20, 0}, {20, 4}, {24, 4}, {24, 0}};
    POINT about[6] = {{2, 2}, {6, 2}, {22, 2}, {12, 2}, {4, 1}, {24, 4}};
    const size_t offsets[4] = {0, 4, 8, 12};
    const uint8_t filled[4][4] = {{0, 1, 1, 0}, {1, 1, 1, 0}, {1, 1, 0, 0}, {0, 0, 1, 0}};
    uint8_t bytes[5];
    int8_t places[7];
    for (int rule = I_SHAPE_EVEN_ODD; rule <= I_SHAPE_NEGATIVE; rule++) {
        fill(bytes, sizeof bytes);
        fill(places, sizeof places);
        check(CALL(contains_points)(given, 12, offsets, 4, about, 4, rule, bytes, 5) == 0 && memcmp(bytes, filled[rule], 4) == 0 && is_filled(bytes + 4, 1),
              W, "contains_points", "three squares by each rule");
        check(CALL(locate)(given, 12, offsets, 4, about, 6, rule, places, 7) == 0 && is_filled(places + 6, 1), W, "locate", "three squares by each rule");
        for (int k = 0; k < 6; k++) check(places[k] == (k >= 4 ? 0 : filled[rule][k] ? 1 : -1), W, "locate", "a point by each rule");
    }
    fill(bytes, sizeof bytes);
    fill(places, sizeof places);
    check(CALL(contains_points)(given, 12, offsets, 4, about, 4, 4, bytes, 5) == I_SHAPE_BAD_OFFSETS, W, "contains_points", "no such rule");
    check(CALL(locate)(given, 12, offsets, 4, about, 6, -1, places, 7) == I_SHAPE_BAD_OFFSETS, W, "locate", "no such rule");
    check(CALL(locate)(given, 12, offsets, 4, about, 6, I_SHAPE_NONZERO, places, 5) == I_SHAPE_NO_ROOM, W, "locate", "room for five of six");
    about[1].x = LEAST_UNSAFE;
    check(CALL(contains_points)(given, 12, offsets, 4, about, 4, I_SHAPE_NONZERO, bytes, 5) == I_SHAPE_UNSAFE, W, "contains_points", "a point that isn't safe");
    check(is_filled(bytes, sizeof bytes) && is_filled(places, sizeof places), W, "locate", "codes leave the array as it was");
}

/* Behind a point that no contour has, and a contour that no polygon has: a square with a hole, a polygon without contours, a square that
   turns right over a corner of the first, and one in the hole. */
static void AT(test_holders)(void) {
    const POINT given[22] = {{LEAST_UNSAFE, 0},
                             {30, 30}, {34, 30}, {34, 34}, {30, 34},
                             {0, 0}, {10, 0}, {10, 10}, {0, 10}, {2, 2}, {2, 8}, {8, 8}, {8, 2},
                             {9, 9}, {9, 14}, {14, 14}, {14, 9},
                             {3, 3}, {7, 3}, {7, 7}, {3, 7},
                             {0, LEAST_UNSAFE}};
    POINT about[8] = {{1, 5}, {5, 5}, {11, 12}, {9, 9}, {2, 5}, {32, 32}, {20, 5}, {5, 20}};
    const size_t contours[6] = {1, 5, 9, 13, 17, 21}, shapes[5] = {1, 3, 3, 4, 5}, none = I_SHAPE_NO_SHAPE;
    const size_t holders[4][8] = {{0, 3, 2, 0, none, none, none, none}, {0, 3, 2, 0, none, none, none, none},
                                  {0, 3, none, 0, none, none, none, none}, {none, none, 2, 2, none, none, none, none}};
    const size_t back[3] = {1, 9, 5}, outside[2] = {1, 23}, shapes_back[3] = {1, 4, 3}, shapes_outside[2] = {1, 6}, low[2] = {0, 5}, high[2] = {17, 22}, one[2] = {0, 1};
    size_t out[9];
    for (int rule = I_SHAPE_EVEN_ODD; rule <= I_SHAPE_NEGATIVE; rule++) {
        fill(out, sizeof out);
        check(CALL(locate_in_shapes)(given, 22, contours, 6, shapes, 5, about, 8, rule, out, 9) == 0 && memcmp(out, holders[rule], sizeof *holders) == 0
              && is_filled(out + 8, sizeof *out), W, "locate_in_shapes", "four polygons by each rule");
    }
    check(CALL(locate_in_shapes)(given, 22, contours, 6, shapes, 1, about, 1, I_SHAPE_NONZERO, out, 1) == 0 && out[0] == none, W, "locate_in_shapes", "no polygon");
    fill(out, sizeof out);
    check(CALL(locate_in_shapes)(given, 22, contours, 6, shapes, 5, about, 0, I_SHAPE_NONZERO, out, 0) == 0, W, "locate_in_shapes", "no point");
    check(CALL(locate_in_shapes)(given, 22, contours, 6, shapes, 5, about, 8, 4, out, 9) == I_SHAPE_BAD_OFFSETS, W, "locate_in_shapes", "no such rule");
    check(CALL(locate_in_shapes)(given, 22, contours, 0, shapes, 5, about, 8, 1, out, 9) == I_SHAPE_BAD_OFFSETS, W, "locate_in_shapes", "no offset of contours");
    check(CALL(locate_in_shapes)(given, 22, contours, 6, shapes, 0, about, 8, 1, out, 9) == I_SHAPE_BAD_OFFSETS, W, "locate_in_shapes", "no offset of polygons");
    check(CALL(locate_in_shapes)(given, 22, back, 3, one, 2, about, 8, 1, out, 9) == I_SHAPE_BAD_OFFSETS, W, "locate_in_shapes", "contours that run backwards");
    check(CALL(locate_in_shapes)(given, 22, outside, 2, one, 2, about, 8, 1, out, 0) == I_SHAPE_BAD_OFFSETS, W, "locate_in_shapes", "a contour out of the points");
    check(CALL(locate_in_shapes)(given, 22, contours, 6, shapes_back, 3, about, 8, 1, out, 9) == I_SHAPE_BAD_OFFSETS, W, "locate_in_shapes", "polygons that run backwards");
    check(CALL(locate_in_shapes)(given, 22, contours, 6, shapes_outside, 2, about, 8, 1, out, 0) == I_SHAPE_BAD_OFFSETS, W, "locate_in_shapes", "a polygon out of the contours");
    check(CALL(locate_in_shapes)(given, 22, contours, 6, shapes, 5, about, 8, 1, out, 7) == I_SHAPE_NO_ROOM, W, "locate_in_shapes", "room for seven of eight");
    check(CALL(locate_in_shapes)(given, 22, low, 2, one, 2, about, 8, 1, out, 0) == I_SHAPE_NO_ROOM, W, "locate_in_shapes", "the room is tested before the points");
    check(CALL(locate_in_shapes)(given, 22, low, 2, one, 2, about, 8, 1, out, 9) == I_SHAPE_UNSAFE, W, "locate_in_shapes", "a first point that isn't safe");
    check(CALL(locate_in_shapes)(given, 22, high, 2, one, 1, about, 8, 1, out, 9) == I_SHAPE_UNSAFE, W, "locate_in_shapes", "a last point that isn't safe, of no polygon");
    about[7].y = LEAST_UNSAFE;
    check(CALL(locate_in_shapes)(given, 22, contours, 6, shapes, 5, about, 8, 1, out, 9) == I_SHAPE_UNSAFE, W, "locate_in_shapes", "a point asked about that isn't safe");
    check(is_filled(out, sizeof out), W, "locate_in_shapes", "codes leave the array as it was");
#ifdef FAILS_GROWTHS
    about[7].y = 20;
    for (size_t growth = 0; growth <= 2; growth++) {
        failing = growth;
        growths = 0;
        check(CALL(locate_in_shapes)(given, 22, contours, 6, shapes, 5, about, 8, I_SHAPE_EVEN_ODD, out, 8) == 0 && memcmp(out, holders[0], sizeof *holders) == 0, W,
              "locate_in_shapes", "memory that fails");
        check(growths == 1 && blocks == 0, W, "locate_in_shapes", "how often memory is taken");
        failing = 0;
    }
#endif
}

/* Behind a point that no contour has: a bow tie, a triangle, and one that touches it. */
static const POINT AT(in_contact)[12] = {{LEAST_UNSAFE, 0}, {0, 0}, {4, 4}, {4, 0}, {0, 4}, {6, 0}, {9, 0}, {6, 9}, {7, 0}, {7, -2}, {8, -2}, {0, LEAST_UNSAFE}};
static const size_t AT(in_contact_offsets)[4] = {1, 5, 8, 11};

/* Whether the call returned this contact, and behind it nothing was written. */
static int AT(is_contact)(int32_t answer, const size_t *out, size_t first, size_t second) {
    return answer == 1 && out[0] == first && out[1] == second && is_filled(out + 2, sizeof *out);
}

static void AT(test_contacts)(void) {
    const POINT *given = AT(in_contact);
    const size_t *all = AT(in_contact_offsets), backwards[3] = {1, 8, 5}, outside[2] = {1, 13}, low[2] = {0, 5}, high[2] = {8, 12};
    size_t out[3];
    fill(out, sizeof out);
    check(AT(is_contact)(CALL(first_contact)(given + 1, 4, out, 3), out, 0, 2), W, "first_contact", "a bow tie");
    fill(out, sizeof out);
    check(CALL(first_contact)(given + 5, 3, out, 2) == 0 && is_filled(out, sizeof out), W, "first_contact", "a triangle");
    check(CALL(first_contact)(given, 0, out, 2) == 0 && is_filled(out, sizeof out), W, "first_contact", "no point");
    check(CALL(first_contact)(given, 12, out, 1) == I_SHAPE_NO_ROOM && is_filled(out, sizeof out), W, "first_contact", "room for one of two places");
    check(CALL(first_contact)(given, 5, out, 2) == I_SHAPE_UNSAFE && is_filled(out, sizeof out), W, "first_contact", "a vertex that isn't safe");
    check(AT(is_contact)(CALL(first_contact_of_rings)(given, 12, all, 4, out, 3), out, 1, 3), W, "first_contact_of_rings", "within a contour");
    fill(out, sizeof out);
    check(AT(is_contact)(CALL(first_contact_of_rings)(given, 12, all + 1, 3, out, 3), out, 5, 8), W, "first_contact_of_rings", "between two contours");
    fill(out, sizeof out);
    check(CALL(first_contact_of_rings)(given, 12, all + 1, 2, out, 2) == 0 && CALL(first_contact_of_rings)(given, 12, all, 1, out, 2) == 0, W,
          "first_contact_of_rings", "one contour, and none");
    check(CALL(first_contact_of_rings)(given, 12, all, 0, out, 2) == I_SHAPE_BAD_OFFSETS, W, "first_contact_of_rings", "no offset");
    check(CALL(first_contact_of_rings)(given, 12, backwards, 3, out, 2) == I_SHAPE_BAD_OFFSETS, W, "first_contact_of_rings", "offsets that run backwards");
    check(CALL(first_contact_of_rings)(given, 12, outside, 2, out, 1) == I_SHAPE_BAD_OFFSETS, W, "first_contact_of_rings", "an offset out of the points");
    check(CALL(first_contact_of_rings)(given, 12, low, 2, out, 1) == I_SHAPE_NO_ROOM, W, "first_contact_of_rings", "room for one of two places");
    check(CALL(first_contact_of_rings)(given, 12, low, 2, out, 2) == I_SHAPE_UNSAFE, W, "first_contact_of_rings", "a first point that isn't safe");
    check(CALL(first_contact_of_rings)(given, 12, high, 2, out, 2) == I_SHAPE_UNSAFE, W, "first_contact_of_rings", "a last point that isn't safe");
    check(is_filled(out, sizeof out), W, "first_contact_of_rings", "codes and 0 leave the array as it was");
    WITH_EACH_GROWTH_FAILED(CALL(first_contact_of_rings)(given, 12, all, 4, out, 2), is_filled(out, sizeof out), growths == 1, W, "first_contact_of_rings");
}

static void AT(test_all_contacts)(void) {
    /* A bow tie, with a spike over its closing edge. */
    POINT given[5] = {{0, 0}, {4, 4}, {4, 0}, {0, 4}, {0, -1}};
    const i_shape_contact all[3] = {{0, 2}, {0, 3}, {3, 4}};
    i_shape_contact out[4];
    fill(out, sizeof out);
    check(CALL(contacts)(given, 4, out, 4) == 1 && !memcmp(out, all, sizeof *out) && is_filled(out + 1, 3 * sizeof *out), W, "contacts", "a bow tie");
    check(CALL(contacts)(given, 5, out, 4) == 3 && !memcmp(out, all, sizeof all) && is_filled(out + 3, sizeof *out), W, "contacts", "a bow tie with a spike");
    fill(out, sizeof out);
    check(CALL(contacts)(given, 5, out, 2) == 3 && !memcmp(out, all, 2 * sizeof *out) && is_filled(out + 2, 2 * sizeof *out), W, "contacts", "room for two of three");
    fill(out, sizeof out);
    check(CALL(contacts)(given, 5, out, 0) == 3 && CALL(contacts)(given, 0, out, 4) == 0, W, "contacts", "no room, and no point");
    given[4].x = LEAST_UNSAFE;
    check(CALL(contacts)(given, 5, out, 4) == I_SHAPE_UNSAFE, W, "contacts", "a vertex that isn't safe");
    check(is_filled(out, sizeof out), W, "contacts", "the code and 0 leave the array as it was");
}

static void AT(test_contacts_of_rings)(void) {
    const POINT *given = AT(in_contact);
    const size_t *all = AT(in_contact_offsets), first[4] = {0, 4, 7, 10}, backwards[3] = {1, 8, 5}, low[2] = {0, 5};
    const i_shape_contact contacts[3] = {{1, 3}, {5, 8}, {5, 10}}, from_zero[3] = {{0, 2}, {4, 7}, {4, 9}};
    i_shape_contact out[4];
    fill(out, sizeof out);
    check(CALL(contacts_of_rings)(given, 12, all, 4, out, 4) == 3 && !memcmp(out, contacts, sizeof contacts) && is_filled(out + 3, sizeof *out), W,
          "contacts_of_rings", "within a contour, and between two");
    check(CALL(contacts_of_rings)(given + 1, 11, first, 4, out, 4) == 3 && !memcmp(out, from_zero, sizeof from_zero) && is_filled(out + 3, sizeof *out), W,
          "contacts_of_rings", "the same from 0 on");
    fill(out, sizeof out);
    check(CALL(contacts_of_rings)(given, 12, all, 4, out, 2) == 3 && !memcmp(out, contacts, 2 * sizeof *out) && is_filled(out + 2, 2 * sizeof *out), W,
          "contacts_of_rings", "room for two of three");
    fill(out, sizeof out);
    check(CALL(contacts_of_rings)(given, 12, all + 1, 2, out, 4) == 0 && CALL(contacts_of_rings)(given, 12, all, 1, out, 4) == 0, W,
          "contacts_of_rings", "one contour, and none");
    check(CALL(contacts_of_rings)(given, 12, all, 0, out, 4) == I_SHAPE_BAD_OFFSETS, W, "contacts_of_rings", "no offset");
    check(CALL(contacts_of_rings)(given, 12, backwards, 3, out, 4) == I_SHAPE_BAD_OFFSETS, W, "contacts_of_rings", "offsets that run backwards");
    check(CALL(contacts_of_rings)(given, 12, low, 2, out, 4) == I_SHAPE_UNSAFE, W, "contacts_of_rings", "a point that isn't safe");
    check(is_filled(out, sizeof out), W, "contacts_of_rings", "codes and 0 leave the array as it was");
    WITH_EACH_GROWTH_FAILED(CALL(contacts_of_rings)(given, 12, all, 4, out, 4), is_filled(out, sizeof out), growths == 1, W, "contacts_of_rings");
}

static void AT(test_kinds)(void) {
    const COORDINATE most = LEAST_UNSAFE - 1;
    POINT given[40] = {{0, 0}, {4, 4}, {0, 4}, {4, 0},                       /* across */
                       {(COORDINATE)-most, (COORDINATE)-most}, {most, most}, {(COORDINATE)-most, most}, {most, (COORDINATE)-most}, /* the same, as far as is safe */
                       {0, 0}, {4, 0}, {2, 3}, {2, 0},                       /* an end on the other edge */
                       {0, 0}, {4, 0}, {4, 0}, {6, 1},                       /* one follows the other */
                       {0, 0}, {4, 0}, {6, 0}, {2, 0},                       /* along */
                       {0, 0}, {4, 0}, {4, 0}, {0, 0},                       /* there and back */
                       {0, 0}, {4, 0}, {5, 0}, {6, 0},                       /* apart, on one line */
                       {1, 1}, {1, 1}, {0, 0}, {2, 2},                       /* a single point on the other edge */
                       {1, 1}, {1, 1}, {1, 1}, {1, 1},                       /* a single point twice */
                       {1, 2}, {1, 2}, {0, 0}, {2, 2}};                      /* a single point beside the other edge */
    const uint8_t kinds[10] = {I_SHAPE_CROSSING, I_SHAPE_CROSSING, I_SHAPE_TOUCH, I_SHAPE_TOUCH, I_SHAPE_OVERLAP,
                               I_SHAPE_OVERLAP, I_SHAPE_NO_CONTACT, I_SHAPE_TOUCH, I_SHAPE_TOUCH, I_SHAPE_NO_CONTACT};
    uint8_t out[12];
    fill(out, sizeof out);
    check(CALL(kinds_of_contacts)(given, 40, out, 12) == 0 && !memcmp(out, kinds, sizeof kinds) && is_filled(out + 10, 2), W, "kinds_of_contacts", "each kind");
    fill(out, sizeof out);
    check(CALL(kinds_of_contacts)(given, 40, out, 10) == 0 && !memcmp(out, kinds, sizeof kinds), W, "kinds_of_contacts", "room for no more");
    fill(out, sizeof out);
    check(CALL(kinds_of_contacts)(given, 0, out, 0) == 0, W, "kinds_of_contacts", "no pair");
    given[39].y = LEAST_UNSAFE;
    check(CALL(kinds_of_contacts)(given + 1, 39, out, 0) == I_SHAPE_BAD_OFFSETS, W, "kinds_of_contacts", "three points in place of four");
    check(CALL(kinds_of_contacts)(given, 40, out, 9) == I_SHAPE_NO_ROOM, W, "kinds_of_contacts", "room for nine of ten");
    check(CALL(kinds_of_contacts)(given, 40, out, 10) == I_SHAPE_UNSAFE, W, "kinds_of_contacts", "a last point that isn't safe");
    check(is_filled(out, sizeof out), W, "kinds_of_contacts", "codes leave the array as it was");
}

typedef int32_t (*AT(find_faults))(const POINT *, size_t, const size_t *, size_t, const size_t *, size_t, i_shape_fault *, size_t);

/* What both calls do that write faults, of polygons whose first point and last one aren't safe, and no contour has: it has 14 contours, of which no polygon has the first. */
static void AT(test_faults)(AT(find_faults) call, const char *name, const POINT *given, size_t count, const size_t *contours, const size_t *shapes, size_t shape_count,
                            const i_shape_fault *faults) {
    const size_t back[3] = {1, 9, 5}, outside[2] = {1, count + 1}, shapes_back[3] = {1, 4, 3}, shapes_outside[2] = {1, 15}, low[2] = {0, 5}, high[2] = {46, count}, one[2] = {0, 1};
    const size_t polygons = shape_count - 1;
    i_shape_fault out[8];
    fill(out, sizeof out);
    check(call(given, count, contours, 15, shapes, shape_count, out, polygons) == 0 && memcmp(out, faults, polygons * sizeof *out) == 0 && is_filled(out + polygons, sizeof *out), W,
          name, "a polygon of each kind");
    fill(out, sizeof out);
    check(call(given, count, contours, 15, shapes, 1, out, 0) == 0, W, name, "no polygon");
    check(call(given, count, contours, 0, shapes, shape_count, out, 8) == I_SHAPE_BAD_OFFSETS, W, name, "no offset of contours");
    check(call(given, count, contours, 15, shapes, 0, out, 8) == I_SHAPE_BAD_OFFSETS, W, name, "no offset of polygons");
    check(call(given, count, back, 3, one, 2, out, 8) == I_SHAPE_BAD_OFFSETS, W, name, "contours that run backwards");
    check(call(given, count, outside, 2, one, 2, out, 0) == I_SHAPE_BAD_OFFSETS, W, name, "a contour out of the points");
    check(call(given, count, contours, 15, shapes_back, 3, out, 8) == I_SHAPE_BAD_OFFSETS, W, name, "polygons that run backwards");
    check(call(given, count, contours, 15, shapes_outside, 2, out, 0) == I_SHAPE_BAD_OFFSETS, W, name, "a polygon out of the contours");
    check(call(given, count, contours, 15, shapes, shape_count, out, polygons - 1) == I_SHAPE_NO_ROOM, W, name, "room for a fault less than there are");
    check(call(given, count, low, 2, one, 2, out, 0) == I_SHAPE_NO_ROOM, W, name, "the room is tested before the points");
    check(call(given, count, low, 2, one, 2, out, 8) == I_SHAPE_UNSAFE, W, name, "a first point that isn't safe");
    check(call(given, count, high, 2, one, 1, out, 8) == I_SHAPE_UNSAFE, W, name, "a last point that isn't safe, of no polygon");
    check(is_filled(out, sizeof out), W, name, "codes leave the array as it was");
}

/* Behind a point that no contour has, and a contour that no polygon has: a polygon of each kind, and one without contours. */
static void AT(test_validity)(void) {
    const POINT given[50] = {{LEAST_UNSAFE, 0},
                             {0, 0}, {4, 4}, {4, 0}, {0, 4},                                                                /* a bow tie */
                             {0, 0}, {20, 0}, {20, 20}, {0, 20}, {2, 2}, {4, 2}, {4, 4}, {10, 10}, {12, 10}, {12, 12},       /* two holes apart */
                             {0, 0}, {4, 4}, {4, 0}, {0, 4}, {3, 3}, {3, 3}, {3, 3},                                         /* a point for a hole in a bow tie */
                             {0, 0}, {8, 0}, {8, 8}, {0, 8}, {4, 8}, {2, 4}, {6, 4},                                         /* a hole that touches the outer contour */
                             {0, 0}, {8, 0}, {8, 8}, {0, 8}, {1, 1}, {2, 1}, {2, 2}, {10, 0}, {12, 0}, {12, 2},              /* a hole inside and one outside */
                             {0, 0}, {20, 0}, {20, 20}, {0, 20}, {2, 2}, {16, 2}, {2, 16}, {4, 4}, {6, 4}, {4, 6},           /* a hole in a hole */
                             {0, LEAST_UNSAFE}};
    const size_t contours[15] = {1, 5, 9, 12, 15, 19, 22, 26, 29, 33, 36, 39, 43, 46, 49}, shapes[7] = {1, 4, 6, 8, 8, 11, 14};
    const i_shape_fault faults[6] = {{I_SHAPE_VALID, 0, 0}, {I_SHAPE_TOO_FEW_POINTS, 5, 0}, {I_SHAPE_CONTACT, 24, 26},
                                     {I_SHAPE_VALID, 0, 0}, {I_SHAPE_HOLE_OUTSIDE, 10, 0}, {I_SHAPE_HOLE_WITHIN, 13, 12}};
    i_shape_fault out[3];
    fill(out, sizeof out);
    AT(test_faults)(CALL(validity_shapes), "validity_shapes", given, 50, contours, shapes, 7, faults);
    WITH_EACH_GROWTH_FAILED(CALL(validity_shapes)(given, 50, contours, 15, shapes + 1, 4, out, 3), is_filled(out, sizeof out), growths == 1, W, "validity_shapes");
}

/* The same where contours may touch: all that faulty polygons lack but the two first is that contours only touch. */
static void AT(test_touching_validity)(void) {
    const POINT given[53] = {{LEAST_UNSAFE, 0},
                             {0, 0}, {4, 4}, {4, 0}, {0, 4},                                                      /* a bow tie */
                             {0, 0}, {8, 0}, {8, 8}, {0, 8}, {4, 8}, {2, 4}, {6, 4},                              /* a hole that touches the outer contour */
                             {0, 0}, {4, 4}, {4, 0}, {0, 4}, {3, 3}, {3, 3}, {3, 3},                              /* a point for a hole in a bow tie */
                             {0, 0}, {8, 0}, {8, 8}, {4, 0}, {0, 8},                                              /* a contour that touches itself */
                             {0, 0}, {8, 0}, {8, 8}, {0, 8}, {1, 1}, {2, 1}, {2, 2}, {8, 4}, {10, 3}, {10, 5},    /* a hole inside, and one that touches from outside */
                             {0, 0}, {20, 0}, {20, 20}, {0, 20}, {2, 2}, {16, 2}, {2, 16}, {2, 2}, {6, 4}, {4, 6}, /* a hole in a hole that it touches */
                             {0, 0}, {8, 0}, {8, 8}, {0, 8}, {4, 0}, {6, 4}, {4, 8}, {2, 4},                      /* a hole that parts the inside */
                             {0, LEAST_UNSAFE}};
    const size_t contours[15] = {1, 5, 9, 12, 16, 19, 24, 28, 31, 34, 38, 41, 44, 48, 52}, shapes[8] = {1, 3, 5, 6, 6, 9, 12, 14};
    const i_shape_fault faults[7] = {{I_SHAPE_VALID, 0, 0}, {I_SHAPE_TOO_FEW_POINTS, 4, 0}, {I_SHAPE_CONTACT, 19, 21}, {I_SHAPE_VALID, 0, 0},
                                     {I_SHAPE_HOLE_OUTSIDE, 8, 0}, {I_SHAPE_HOLE_WITHIN, 11, 10}, {I_SHAPE_DISCONNECTED, 46, 49}};
    i_shape_fault out[2];
    fill(out, sizeof out);
    AT(test_faults)(CALL(touching_validity_shapes), "touching_validity_shapes", given, 53, contours, shapes, 8, faults);
    /* A copy of the offsets, the faults, and a list of contacts; where all are allowed, what the touches take too. */
    WITH_EACH_GROWTH_FAILED(CALL(touching_validity_shapes)(given, 53, contours, 15, shapes + 6, 2, out, 2), is_filled(out, sizeof out), growths > 3, W, "touching_validity_shapes");
    WITH_EACH_GROWTH_FAILED(CALL(touching_validity_shapes)(given, 53, contours, 15, shapes + 2, 2, out + 1, 1), is_filled(out + 1, sizeof *out), growths == 3, W,
                            "touching_validity_shapes");
}

/* Sixteen points and more: steps up and back down, of which the last edge, with `touches`, touches the second one. With each growth
   failing, the result is the same. */
static void AT(test_contacts_without_memory)(void) {
    enum { STEPS = 20, COUNT = 2 * STEPS };
    POINT steps[COUNT];
    const size_t whole[2] = {0, COUNT}, one[2] = {0, 1};
    const POINT nested[12] = {{0, 0}, {20, 0}, {20, 20}, {0, 20}, {2, 2}, {16, 2}, {16, 16}, {2, 16}, {4, 4}, {6, 4}, {6, 6}, {4, 6}};
    const size_t three[4] = {0, 4, 8, 12}, all[2] = {0, 3};
    for (int k = 0; k < STEPS; k++) {
        const POINT up = {(COORDINATE)(k / 2 * 4 + k % 2 * 4), (COORDINATE)(k / 2 * 4)}, down = {(COORDINATE)(up.x - 2), (COORDINATE)(up.y + 3)};
        steps[k] = up;
        steps[COUNT - 1 - k] = down;
    }
    for (int touches = 0; touches < 2; touches++) {
        if (touches) steps[COUNT - 1].x = 6;
        for (size_t growth = 0; growth < 2; growth++) {
            size_t out[3];
            uint8_t byte = 2;
            i_shape_fault fault;
#ifdef FAILS_GROWTHS
#define WITH_GROWTH(place) (failing = growth * (place), growths = 0)
#define ARE_TAKEN(count) (growths == (count) && blocks == 0)
#else
#define WITH_GROWTH(place) ((void)0)
#define ARE_TAKEN(count) 1
#endif
            fill(out, sizeof out);
            WITH_GROWTH(1);
            check(CALL(first_contact)(steps, COUNT, out, 2) == touches && ARE_TAKEN(1) && is_filled(out + 2 * touches, (size_t)(3 - 2 * touches) * sizeof *out), W,
                  "first_contact", "steps");
            check(!touches || (out[0] == 1 && out[1] == COUNT - 2), W, "first_contact", "where steps touch");
            WITH_GROWTH(1);
            check(CALL(is_simple_polygon)(steps, COUNT) == !touches && ARE_TAKEN(1), W, "is_simple_polygon", "steps");
            WITH_GROWTH(1);
            check(CALL(are_simple_polygons)(steps, COUNT, whole, 2, &byte, 1) == 0 && byte == !touches && ARE_TAKEN(1), W, "are_simple_polygons", "steps");
            WITH_GROWTH(1);
            check(CALL(first_contact_of_rings)(steps, COUNT, whole, 2, out, 2) == touches && ARE_TAKEN(1), W, "first_contact_of_rings", "steps");
            WITH_GROWTH(2); /* the first one is the copy of the offsets */
            check(CALL(validity_shapes)(steps, COUNT, whole, 2, one, 2, &fault, 1) == 0 && ARE_TAKEN(2), W, "validity_shapes", "steps");
            check(fault.kind == (touches ? I_SHAPE_CONTACT : I_SHAPE_VALID) && fault.first == (touches ? 1 : 0) && fault.second == (touches ? COUNT - 2 : 0), W,
                  "validity_shapes", "where steps touch");
            WITH_GROWTH(3); /* the first two are the copy of the offsets and the faults */
            check(CALL(touching_validity_shapes)(steps, COUNT, whole, 2, one, 2, &fault, 1) == 0 && (touches || ARE_TAKEN(3)), W, "touching_validity_shapes", "steps");
            check(fault.kind == (touches ? I_SHAPE_CONTACT : I_SHAPE_VALID) && fault.first == (touches ? 1 : 0) && fault.second == (touches ? COUNT - 2 : 0), W,
                  "touching_validity_shapes", "where steps touch");
            WITH_GROWTH(2); /* the second one is the boxes of rings */
            check(CALL(validity_shapes)(nested, 12, three, 4, all, 2, &fault, 1) == 0 && ARE_TAKEN(2) && fault.kind == I_SHAPE_HOLE_WITHIN && fault.first == 2
                  && fault.second == 1, W, "validity_shapes", "a hole in a hole");
#ifdef FAILS_GROWTHS
            failing = 0;
#endif
#undef WITH_GROWTH
#undef ARE_TAKEN
        }
    }
}

static void AT(test_area)(void) {
    const POINT square[4] = {{0, 0}, {4, 0}, {4, 4}, {0, 4}}, turned[4] = {{0, 0}, {0, 4}, {4, 4}, {4, 0}};
    AREA area;
    fill(&area, sizeof area);
    check(!CALL(area_two)(square, 0, &area) && is_filled(&area, sizeof area), W, "area_two", "no point");
    check(CALL(area_two)(square, 4, &area) && AREA_IS(area, 32), W, "area_two", "a square that turns left");
    check(CALL(area_two)(turned, 4, &area) && AREA_IS(area, -32), W, "area_two", "a square that turns right");
    for (size_t r = 0; r < ROWS; r++) {
        POINT given[MOST];
        AT(points_of)(rows[r].points, rows[r].count, given);
        check(CALL(area_two)(given, rows[r].count, &area) == (rows[r].count > 0) && (rows[r].count == 0 || AREA_IS(area, rows[r].area_two)), W, "area_two",
              rows[r].name);
    }
}

static void AT(test_failed_growths)(void) {
    /* Contours of four and of six points, each with a point that is repeated and one on an edge. */
    const POINT given[10] = {{0, 0}, {4, 0}, {4, 0}, {4, 4}, {0, 0}, {4, 0}, {4, 0}, {4, 4}, {0, 4}, {0, 2}};
    const POINT square[4] = {{0, 0}, {4, 0}, {4, 4}, {0, 4}};
    const size_t offsets[3] = {0, 4, 10};
    const size_t twice[3] = {0, 4, 4}, few[4] = {0, 0, 1, 3}, none[1] = {10};
    for (int k = 0; k < CLEANERS; k++) {
        POINT out[11];
        size_t out_offsets[4];
        fill(out, sizeof out);
        WITH_EACH_GROWTH_FAILED(AT(cleaners)[k](given + 4, 6, out, 6), is_filled(out, sizeof out), growths == 1, W, cleaner_names[k]);
        WITH_EACH_GROWTH_FAILED(AT(cleaners)[k](square, 4, out, 4), 1, growths == 0, W, cleaner_names[k]);
        fill(out, sizeof out);
        fill(out_offsets, sizeof out_offsets);
        WITH_EACH_GROWTH_FAILED(AT(batches)[k](given, 10, offsets, 3, out, 10, out_offsets, 3),
                                 is_filled(out, sizeof out) && is_filled(out_offsets, sizeof out_offsets), growths == 1, W, cleaner_names[k]);
        WITH_EACH_GROWTH_FAILED(AT(batches)[k](square, 4, twice, 3, out, 4, out_offsets, 3), 1, growths == 0, W, cleaner_names[k]);
        /* Below three points, and of no contour, no memory is taken. */
        for (size_t count = 0; count < 3; count++)
            WITH_EACH_GROWTH_FAILED(AT(cleaners)[k](given, count, out, count), 1, growths == 0, W, cleaner_names[k]);
        WITH_EACH_GROWTH_FAILED(AT(batches)[k](given, 10, few, 4, out, 10, out_offsets, 4), 1, growths == 0, W, cleaner_names[k]);
        WITH_EACH_GROWTH_FAILED(AT(batches)[k](given, 10, none, 1, out, 10, out_offsets, 1), 1, growths == 0, W, cleaner_names[k]);
    }
    /* Polygons with a spike in each contour: the places of the longest alone. A contour that no polygon has takes nothing. */
    const POINT spiked[10] = {{0, 0}, {8, 0}, {4, 0}, {4, 4}, {0, 0}, {8, 0}, {4, 0}, {4, 4}, {0, 4}, {0, 2}};
    for (int k = 0; k < CLEANERS; k++) {
        POINT out[10];
        size_t out_contours[3], out_shapes[3];
        const size_t one[2] = {0, 1}, both[2] = {0, 2}, apart[3] = {0, 1, 2}, nothing[2] = {1, 1}, last[2] = {1, 2}, behind[3] = {0, 6, 10};
        if (is_form(k)) continue;
#define CLEAN(POINTS, OFFSETS, COUNT, SHAPES, SHAPE_COUNT) AT(polygons)[k](POINTS, 10, OFFSETS, COUNT, SHAPES, SHAPE_COUNT, out, 10, out_contours, 3, out_shapes, 3)
#define IS_UNTOUCHED (is_filled(out, sizeof out) && is_filled(out_contours, sizeof out_contours) && is_filled(out_shapes, sizeof out_shapes))
#define WITH_EACH_FAILED(CALLED, GROWTHS) \
        fill(out, sizeof out); \
        fill(out_contours, sizeof out_contours); \
        fill(out_shapes, sizeof out_shapes); \
        WITH_EACH_GROWTH_FAILED(CALLED, IS_UNTOUCHED, growths == (GROWTHS), W, cleaner_names[k])
        WITH_EACH_FAILED(CLEAN(spiked, offsets, 2, one, 2), 1);
        WITH_EACH_FAILED(CLEAN(spiked, offsets, 3, both, 2), 1);
        WITH_EACH_FAILED(CLEAN(spiked, offsets, 3, apart, 3), 1);
        WITH_EACH_FAILED(CLEAN(spiked, offsets, 3, nothing, 2), 0);
        const POINT mixed[10] = {{0, 0}, {8, 0}, {4, 0}, {4, 4}, {0, 4}, {0, 2}, {0, 0}, {4, 0}, {4, 4}, {0, 4}};
        WITH_EACH_FAILED(CLEAN(mixed, behind, 3, last, 2), 0);
        WITH_EACH_FAILED(CLEAN(mixed, behind, 3, both, 2), 1);
#undef WITH_EACH_FAILED
#undef IS_UNTOUCHED
#undef CLEAN
    }
    WITH_EACH_GROWTH_FAILED(CALL(is_simple)(given, 10), 1, growths == 0, W, "is_simple");
    WITH_EACH_GROWTH_FAILED(CALL(has_no_spikes)(given, 10), 1, growths == 0, W, "has_no_spikes");
    WITH_EACH_GROWTH_FAILED(CALL(is_convex)(given, 10), 1, growths == 0, W, "is_convex");
    WITH_EACH_GROWTH_FAILED(CALL(contains)(given, 10, 1, 1), 1, growths == 0, W, "contains");
    WITH_EACH_GROWTH_FAILED(CALL(contains_by)(given, 10, 1, 1, I_SHAPE_NONZERO), 1, growths == 0, W, "contains_by");
    ptrdiff_t number;
    WITH_EACH_GROWTH_FAILED(CALL(winding)(square, 4, 1, 1), 1, growths == 0, W, "winding");
    WITH_EACH_GROWTH_FAILED(CALL(windings)(given, 10, offsets, 3, square, 1, &number, 1), 1, growths == 0, W, "windings");
}

#ifdef FAILS_GROWTHS
/* How many bytes the calls ask for: one place for each point of the longest contour of which a point is removed. A canonical form of
   polygons also copies their points and offsets, and makes two slices for each contour and one for each polygon. A slice is a
   pointer and a length. To sort more than 20 polygons it takes two rows of what each is sorted by, and one slice more for each. */
static void AT(test_sizes)(void) {
    struct sorted_by {
        struct {
            unsigned char is_there;
            POINT first;
        } key;
        size_t slice[2], place;
    };
    enum { SQUARES = 64, POLYGONS = 32, CORNERS = 5, COUNT = SQUARES * CORNERS };
    const size_t places = CORNERS * sizeof(size_t);
    const size_t lists = COUNT * sizeof(POINT) + (5 * SQUARES + 5 * POLYGONS + 2) * sizeof(size_t) + 2 * POLYGONS * sizeof(struct sorted_by);
    const POINT square[CORNERS] = {{0, 0}, {4, 0}, {4, 0}, {4, 4}, {0, 4}};
    POINT given[COUNT], out[COUNT];
    size_t offsets[SQUARES + 1] = {0}, shapes[POLYGONS + 1] = {0}, out_offsets[SQUARES + 1], out_shapes[POLYGONS + 1];
    for (int k = 0; k < COUNT; k++) {
        given[k] = square[k % CORNERS];
        given[k].x = (COORDINATE)(given[k].x + k / (2 * CORNERS) % 2 * 8);
        offsets[k / CORNERS + 1] = (size_t)(k + 1);
        shapes[k / (2 * CORNERS) + 1] = (size_t)(k / CORNERS + 1);
    }
    for (int k = 0; k < CLEANERS; k++) {
        asked = 0;
        check(AT(cleaners)[k](given, CORNERS, out, CORNERS) == 4 && asked == places, W, cleaner_names[k], "how much it asks for");
        asked = 0;
        check(AT(batches)[k](given, COUNT, offsets, SQUARES + 1, out, COUNT, out_offsets, SQUARES + 1) == 4 * SQUARES && asked == places, W,
              cleaner_names[k], "how much it asks for of many contours");
#define CLEAN() AT(polygons)[k](given, COUNT, offsets, SQUARES + 1, shapes, POLYGONS + 1, out, COUNT, out_offsets, SQUARES + 1, out_shapes, POLYGONS + 1)
        WITH_EACH_GROWTH_FAILED(CLEAN(), 1, growths == (is_form(k) ? 10 : k == 0), W, cleaner_names[k]);
        asked = 0;
        check(CLEAN() == POLYGONS, W, cleaner_names[k], "32 polygons of two squares");
#undef CLEAN
        /* Of simplify, the first, and of despike, which cleans nothing, since no square has a spike. */
        check(asked == (is_form(k) ? lists + places : k == 0 ? places : 0), W, cleaner_names[k], "how much it asks for of polygons");
    }
    /* The square wound 300,000 times, in one contour: each time a point goes. */
    enum { TURNS = 300000, MANY = TURNS * CORNERS };
    POINT *const wound = (POINT *)malloc(MANY * sizeof(POINT)), *const left = (POINT *)malloc(MANY * sizeof(POINT));
    if (!wound || !left) abort();
    for (int k = 0; k < MANY; k++) wound[k] = square[k % CORNERS];
    for (int k = 0; k < CLEANERS; k++) {
        asked = 0;
        check(AT(cleaners)[k](wound, MANY, left, MANY) == 4 * TURNS && asked == MANY * sizeof(size_t), W, cleaner_names[k], "1,500,000 points");
    }
    free(wound);
    free(left);
}
#endif

#ifdef __unix__
/* An array of 2^20 points has a polygon of five points in the middle, one of them repeated, and no other point of it is asked for. First
   memory that the call takes is counted, and then what lies before and behind the page with these points can't be read. */
static void AT(test_named)(void) {
    enum { COUNT = 1 << 20, CORNERS = 5 };
    static POINT out[COUNT];
    const POINT square[CORNERS] = {{0, 0}, {4, 0}, {4, 0}, {4, 4}, {0, 4}};
    const size_t size = COUNT * sizeof(POINT), page = (size_t)sysconf(_SC_PAGESIZE), from = size / 2 / page * page, last = (from + page) / sizeof(POINT);
    const size_t contours[2] = {last - CORNERS, last}, shapes[2] = {0, 1};
    char *const memory = (char *)mmap(NULL, size, PROT_READ | PROT_WRITE, MAP_PRIVATE | MAP_ANONYMOUS, -1, 0);
    if (memory == (char *)MAP_FAILED) abort();
    POINT *const given = (POINT *)(void *)memory;
    memcpy(given + contours[0], square, sizeof square);
    size_t out_contours[2], out_shapes[2];
#ifdef FAILS_GROWTHS
    const size_t places = CORNERS * sizeof(size_t), lists = CORNERS * sizeof(POINT) + 10 * sizeof(size_t);
    for (int k = 0; k < CLEANERS; k++) {
        growths = asked = 0;
        check(AT(polygons)[k](given, COUNT, contours, 2, shapes, 2, out, COUNT, out_contours, 2, out_shapes, 2) == 1, W, cleaner_names[k], "five of 2^20 points");
        check(growths == (is_form(k) ? 7 : k == 0), W, cleaner_names[k], "how often it takes memory for five of 2^20 points");
        check(asked == (is_form(k) ? lists + places : k == 0 ? places : 0), W, cleaner_names[k], "how much it asks for of five of 2^20 points");
    }
#endif
    if (mprotect(memory, from, PROT_NONE) != 0 || mprotect(memory + from + page, size - from - page, PROT_NONE) != 0) abort();
    for (int k = 0; k < CLEANERS; k++)
        check(AT(polygons)[k](given, COUNT, contours, 2, shapes, 2, out, COUNT, out_contours, 2, out_shapes, 2) == 1 && out_contours[1] == 4 + (k == 1), W,
              cleaner_names[k], "nothing outside the offsets is read");
    munmap(memory, size);
}
#else
static void AT(test_named)(void) {}
#endif

static void AT(test_width)(void) {
#ifdef FAILS_GROWTHS
    AT(test_sizes)();
#endif
    AT(test_one)();
    AT(test_codes)();
    AT(clean_all_rows)();
    AT(test_many_codes)();
    AT(test_shapes)();
    AT(test_shapes_codes)();
    AT(test_forms)();
    AT(test_features)();
    AT(test_features_codes)();
    AT(test_forms_codes)();
    AT(test_named)();
    AT(test_tests)();
    AT(test_one_zero_turn)();
    AT(test_all_rows)();
    AT(test_codes_of_tests)();
    AT(test_codes_of_areas)();
    AT(test_windings)();
    AT(test_many_points)();
    AT(test_locations)();
    AT(test_holders)();
    AT(test_contacts)();
    AT(test_all_contacts)();
    AT(test_contacts_of_rings)();
    AT(test_kinds)();
    AT(test_validity)();
    AT(test_touching_validity)();
    AT(test_contacts_without_memory)();
    AT(test_area)();
    AT(test_failed_growths)();
}

#undef LEAST_UNSAFE
#undef COORDINATE
#undef POINT
#undef CALL
#undef AT
#undef JOIN
#undef JOINED
#undef W
#undef AREA
#undef AREA_IS
