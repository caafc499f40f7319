/* Worked contours, and what is left of each. */
enum { MOST = 8, CLEANERS = 4 };

static const char *const cleaner_names[CLEANERS] = {"simplify", "despike", "canonical", "canonical_unoriented"};
static const char *const form_names[2] = {"canonical_polygons", "canonical_unoriented_polygons"};
static const char *const feature_names[2] = {"canonical_features", "canonical_unoriented_features"};

/* Whether the cleaner gives a canonical form. */
static inline int is_form(int cleaner) {
    return cleaner >= 2;
}

struct left {
    size_t count;
    int points[MOST][2];
};

struct row {
    const char *name;
    size_t count;
    int points[MOST][2];
    struct left left[CLEANERS];
    int is_simple, has_no_spikes, is_convex, is_simple_polygon, area_two;
};

static const struct row rows[] = {
    {"a square",
     4, {{4, 4}, {0, 4}, {0, 0}, {4, 0}},
     {{4, {{4, 4}, {0, 4}, {0, 0}, {4, 0}}}, {4, {{4, 4}, {0, 4}, {0, 0}, {4, 0}}}, {4, {{0, 0}, {4, 0}, {4, 4}, {0, 4}}}, {4, {{0, 0}, {0, 4}, {4, 4}, {4, 0}}}},
     1, 1, 1, 1, 32},
    {"a straight vertex",
     5, {{0, 0}, {2, 0}, {4, 0}, {4, 4}, {0, 4}},
     {{4, {{0, 0}, {4, 0}, {4, 4}, {0, 4}}}, {5, {{0, 0}, {2, 0}, {4, 0}, {4, 4}, {0, 4}}}, {4, {{0, 0}, {4, 0}, {4, 4}, {0, 4}}}, {4, {{0, 0}, {0, 4}, {4, 4}, {4, 0}}}},
     0, 1, 1, 1, 32},
    {"three points on a line",
     3, {{0, 0}, {0, 8}, {0, 1}},
     {{0, {{0, 0}}}, {0, {{0, 0}}}, {0, {{0, 0}}}, {0, {{0, 0}}}},
     0, 0, 0, 0, 0},
    {"two points",
     2, {{0, 0}, {4, 4}},
     {{0, {{0, 0}}}, {0, {{0, 0}}}, {0, {{0, 0}}}, {0, {{0, 0}}}},
     0, 0, 1, 0, 0},
    {"a spike",
     6, {{0, 0}, {4, 0}, {4, 4}, {4, 8}, {4, 4}, {0, 4}},
     {{4, {{0, 0}, {4, 0}, {4, 4}, {0, 4}}}, {4, {{0, 0}, {4, 0}, {4, 4}, {0, 4}}}, {4, {{0, 0}, {4, 0}, {4, 4}, {0, 4}}}, {4, {{0, 0}, {0, 4}, {4, 4}, {4, 0}}}},
     0, 0, 0, 0, 32},
    {"a repeated corner",
     5, {{-4, 0}, {0, -4}, {4, 0}, {4, 0}, {0, 4}},
     {{4, {{-4, 0}, {0, -4}, {4, 0}, {0, 4}}}, {4, {{-4, 0}, {0, -4}, {4, 0}, {0, 4}}}, {4, {{-4, 0}, {0, -4}, {4, 0}, {0, 4}}}, {4, {{-4, 0}, {0, -4}, {4, 0}, {0, 4}}}},
     0, 1, 1, 0, 64},
    {"a bend to both sides, wound to the right",
     6, {{4, 4}, {4, 0}, {2, 0}, {2, 2}, {0, 2}, {0, 4}},
     {{6, {{4, 4}, {4, 0}, {2, 0}, {2, 2}, {0, 2}, {0, 4}}}, {6, {{4, 4}, {4, 0}, {2, 0}, {2, 2}, {0, 2}, {0, 4}}},
      {6, {{0, 2}, {0, 4}, {4, 4}, {4, 0}, {2, 0}, {2, 2}}}, {6, {{0, 2}, {0, 4}, {4, 4}, {4, 0}, {2, 0}, {2, 2}}}},
     1, 1, 0, 1, -24},
    {"no point",
     0, {{0, 0}},
     {{0, {{0, 0}}}, {0, {{0, 0}}}, {0, {{0, 0}}}, {0, {{0, 0}}}},
     0, 0, 1, 0, 0},
};

enum { ROWS = sizeof rows / sizeof *rows };

/* The tests of a contour, of which all but the last ask for safe points. */
enum { TESTS = 5 };

static const char *const test_names[TESTS] = {"is_simple", "has_no_spikes", "is_convex", "is_simple_polygon", "is_safe"};

/* What the test returns of the row. */
static inline int told(const struct row *row, int test) {
    const int answers[TESTS] = {row->is_simple, row->has_no_spikes, row->is_convex, row->is_simple_polygon, 1};
    return answers[test];
}

/* What is left of the polygons of test_shapes. */
struct polygons {
    int points[16][2];
    size_t contours[5], shapes[4];
};

static const struct polygons polygons_left[CLEANERS] = {
    {{{10, 0}, {10, 10}, {0, 10}, {0, 0}, {8, 6}, {6, 6}, {6, 8}, {2, 4}, {4, 2}, {2, 2}, {0, -4}, {4, 0}, {-4, 0}},
     {0, 4, 7, 10, 13}, {0, 3, 3, 4}},
    {{{10, 0}, {10, 10}, {0, 10}, {0, 0}, {5, 0}, {8, 6}, {6, 6}, {6, 8}, {7, 7}, {2, 4}, {4, 2}, {2, 2}, {0, -4}, {4, 0}, {-4, 0}},
     {0, 5, 9, 12, 15}, {0, 3, 3, 4}},
    {{{-4, 0}, {0, -4}, {4, 0}, {0, 0}, {10, 0}, {10, 10}, {0, 10}, {2, 2}, {2, 4}, {4, 2}, {6, 6}, {6, 8}, {8, 6}},
     {0, 3, 7, 10, 13}, {0, 0, 1, 4}},
    {{{-4, 0}, {0, -4}, {4, 0}, {0, 0}, {0, 10}, {10, 10}, {10, 0}, {2, 2}, {2, 4}, {4, 2}, {6, 6}, {6, 8}, {8, 6}},
     {0, 3, 7, 10, 13}, {0, 0, 1, 4}},
};
