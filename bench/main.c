/*
 * main SAMPLES WORD LARGEST LIBRARY..
 *
 * Times the rounds in each library (one for each placement of the code) and prints nanoseconds a point, least and greatest of the
 * placements; each is the least of so many samples. WORD, where it isn't empty, picks the calls and families in whose names it is.
 * LARGEST is the greatest number of points.
 */
#define _GNU_SOURCE
#include <dlfcn.h>
#include <malloc.h>
#include <math.h>
#include <sched.h>
#include <stdint.h>
#include <stdio.h>
#include <stdlib.h>
#include <string.h>
#include <time.h>

enum { MOST_LIBRARIES = 8, SAMPLE_NS = 1500000, POINTS_OF_SHAPE = 10, SHAPES = 1000 };

typedef struct {
    int64_t x, y;
} point;

typedef uint64_t (*rounds_of_contour)(const void *points, size_t n, size_t rounds);
typedef uint64_t (*rounds_of_list)(const void *points, size_t n, size_t each, size_t contours, size_t rounds);

/* Those of the placements. */
static void *libraries[MOST_LIBRARIES];
static int library_count, samples;
static size_t largest;
static const char *word;

static void *must(void *at, const char *what)
{
    if (at == NULL) {
        fprintf(stderr, "bench: %s\n", what);
        exit(1);
    }
    return at;
}

static double now(void)
{
    struct timespec t;
    clock_gettime(CLOCK_MONOTONIC, &t);
    return (double)t.tv_sec * 1e9 + (double)t.tv_nsec;
}

/* Numbers that are the same at each run. */
static uint32_t number(void)
{
    static uint32_t state = 1;
    state = state * 1664525u + 1013904223u;
    return state >> 8;
}

/* A ring round the origin, as a star that never runs straight on. */
static void clean(point *points, size_t n, double radius)
{
    for (size_t k = 0; k < n; k++) {
        double angle = 2 * 3.14159265358979323846 * (double)k / (double)n;
        double r = radius * (k % 2 == 0 ? 0.9 : 0.8) + (double)(number() % 1000) / 1000 * radius / 20;
        points[k].x = (int64_t)(r * cos(angle)) / 2 * 2;
        points[k].y = (int64_t)(r * sin(angle)) / 2 * 2;
    }
}

static void circle(point *points, size_t n, double radius)
{
    for (size_t k = 0; k < n; k++) {
        double angle = 2 * 3.14159265358979323846 * (double)k / (double)n;
        points[k].x = (int64_t)round(radius * cos(angle));
        points[k].y = (int64_t)round(radius * sin(angle));
    }
}

/* Every other point halfway between its neighbours. */
static void collinear(point *points, size_t n, double radius)
{
    clean(points, (n + 1) / 2, radius);
    for (size_t k = (n + 1) / 2; k-- > 0;)
        points[2 * k] = points[k];
    for (size_t k = 1; k < n; k += 2) {
        const point *next = &points[(k + 1) % n];
        points[k].x = (points[k - 1].x + next->x) / 2;
        points[k].y = (points[k - 1].y + next->y) / 2;
    }
}

static void half_duplicates(point *points, size_t n, double radius)
{
    clean(points, (n + 1) / 2, radius);
    for (size_t k = n; k-- > 0;)
        points[k] = points[k / 2];
}

/* Half of the ring, and from its end a way of a quarter out and the same way back. */
static void nested_spikes(point *points, size_t n, double radius)
{
    size_t ring = n / 2, way = (n - ring) / 2;
    clean(points, ring, radius);
    for (size_t k = ring; k < n; k++) {
        size_t step = k - ring < way ? k - ring + 1 : n - k;
        points[k].x = points[ring - 1].x + (int64_t)step % 7;
        points[k].y = points[ring - 1].y - (int64_t)step;
    }
}

/* Points in disorder. */
static void anywhere(point *points, size_t n, double radius)
{
    for (size_t k = 0; k < n; k++) {
        points[k].x = (int64_t)(radius * ((double)number() / (1 << 23) - 1));
        points[k].y = (int64_t)(radius * ((double)number() / (1 << 23) - 1));
    }
}

static const struct {
    const char *name;
    void (*make)(point *, size_t, double);
} families[] = {
    {"clean", clean}, {"collinear", collinear}, {"half duplicates", half_duplicates}, {"nested spikes", nested_spikes}, {"circle", circle},
    {"in disorder", anywhere},
};

enum { CLEAN = 1, DIRTY = 2, CIRCLE = 4, DUPLICATES = 8, DISORDER = 16 };

static const struct {
    const char *symbol, *name;
    int families;
} calls[] = {
    {"reading", "floor: each coordinate read", CLEAN},
    {"copy", "floor: a copy of the points", CLEAN},
    {"simplified", "SimpleContour::simplified", CLEAN | DIRTY},
    {"simplify_contour", "ContourSimplifier, reused", CLEAN | DIRTY},
    {"try_clean_into", "try_clean_into, reused", CLEAN | DIRTY},
    {"despiked_contour", "despiked_contour", CLEAN | DIRTY},
    {"canonical", "canonical", CLEAN | DIRTY},
    {"is_simple", "is_simple", CLEAN},
    {"has_no_spikes", "has_no_spikes", CLEAN | DUPLICATES},
    {"is_convex", "is_convex", CIRCLE},
    {"contains_point", "contains_point", CLEAN | DUPLICATES | DISORDER},
    {"winding_number", "winding_number", CLEAN | DISORDER},
    {"area_two", "area_two", CLEAN},
    {"is_in_safe_range", "is_in_safe_range", CLEAN},
};

static const struct {
    const char *name;
    size_t contours, dirty;
} layouts[] = {
    {"all clean", 10, 0}, {"one dirty in each shape", 10, 1}, {"one shape of ten dirty", 1, 1}, {"all dirty", 10, 10},
};

static const struct {
    const char *symbol, *name;
} list_calls[] = {
    {"list_simplified", "SimpleShapes::simplified"},
    {"list_in_place", "Simplify of a list, in place"},
    {"list_buffer", "simplify_contours of a buffer"},
};

static const int widths[] = {16, 32, 64};
enum { WIDTHS = 3 };

static double radius_of(int width)
{
    return width == 16 ? 16000.0 : width == 32 ? 1e9 : 4e18;
}

/* The points at a width, as the library takes them. */
static void *given(const point *points, size_t n, int width)
{
    char *list = must(malloc(n * 2 * (size_t)(width / 8)), "no memory");
    for (size_t k = 0; k < n; k++) {
        if (width == 16)
            ((int16_t *)list)[2 * k] = (int16_t)points[k].x, ((int16_t *)list)[2 * k + 1] = (int16_t)points[k].y;
        else if (width == 32)
            ((int32_t *)list)[2 * k] = (int32_t)points[k].x, ((int32_t *)list)[2 * k + 1] = (int32_t)points[k].y;
        else
            ((int64_t *)list)[2 * k] = points[k].x, ((int64_t *)list)[2 * k + 1] = points[k].y;
    }
    return list;
}

typedef struct {
    const char *symbol;
    const void *points;
    size_t n, contours;
    int width;
} task;

/* The rounds of a library for a task, and the least nanoseconds that they took, and that what comes before them took. */
typedef struct {
    void *library, *rounds;
    double least, least_before;
} entrant;

static entrant entrant_of(int library, const char *symbol, int width)
{
    char name[80];
    snprintf(name, sizeof name, "bench_%s_i%d", symbol, width);
    return (entrant){libraries[library], must(dlsym(libraries[library], name), name), INFINITY, INFINITY};
}

/* The nanoseconds of so many rounds; of a list, those in which the clock was on. */
static double timed(const task *t, const entrant *e, size_t rounds, uint64_t *sum)
{
    if (t->contours == 0) {
        double start = now();
        *sum = ((rounds_of_contour)e->rounds)(t->points, t->n, rounds);
        return now() - start;
    }
    double (*taken)(void) = (double (*)(void))must(dlsym(e->library, "bench_clock_taken"), "no clock");
    taken();
    *sum = ((rounds_of_list)e->rounds)(t->points, t->n, POINTS_OF_SHAPE, t->contours, rounds);
    return taken();
}

/* Takes a sample, and one of what comes before the rounds, such as a copy of the points. */
static void sample(const task *t, entrant *e, size_t rounds)
{
    uint64_t sum;
    e->least = fmin(e->least, timed(t, e, rounds, &sum));
    e->least_before = t->contours == 0 ? fmin(e->least_before, timed(t, e, 0, &sum)) : 0;
}

static size_t rounds_of_sample(const task *t, const entrant *e)
{
    uint64_t sum;
    size_t rounds = (size_t)(SAMPLE_NS / (timed(t, e, 4, &sum) / 4 + 1)) / 2 * 2;
    return rounds < 2 ? 2 : rounds > 200000 ? 200000 : rounds;
}

static double ns_a_point(const task *t, const entrant *e, size_t rounds)
{
    return (e->least - e->least_before) / (double)rounds / (double)t->n;
}

/* Writes least..greatest nanoseconds a point of the placements. */
static void write_times(char *text, size_t room, const task *t, const entrant *entrants, size_t rounds, int differs)
{
    double low = INFINITY, high = 0;
    for (int k = 0; k < library_count; k++) {
        low = fmin(low, ns_a_point(t, &entrants[k], rounds));
        high = fmax(high, ns_a_point(t, &entrants[k], rounds));
    }
    snprintf(text, room, "%.2f..%.2f%s", low, high, differs ? "!" : "");
}

static void print_cell(const char *text)
{
    printf(" | %-13s", text);
}

/* Whether two rounds of a placement return another sum. */
static int differs_from(uint64_t wanted, const task *t, const entrant *entrants)
{
    int differs = 0;
    for (int k = 0; k < library_count; k++) {
        uint64_t sum;
        timed(t, &entrants[k], 2, &sum);
        differs |= sum != wanted;
    }
    return differs;
}

/* Prints the times, with `!` where the placements return different sums, or `-` where a test ends early. */
static void cell(const task *t, int wants_true)
{
    entrant entrants[MOST_LIBRARIES];
    for (int k = 0; k < library_count; k++)
        entrants[k] = entrant_of(k, t->symbol, t->width);
    uint64_t first;
    timed(t, entrants, 2, &first);
    if (wants_true && first != 2) {
        print_cell("-");
        return;
    }
    int differs = differs_from(first, t, entrants);
    size_t rounds = rounds_of_sample(t, entrants);
    for (int s = 0; s < samples; s++)
        for (int k = 0; k < library_count; k++)
            sample(t, &entrants[k], rounds);
    char text[64];
    write_times(text, sizeof text, t, entrants, rounds, differs);
    print_cell(text);
}

/* Whether the calls of this name end at the first point that decides against it. */
static int is_test(const char *symbol)
{
    return strncmp(symbol, "is_", 3) == 0 || strncmp(symbol, "has_", 4) == 0;
}

static int is_picked(const char *name, const char *family)
{
    return strstr(name, word) != NULL || strstr(family, word) != NULL;
}

static void contour_row(const char *name, const char *symbol, size_t family, size_t n)
{
    printf("%-29s | %-23s | %8zu", name, families[family].name, n);
    point *points = must(malloc(n * sizeof *points), "no memory");
    for (int w = 0; w < WIDTHS; w++) {
        if (widths[w] == 16 && n > 1000 && families[family].make != anywhere) {
            print_cell("-");
            continue;
        }
        families[family].make(points, n, radius_of(widths[w]));
        void *list = given(points, n, widths[w]);
        task t = {symbol, list, n, 0, widths[w]};
        cell(&t, is_test(symbol));
        free(list);
    }
    free(points);
    printf("\n");
    fflush(stdout);
}

static void list_row(size_t call, size_t layout)
{
    size_t contours = SHAPES * layouts[layout].contours, n = contours * POINTS_OF_SHAPE;
    printf("%-29s | %-23s | %8zu", list_calls[call].name, layouts[layout].name, n);
    point *points = must(malloc(n * sizeof *points), "no memory");
    for (int w = 0; w < WIDTHS; w++) {
        for (size_t k = 0; k < contours; k++) {
            int is_dirty = k % 10 >= 10 - layouts[layout].dirty;
            (is_dirty ? half_duplicates : clean)(points + k * POINTS_OF_SHAPE, POINTS_OF_SHAPE, radius_of(widths[w]));
        }
        void *list = given(points, n, widths[w]);
        task t = {list_calls[call].symbol, list, n, layouts[layout].contours, widths[w]};
        cell(&t, 0);
        free(list);
    }
    free(points);
    printf("\n");
    fflush(stdout);
}

static int belongs(int wanted, size_t family)
{
    static const int kinds[] = {CLEAN, DIRTY, DIRTY | DUPLICATES, DIRTY, CIRCLE, DISORDER};
    return (wanted & kinds[family]) != 0;
}

/* The rows of a call on contours. */
static void contour_rows(const char *name, const char *symbol, int wanted)
{
    static const size_t sizes[] = {10, 1000, 100000, 10000000};
    for (size_t f = 0; f < sizeof families / sizeof *families; f++)
        for (size_t s = 0; s < sizeof sizes / sizeof *sizes; s++)
            if (belongs(wanted, f) && sizes[s] <= largest && is_picked(name, families[f].name))
                contour_row(name, symbol, f, sizes[s]);
}

static void list_rows(void)
{
    for (size_t c = 0; c < sizeof list_calls / sizeof *list_calls; c++)
        for (size_t l = 0; l < sizeof layouts / sizeof *layouts; l++)
            if (is_picked(list_calls[c].name, layouts[l].name))
                list_row(c, l);
}

static void print_head(void)
{
    printf("Nanoseconds a point, least..greatest of %d placements of the code; each the least of %d samples.\n", library_count, samples);
    printf("%-29s | %-23s | %8s", "call", "family", "n");
    print_cell("i16");
    print_cell("i32");
    print_cell("i64");
    printf("\n");
}

/* Opens the libraries of the command line, from the fourth word on. */
static void open_libraries(int count, char **words)
{
    for (int k = 4; k < count; k++) {
        if (library_count == MOST_LIBRARIES)
            must(NULL, "too many libraries");
        libraries[library_count++] = must(dlopen(words[k], RTLD_NOW), "a library can't be opened");
    }
}

/* Stays on the processor on which it runs. */
static void stay(void)
{
    cpu_set_t one;
    CPU_ZERO(&one);
    CPU_SET((size_t)sched_getcpu(), &one);
    sched_setaffinity(0, sizeof one, &one);
}

int main(int count, char **words)
{
    if (count < 5)
        return 2;
    samples = atoi(words[1]);
    word = words[2];
    largest = strtoull(words[3], NULL, 10);
    open_libraries(count, words);
    stay();
    /* Freed memory stays with the process: otherwise who runs after whom decides who meets the page faults. */
    mallopt(M_TRIM_THRESHOLD, 1 << 30);
    mallopt(M_MMAP_THRESHOLD, 32 << 20);
    print_head();
    for (size_t c = 0; c < sizeof calls / sizeof *calls; c++)
        contour_rows(calls[c].name, calls[c].symbol, calls[c].families);
    list_rows();
    return 0;
}
