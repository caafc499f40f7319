/* Each row of bindings/grid.txt, which all languages are tested with, through the code that the extensions of SQL share: grid FILE. */
#include "polygons.h"

#include <math.h>
#include <stdio.h>
#include <stdlib.h>
#include <string.h>

enum { LINE_SIZE = 512, COLUMNS = 6 };
enum { STEP, X, K, BACK, WIDTH, IS_TAKEN };

static int passed, failed;

static void count(bool holds, const char *step, const char *x, const char *what) {
    if (holds) {
        passed++;
        return;
    }
    failed++;
    printf("step %s, x %s: %s\n", step, x, what);
}

static bool is_same(double one, double other) {
    return one == other && signbit(one) == signbit(other);
}

static void try_row(char *row[COLUMNS]) {
    Grid grid;
    double x = strtod(row[X], NULL), xy[2] = {x, x};
    i_shape_point_i64 point;
    bool is_taken = make_grid(strtod(row[STEP], NULL), &grid) && to_grid(xy, grid, &point);
    count(is_taken == (*row[IS_TAKEN] == 't'), row[STEP], row[X], is_taken ? "it is taken" : "it isn't taken");
    if (!is_taken) return;
    long long k = strtoll(row[K], NULL, 10);
    count(point.x == k && point.y == k, row[STEP], row[X], "it becomes another number of steps");
    count(is_same(brought_back(k, grid), strtod(row[BACK], NULL)), row[STEP], row[X], "it is brought back to another float");
}

int main(int argc, char **argv) {
    FILE *table = argc == 2 ? fopen(argv[1], "r") : NULL;
    if (!table) {
        perror("grid.txt");
        return 2;
    }
    char line[LINE_SIZE], *row[COLUMNS];
    while (fgets(line, sizeof line, table)) {
        if (*line == '#') continue;
        int columns = 0;
        for (char *item = strtok(line, "\t\n"); item && columns < COLUMNS; item = strtok(NULL, "\t\n")) row[columns++] = item;
        if (columns == COLUMNS) try_row(row);
        else count(false, line, "", "no row of six columns");
    }
    fclose(table);
    printf("%d passed, %d failed\n", passed, failed);
    return failed > 0;
}
