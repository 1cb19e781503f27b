/* Times the calls on a table on the tables of files, each file gone through as many times as the number after it says. A line for each call and file: nanoseconds
 * for a table, on the average, then what it is. */
#include "listed.h"
#include "rows.h"

static uint16_t cubes[MOST_CUBES];
static struct rows_chart_row chart[MOST_CUBES];
static uint8_t values[MOST_ROWS], cares[MOST_ROWS];

static int32_t primes(const struct table *t) { return rows_primes(t->width, t->cells, t->len, cubes, MOST_CUBES); }

static int32_t charts(const struct table *t) { return rows_chart(t->width, t->cells, t->len, chart, MOST_CUBES); }

static int32_t essentials(const struct table *t) { return rows_essentials(t->width, t->cells, t->len, cubes, MOST_CUBES); }

static int32_t by_neighbours(const struct table *t) { return rows_essentials_by_neighbours(t->width, t->cells, t->len, cubes, MOST_CUBES); }

static int32_t plan(const struct table *t) { return rows_plan(t->width, t->cells, t->len, values, MOST_ROWS, cares, MOST_ROWS); }

static void measure(const char *name, int32_t (*call)(const struct table *), const char *file, size_t count, int rounds) {
    double start = now();
    for (int round = 0; round < rounds; round++) {
        for (size_t i = 0; i < count; i++) {
            if (call(&tables[i]) < 0) {
                fprintf(stderr, "%s refuses table %zu of %s\n", name, i, file);
                exit(1);
            }
        }
    }
    printf("%.0f %s, %s\n", (now() - start) / rounds / (double)count, name, file);
}

int main(int argc, char **argv) {
    for (int i = 1; i + 1 < argc; i += 2) {
        size_t count = read_tables(argv[i]);
        int rounds = atoi(argv[i + 1]);
        measure("rows_primes", primes, argv[i], count, rounds);
        measure("rows_chart", charts, argv[i], count, rounds);
        measure("rows_essentials", essentials, argv[i], count, rounds);
        measure("rows_essentials_by_neighbours", by_neighbours, argv[i], count, rounds);
        measure("rows_plan", plan, argv[i], count, rounds);
    }
    return 0;
}
