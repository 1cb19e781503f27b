/* Runs the calls for C on the tables of the files named, and writes how many bytes of stack rows_plan needed, how many rows_keep_out, rows_better,
 * rows_chart, rows_essentials and rows_essentials_by_neighbours, how many the others, and how many a thread that makes no call. */
#include "listed.h"
#include "painted.h"
#include "rows.h"

enum { LONGEST_LIST = 255 };

static size_t count;
static uint8_t values[LONGEST_LIST], cares[LONGEST_LIST];
static uint16_t cubes[MOST_CUBES];

static void accept(int32_t answer) {
    if (answer < 0) {
        fprintf(stderr, "refused: %d\n", answer);
        exit(1);
    }
}

static void *plan_all(void *unused) {
    for (const struct table *t = tables; t < tables + count; t++) {
        accept(rows_plan(t->width, t->cells, t->len, values, MOST_ROWS, cares, MOST_ROWS));
    }
    return unused;
}

/* On the table with wanted and barred exchanged, so that the search is that of rows_plan. */
static void *keep_out_all(void *unused) {
    static uint8_t exchanged[MOST_CODES];
    for (const struct table *t = tables; t < tables + count; t++) {
        for (size_t c = 0; c < t->len; c++) {
            exchanged[c] = "\1\0\2"[t->cells[c]];
        }
        accept(rows_keep_out(t->width, exchanged, t->len, values, MOST_ROWS, cares, MOST_ROWS));
    }
    return unused;
}

static void *better_all(void *unused) {
    for (const struct table *t = tables; t < tables + count; t++) {
        accept(rows_better(t->width, t->cells, t->len, values, MOST_ROWS, cares, MOST_ROWS));
    }
    return unused;
}

static void *chart_all(void *unused) {
    static struct rows_chart_row rows[MOST_CUBES];
    for (const struct table *t = tables; t < tables + count; t++) {
        accept(rows_chart(t->width, t->cells, t->len, rows, MOST_CUBES));
    }
    return unused;
}

static void *essentials_all(void *unused) {
    for (const struct table *t = tables; t < tables + count; t++) {
        accept(rows_essentials(t->width, t->cells, t->len, cubes, MOST_CUBES));
    }
    return unused;
}

static void *by_neighbours_all(void *unused) {
    for (const struct table *t = tables; t < tables + count; t++) {
        accept(rows_essentials_by_neighbours(t->width, t->cells, t->len, cubes, MOST_CUBES));
    }
    return unused;
}

static void *all_others(void *unused) {
    static uint8_t codes[MOST_CODES], file[2 + 2 * LONGEST_LIST];
    memset(values, 0, sizeof values);
    memset(cares, 0, sizeof cares);
    for (const struct table *t = tables; t < tables + count; t++) {
        accept(rows_spell(t->width, 0, values, cares));
        accept(rows_cells(t->width, 0, codes, MOST_CODES));
        accept(rows_primes(t->width, t->cells, t->len, cubes, MOST_CUBES));
        accept(rows_check(t->width, t->cells, t->len, values, LONGEST_LIST, cares, LONGEST_LIST));
        accept(rows_write(t->width, values, LONGEST_LIST, cares, LONGEST_LIST, file, sizeof file));
        accept(rows_read(file, sizeof file, values, LONGEST_LIST, cares, LONGEST_LIST));
    }
    return unused;
}

static void *nothing(void *unused) { return unused; }

int main(int argc, char **argv) {
    static void *(*const works[])(void *) = {plan_all, keep_out_all, better_all, chart_all, essentials_all, by_neighbours_all, all_others, nothing};
    enum { WORKS = sizeof works / sizeof works[0] };
    size_t most[WORKS] = {0};
    for (int file = 1; file < argc; file++) {
        count = read_tables(argv[file]);
        for (size_t w = 0; w < WORKS; w++) {
            size_t used = stack_of(works[w]);
            most[w] = used > most[w] ? used : most[w];
        }
    }
    for (size_t w = 0; w < WORKS; w++) {
        printf("%zu%c", most[w], w + 1 < WORKS ? ' ' : '\n');
    }
    return 0;
}
