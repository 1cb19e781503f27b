/* Times the calls that write a shortest list on the tables of files, and on those with wanted and barred exchanged. Two lines for each call and file: nanoseconds
 * for a table, on the average and at most, then what it is. */
#include "listed.h"
#include "rows.h"

typedef int32_t call(size_t, const uint8_t *, size_t, uint8_t *, size_t, uint8_t *, size_t);

static void measure(const char *name, call *write, const char *file, size_t count, int rounds) {
    uint8_t values[MOST_ROWS], cares[MOST_ROWS];
    double all = 0, most = 0;
    for (size_t i = 0; i < count; i++) {
        const struct table *t = &tables[i];
        double start = now();
        for (int round = 0; round < rounds; round++) {
            if (write(t->width, t->cells, t->len, values, MOST_ROWS, cares, MOST_ROWS) < 0) {
                fprintf(stderr, "%s refuses table %zu of %s\n", name, i, file);
                exit(1);
            }
        }
        double took = (now() - start) / rounds;
        all += took;
        most = took > most ? took : most;
    }
    printf("%.0f %s, %s\n%.0f %s at most, %s\n", all / (double)count, name, file, most, name, file);
}

static void exchange(size_t count) {
    for (size_t i = 0; i < count; i++) {
        for (size_t c = 0; c < tables[i].len; c++) {
            tables[i].cells[c] = "\1\0\2"[tables[i].cells[c]];
        }
    }
}

int main(int argc, char **argv) {
    for (int i = 1; i + 1 < argc; i += 2) {
        size_t count = read_tables(argv[i]);
        int rounds = atoi(argv[i + 1]);
        for (int exchanged = 0; exchanged < 2; exchanged++) {
            measure(exchanged ? "rows_plan, exchanged" : "rows_plan", rows_plan, argv[i], count, rounds);
            measure(exchanged ? "rows_keep_out, exchanged" : "rows_keep_out", rows_keep_out, argv[i], count, rounds);
            measure(exchanged ? "rows_better, exchanged" : "rows_better", rows_better, argv[i], count, rounds);
            exchange(count);
        }
    }
    return 0;
}
