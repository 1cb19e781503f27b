/* Times rows_check at width 6 on lists of 255 rows and of fewer. A line for each: nanoseconds for a call, then what it is. */
#include <stdint.h>
#include <stdio.h>
#include <stdlib.h>
#include <string.h>
#include <time.h>

#include "rows.h"

enum { WIDTH = 6, CELLS = 64, MOST_ROWS = 255, CALLS = 20000 };

static uint8_t table[CELLS], values[MOST_ROWS], cares[MOST_ROWS];

static double now(void) {
    struct timespec time;
    clock_gettime(CLOCK_PROCESS_CPUTIME_ID, &time);
    return time.tv_sec * 1e9 + time.tv_nsec;
}

static void measure(const char *what, size_t rows, int32_t want) {
    double start = now();
    for (int call = 0; call < CALLS; call++) {
        if (rows_check(WIDTH, table, CELLS, values, rows, cares, rows) != want) {
            fprintf(stderr, "%s: not %d\n", what, want);
            exit(1);
        }
    }
    printf("%.0f %s\n", (now() - start) / CALLS, what);
}

/* Every row with this value and care. */
static void all_rows(uint8_t value, uint8_t care) {
    memset(values, value, sizeof values);
    memset(cares, care, sizeof cares);
}

int main(void) {
    all_rows(63, 63);
    memset(table, 0, sizeof table);
    table[63] = 1;
    measure("255 rows that match the last code alone, right", MOST_ROWS, 0);
    table[0] = 1;
    measure("255 rows that match the last code alone, the first is missed", MOST_ROWS, 1);
    all_rows(0, 0);
    memset(table, 1, sizeof table);
    measure("255 rows without tested bits, right", MOST_ROWS, 0);
    table[0] = 0;
    measure("255 rows without tested bits, the first code is stray", MOST_ROWS, 257);
    srand(1956);
    for (int i = 0; i < MOST_ROWS; i++) {
        cares[i] = (uint8_t)(rand() >> 8) % CELLS;
        values[i] = (uint8_t)(rand() >> 8) & cares[i];
    }
    memset(table, 2, sizeof table);
    measure("255 random rows, right since every code is free", MOST_ROWS, 0);
    measure("32 random rows, right since every code is free", 32, 0);
    measure("one row, right since every code is free", 1, 0);
    measure("no row, right since every code is free", 0, 0);
    return 0;
}
