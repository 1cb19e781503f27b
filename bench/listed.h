/* The tables of a file: lines "width cells rows bits", a cell for each code from 0 up, 0 barred, 1 wanted, - free. And processor time in nanoseconds. */
#include <stdint.h>
#include <stdio.h>
#include <stdlib.h>
#include <string.h>
#include <time.h>

enum { MOST_CODES = 64, MOST_ROWS = 32, MOST_CUBES = 729, MOST_TABLES = 1000 };

struct table {
    size_t width, len;
    uint8_t cells[MOST_CODES];
};

static struct table tables[MOST_TABLES];

static size_t read_tables(const char *file) {
    FILE *in = fopen(file, "r");
    char cells[MOST_CODES + 1];
    size_t count = 0;
    while (in && count < MOST_TABLES && fscanf(in, "%zu %64s %*d %*d", &tables[count].width, cells) == 2) {
        struct table *t = &tables[count++];
        t->len = strlen(cells);
        for (size_t c = 0; c < t->len; c++) {
            t->cells[c] = cells[c] == '-' ? 2 : (uint8_t)(cells[c] - '0');
        }
    }
    if (count == 0 || !feof(in)) {
        fprintf(stderr, "line %zu of %s is no table, or one too many\n", count + 1, file);
        exit(1);
    }
    fclose(in);
    return count;
}

static double now(void) {
    struct timespec time;
    clock_gettime(CLOCK_PROCESS_CPUTIME_ID, &time);
    return time.tv_sec * 1e9 + time.tv_nsec;
}
