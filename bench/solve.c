/* Runs the search on the covering problems of standard input and writes a line for each: number, rows, weight, nodes, depth of calls, microseconds. With an
 * argument it does so on a painted stack, and a last line says how many bytes of it were overwritten.
 *
 * A problem is written in hexadecimal: the number of rows, the set of columns, and for each row its set of columns and its weight. */
#include <ctype.h>
#include <inttypes.h>
#include <stdio.h>
#include <stdlib.h>
#include <time.h>

#include "painted.h"

#define MOST_ROWS 768

uint64_t minimum_cover(const uint64_t *words, size_t rows, const uint32_t *weights, size_t weights_len, uint64_t columns, uint64_t *effort);

static double microseconds(void) {
    struct timespec now;
    clock_gettime(CLOCK_MONOTONIC, &now);
    return now.tv_sec * 1e6 + now.tv_nsec / 1e3;
}

/* Reads the next number from standard input, and returns whether there is one. */
static int number(uint64_t *value) {
    int byte = getchar_unlocked();
    while (byte != EOF && !isxdigit(byte)) {
        byte = getchar_unlocked();
    }
    if (byte == EOF) {
        return 0;
    }
    for (*value = 0; isxdigit(byte); byte = getchar_unlocked()) {
        *value = *value * 16 + (byte <= '9' ? byte - '0' : byte - 'a' + 10);
    }
    return 1;
}

static void *solve_all(void *unused) {
    static uint64_t words[MOST_ROWS];
    static uint32_t weights[MOST_ROWS];
    uint64_t rows, columns, weight;
    for (int problem = 0; number(&rows) && number(&columns); problem++) {
        if (rows > MOST_ROWS) {
            fprintf(stderr, "problem %d has %" PRIu64 " rows\n", problem, rows);
            exit(1);
        }
        for (size_t i = 0; i < rows; i++) {
            if (!number(&words[i]) || !number(&weight)) {
                fprintf(stderr, "problem %d ends early\n", problem);
                exit(1);
            }
            weights[i] = weight;
        }
        uint64_t effort[2] = {0, 0};
        double start = microseconds();
        weight = minimum_cover(words, rows, weights, rows, columns, effort);
        double took = microseconds() - start;
        printf("%d %" PRIu64 " %" PRIu64 " %" PRIu64 " %" PRIu64 " %.1f\n", problem, rows, weight, effort[0], effort[1], took);
    }
    return unused;
}

int main(int count, char **words) {
    (void)words;
    if (count == 1) {
        solve_all(NULL);
        return 0;
    }
    printf("stack %zu\n", stack_of(solve_all));
    return 0;
}
