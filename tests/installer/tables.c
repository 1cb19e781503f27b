#include "client.h"

/* The calls that write a list, each with these places. */
static void try_builders(size_t n, const uint8_t *table, size_t table_len, size_t values_len, size_t cares_len) {
    for (size_t b = 0; b < BUILDERS; b++) {
        try_build(b, n, table, table_len, values_len, cares_len);
    }
}

/* The calls on one table, with the least memory that will do or a little more. */
static void try_table(size_t n, const uint8_t *table) {
    try_primes(n, table, codes(n), cubes(n) + random_below(3));
    try_chart(n, table, codes(n), cubes(n) + random_below(3));
    try_essentials(n, table, codes(n), cubes(n) + random_below(3));
    try_builders(n, table, codes(n), code_pairs(n) + random_below(3), code_pairs(n) + random_below(3));
}

/* Every table of widths 1 to 3. */
void every_small_table(void) {
    uint8_t table[MOST_CODES];
    for (size_t n = 1; n <= 3; n++) {
        for (size_t number = 0; number < power(3, codes(n)); number++) {
            for (size_t c = 0, rest = number; c < codes(n); c++, rest /= 3) {
                table[c] = (uint8_t)(rest % 3);
            }
            try_table(n, table);
        }
    }
}

/* Random tables of widths 4 to 6: ten of each share of wanted and free codes in eighths. */
void random_tables(void) {
    uint8_t table[MOST_CODES];
    for (size_t n = 4; n <= WIDEST; n++) {
        for (size_t wanted = 0; wanted <= 8; wanted++) {
            for (size_t t = 0; t < 10 * (9 - wanted); t++) {
                random_table(n, table, wanted, t / 10);
                try_table(n, table);
            }
        }
    }
}

/* Both calls that list the essential primes on 18,000 random tables of each width from 4 on: 400 of each share of wanted and free codes in eighths. */
void many_essentials(void) {
    uint8_t table[MOST_CODES];
    for (size_t n = 4; n <= WIDEST; n++) {
        for (size_t wanted = 0; wanted <= 8; wanted++) {
            for (size_t t = 0; t < 400 * (9 - wanted); t++) {
                random_table(n, table, wanted, t / 400);
                try_same_essentials(n, table, codes(n), cubes(n) + random_below(3));
            }
        }
    }
}

/* Every number of places for the cubes, and for each of a list's arrays. */
void places_for_tables(void) {
    uint8_t table[MOST_CODES];
    for (size_t n = 1; n <= WIDEST; n++) {
        random_table(n, table, 4, 2);
        for (size_t len = 0; len < cubes(n) + 3; len++) {
            try_primes(n, table, codes(n), len);
            try_chart(n, table, codes(n), len);
            try_essentials(n, table, codes(n), len);
        }
        for (size_t len = 0; len < codes(n) + 3; len++) {
            try_builders(n, table, codes(n), len, code_pairs(n));
            try_builders(n, table, codes(n), code_pairs(n), len);
        }
    }
}

/* The calls on a table that may be refused, with too few places, just enough and more. */
static void try_places(size_t n, const uint8_t *table, size_t table_len) {
    size_t for_cubes[] = {0, 1, cubes(n) - 1, cubes(n), cubes(n) + 1};
    size_t for_rows[] = {0, 1, code_pairs(n) - 1, code_pairs(n), code_pairs(n) + 1, codes(n)};
    for (size_t i = 0; i < LENGTH(for_cubes); i++) {
        try_primes(n, table, table_len, for_cubes[i]);
        try_chart(n, table, table_len, for_cubes[i]);
        try_essentials(n, table, table_len, for_cubes[i]);
    }
    for (size_t i = 0; i < LENGTH(for_rows); i++) {
        for (size_t j = 0; j < LENGTH(for_rows); j++) {
            try_builders(n, table, table_len, for_rows[i], for_rows[j]);
        }
    }
}

/* Every set of the conditions 1, 2, 3 and 4, in several ways each: a width or not; a table of the right length, shorter, longer or empty; no cell above 2, or
 * one that is 3 or more at the start, in the middle or at the end; places as in try_places. */
void refusals_of_tables(void) {
    static const uint8_t above[] = {3, 4, 255};
    uint8_t table[2 * MOST_CODES];
    for (size_t i = 0; i < width_count; i++) {
        size_t n = widths[i];
        size_t lengths[] = {codes(n), 0, 1, codes(n) - 1, codes(n) + 1, 2 * codes(n)};
        for (size_t t = 0; t < LENGTH(lengths); t++) {
            for (size_t wrong = 0; wrong <= LENGTH(above); wrong++) {
                random_table(WIDEST, table, 4, 2);
                random_table(WIDEST, table + MOST_CODES, 4, 2);
                if (wrong > 0 && lengths[t] > 0) {
                    table[(lengths[t] - 1) * (wrong - 1) / 2] = above[wrong - 1];
                }
                try_places(n, table, lengths[t]);
            }
        }
    }
}
