/* The words of document 01, and those of document 02 on keep-out lists, in a few lines of C each, by trying every code and every cube. The tests compare the
 * product with them; the two share no code. */
#ifndef MEANINGS_H
#define MEANINGS_H

#include <stddef.h>
#include <stdint.h>

enum { WIDEST = 6, MOST_CODES = 64, MOST_CODE_PAIRS = 32, MOST_CUBES = 729 };

struct row {
    uint8_t value, care;
};

size_t power(size_t base, size_t exponent);
unsigned ones(uint64_t word);

int formed(size_t n, struct row row);
int matches(struct row row, size_t code);
struct row row_of(size_t n, size_t cube);
size_t cube_of(size_t n, struct row row);

/* The codes that a cube matches: bit c stands for code c. */
uint64_t codes_of(size_t n, size_t cube);

/* The primes of a table, ascending by cube number, with the wanted codes that each matches, its tested bits, and whether it is essential. */
struct term {
    uint16_t cube;
    uint64_t wanted;
    uint8_t tested;
    int essential;
};

size_t find_primes(size_t n, const uint8_t *table, struct term *primes);

/* Those of them that match a wanted code. */
size_t find_serving(size_t n, const uint8_t *table, struct term *primes);

/* What Check answers for a formed list, in C. */
int32_t verdict(size_t n, const uint8_t *table, const uint8_t *values, const uint8_t *cares, size_t rows);

/* Whether a list matches every barred code of the table and no wanted one. */
int keeps_out(size_t n, const uint8_t *table, const uint8_t *values, const uint8_t *cares, size_t rows);

/* The form of the calls that write a list for a table: rows_plan, rows_keep_out and rows_better. */
typedef int32_t building(size_t n, const uint8_t *table, size_t table_len, uint8_t *values, size_t values_len, uint8_t *cares, size_t cares_len);

/* What rows_better answers where rows_plan and rows_keep_out answer these numbers, of 10000 * rows + tested bits; KEPT_OUT more for the keep-out list. */
enum { KEPT_OUT = 100000000 };

int32_t better_of(int32_t plan, int32_t keep_out);

/* The same numbers in each run. */
uint64_t random_word(void);
size_t random_below(size_t n);

/* A table of random cells: `wanted` and `free` out of eight, the rest barred. */
void random_table(size_t n, uint8_t *table, size_t wanted, size_t free);

#endif
