/* What the files of the client share. */
#ifndef CLIENT_H
#define CLIENT_H

#include "../meanings.h"
#include "rows.h"

/* watch.c: expectations, and lent memory that is watched. */

extern long passed, failed;

/* Counts a test that passed, or one that failed and prints what it was. */
void expect(int ok, const char *what, ...) __attribute__((format(printf, 2, 3)));

enum { ARRAYS = 3, MOST_BYTES = 20000 };

/* The call that is made; printed should it touch memory that was not lent. */
extern const char *calling;

/* Lends array number `which`, with these contents or with random ones. It lies within a larger one: at random, it starts or ends next to memory that nobody
 * may touch; its own bytes and those on its other side are remembered. It is good until that number is lent again. */
void *lend(size_t which, const void *contents, size_t bytes);
void *lend_random(size_t which, size_t bytes);

/* Whether everything but the first `used` bytes of that array is as it was lent. */
int kept(size_t which, size_t used);

/* calls.c: one call each, whose answer and lent memory are compared with what document 01 says, and document 02 of Read, of Plan's places, of keep-out lists and
 * of essential primes. They return what the call returned. */
int32_t try_spell(size_t n, size_t cube);
int32_t try_cells(size_t n, size_t cube, size_t codes_len);
int32_t try_primes(size_t n, const uint8_t *table, size_t table_len, size_t cubes_len);
int32_t try_chart(size_t n, const uint8_t *table, size_t table_len, size_t rows_len);
int32_t try_essentials(size_t n, const uint8_t *table, size_t table_len, size_t cubes_len); /* both calls that list them */
int32_t try_check(size_t n, const uint8_t *table, size_t table_len, const uint8_t *values, size_t values_len, const uint8_t *cares, size_t cares_len);
int32_t try_write(size_t n, const uint8_t *values, size_t values_len, const uint8_t *cares, size_t cares_len, size_t file_len);
int32_t try_read(const uint8_t *file, size_t file_len, size_t values_len, size_t cares_len);

/* Both calls that list the essential primes, lent places that hold the same: they answer the same and leave the same, also behind the count. */
void try_same_essentials(size_t n, const uint8_t *table, size_t table_len, size_t cubes_len);

/* The calls that write a list for a table. They are lent the same, and refuse the same. */
enum { PLAN, KEEP_OUT, BETTER, BUILDERS };
extern building *const builders[BUILDERS];

int32_t try_build(size_t builder, size_t n, const uint8_t *table, size_t table_len, size_t values_len, size_t cares_len);

/* client.c: the widths 1 to 6, then numbers that are not widths. */
extern const size_t widths[];
extern const size_t width_count;

/* The number where it is a width, and 6 where it is not; the codes, the pairs of codes and the cubes of that width. A list needs a place for each pair. */
size_t width_or_6(size_t n);
size_t codes(size_t n);
size_t code_pairs(size_t n);
size_t cubes(size_t n);

/* lists.c: a random row that is formed, and one that is not; of width 6 where the number is not a width. */
struct row random_row(size_t n);
struct row damaged_row(size_t n);

#define LENGTH(array) (sizeof(array) / sizeof((array)[0]))

/* What is tried. cubes.c: Spell and Cells. tables.c: Primes, Chart, Essentials and the calls that write a list. lists.c: Check and Write. files.c: Read.
 * edges.c: the sentences of "Codes at the edge" and the cases a to j, by their numbers in document 01, the tables that fill all places, Table 1 of document
 * 002, and very long arrays. */
void every_cube(void);
void places_for_codes(void);
void every_small_table(void);
void random_tables(void);
void many_essentials(void);
void places_for_tables(void);
void refusals_of_tables(void);
void every_row(void);
void every_code(void);
void every_place(void);
void every_small_list(void);
void random_lists(void);
void planned_lists(void);
void refusals_of_check(void);
void refusals_of_write(void);
void every_small_file(void);
void every_row_of_a_file(void);
void random_files(void);
void refusals_of_read(void);
void round_trips(void);
void edges(void);
void filled_places(void);
void free_codes(void);
void essentials_of_002(void);
void cases(void);
void long_arrays(void);

#endif
