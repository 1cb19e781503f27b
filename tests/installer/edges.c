#include <stdio.h>
#include <stdlib.h>
#include <string.h>
#include <sys/mman.h>

#include "client.h"

static uint8_t wanted[128], barred[128], rows[300];

/* A call that must answer this number, and be right in everything else. */
static void answers(const char *sentence, int32_t answer, int32_t want) { expect(answer == want, "%s: %d, expected %d", sentence, answer, want); }

/* The answers of the calls that write a list: Plan, the keep-out call and the call that writes the better list. */
struct built {
    int32_t answers[BUILDERS];
};

static struct built each(int32_t answer) { return (struct built){{answer, answer, answer}}; }

/* The calls that write a list must answer these numbers. */
static void builds(const char *sentence, size_t n, const uint8_t *cells, size_t len, size_t values_len, size_t cares_len, struct built want) {
    for (size_t b = 0; b < BUILDERS; b++) {
        answers(sentence, try_build(b, n, cells, len, values_len, cares_len), want.answers[b]);
    }
}

/* Every call at one width that is refused, the rest being as it should be at width 6, or at that width where it has a table. */
static void width_refused(size_t n, size_t cells) {
    char sentence[40];
    snprintf(sentence, sizeof sentence, "width %zu refuses", n);
    answers(sentence, try_spell(n, 0), -1);
    answers(sentence, try_cells(n, 0, 300), -1);
    answers(sentence, try_primes(n, wanted, cells, 3000), -1);
    answers(sentence, try_chart(n, wanted, cells, 800), -1);
    answers(sentence, try_essentials(n, wanted, cells, 3000), -1);
    builds(sentence, n, wanted, cells, 300, 300, each(-1));
    answers(sentence, try_check(n, wanted, cells, rows, 1, rows, 1), -1);
    answers(sentence, try_write(n, rows, 1, rows, 1, 600), -1);
    answers(sentence, try_read((uint8_t[]){(uint8_t)n, 1, 0, 0}, 4, 300, 300), -1);
}

/* Every call at a width that is accepted, with the least memory that will do. Every code is wanted: one row that tests nothing matches them, and no code is to
 * be kept out. Where every code is barred it is the other way round. */
static void width_accepted(size_t n, size_t codes, size_t cubes) {
    char sentence[40];
    snprintf(sentence, sizeof sentence, "width %zu does not refuse", n);
    answers(sentence, try_spell(n, cubes - 1), 0);
    answers(sentence, try_cells(n, cubes - 1, codes), (int32_t)codes);
    answers(sentence, try_primes(n, wanted, codes, cubes), 1);
    answers(sentence, try_chart(n, wanted, codes, cubes), 1);
    answers(sentence, try_essentials(n, wanted, codes, cubes), 1);
    builds(sentence, n, wanted, codes, codes / 2, codes / 2, (struct built){{10000, 0, KEPT_OUT}});
    builds(sentence, n, barred, codes, codes / 2, codes / 2, (struct built){{0, 10000, 0}});
    answers(sentence, try_check(n, wanted, codes, rows, 1, rows, 1), 0);
    answers(sentence, try_write(n, rows, 1, rows, 1, 4), 4);
    answers(sentence, try_read((uint8_t[]){(uint8_t)n, 1, 0, 0}, 4, 1, 1), 100000 * (int32_t)n + 1);
}

/* A table that every call on a table refuses, or none does, with enough places. */
static void table(const char *sentence, const uint8_t *cells, size_t len, int32_t primes, int32_t essentials, struct built lists, int32_t check) {
    answers(sentence, try_primes(6, cells, len, 729), primes);
    answers(sentence, try_chart(6, cells, len, 729), primes);
    answers(sentence, try_essentials(6, cells, len, 729), essentials);
    builds(sentence, 6, cells, len, 32, 32, lists);
    answers(sentence, try_check(6, cells, len, rows, 0, rows, 0), check);
}

static void cells_at_the_edge(void) {
    uint8_t cells[64];
    table("63 cells refuse", wanted, 63, -2, -2, each(-2), -2);
    table("65 cells refuse", wanted, 65, -2, -2, each(-2), -2);
    for (size_t c = 0; c < 64; c++) {
        memset(cells, 0, 64);
        cells[c] = 2;
        table("cell 2 passes", cells, 64, 0, 0, (struct built){{0, 10000, 0}}, 0);
        cells[c ^ 1] = 1;
        table("cell 2 is free", cells, 64, 1, 1, (struct built){{10005, 50005, 10005}}, 1 + (int32_t)(c ^ 1));
        cells[c ^ 1] = 0;
        cells[c] = 3;
        table("cell 3 refuses", cells, 64, -3, -3, each(-3), -3);
        cells[c] = 1;
        table("one wanted code", cells, 64, 1, 1, (struct built){{10006, 60006, 10006}}, 1 + (int32_t)c);
        memset(cells, 1, 64);
        cells[c] = 0;
        table("one barred code", cells, 64, 6, 6, (struct built){{60006, 10006, KEPT_OUT + 10006}}, 1 + (c == 0));
        cells[c ^ 1] = 2;
        table("one barred code and a free one", cells, 64, 6, 5, (struct built){{50005, 10005, KEPT_OUT + 10005}}, 1 + 2 * (c < 2));
    }
}

static void lists_at_the_edge(void) {
    uint8_t values[300] = {0}, cares[300];
    memset(cares, 63, sizeof cares);
    answers("care 63 is formed", try_check(6, barred, 64, values, 1, cares, 1), 257);
    answers("care 63 is formed", try_write(6, values, 1, cares, 1, 4), 4);
    answers("255 rows pass Check", try_check(6, barred, 64, values, 255, cares, 255), 257);
    answers("255 rows pass Write", try_write(6, values, 255, cares, 255, 512), 512);
    answers("255 rows need 512 bytes", try_write(6, values, 255, cares, 255, 511), -4);
    answers("256 rows refuse", try_check(6, barred, 64, values, 256, cares, 256), -6);
    answers("256 rows refuse", try_write(6, values, 256, cares, 256, 600), -6);
    cares[0] = 64;
    answers("care 64 is not formed", try_check(6, barred, 64, values, 1, cares, 1), -7);
    answers("care 64 is not formed", try_write(6, values, 1, cares, 1, 4), -7);
    answers("an empty list is allowed", try_check(6, barred, 64, values, 0, cares, 0), 0);
    answers("an empty list is allowed", try_check(6, wanted, 64, values, 0, cares, 0), 1);
    answers("an empty list is allowed", try_write(6, values, 0, cares, 0, 2), 2);
    answers("an empty list needs 2 bytes", try_write(6, values, 0, cares, 0, 1), -4);
}

/* Read of a list file at width 6, with just enough places: every row has value 0 and care 63, but for this one. */
static int32_t read_with(size_t count, size_t i, uint8_t value, uint8_t care) {
    uint8_t file[512] = {6, (uint8_t)count};
    memset(file + 2 + count, 63, count);
    file[2 + i] = value;
    file[2 + count + i] = care;
    return try_read(file, 2 + 2 * count, count, count);
}

static void row_of_a_file(size_t count, size_t i) {
    answers("care 63 is formed", read_with(count, i, 63, 63), 600000 + (int32_t)count);
    answers("care 64 is not formed", read_with(count, i, 0, 64), -7);
    answers("a value outside care is not formed", read_with(count, i, 32, 31), -7);
}

static void files_at_the_edge(void) {
    uint8_t file[600] = {6, 255};
    answers("a file of 0 bytes refuses", try_read(file, 0, 300, 300), -10);
    answers("a file of 1 byte refuses", try_read(file, 1, 300, 300), -10);
    answers("255 rows are read from 512 bytes", try_read(file, 512, 255, 255), 600255);
    answers("255 rows are read into longer arrays", try_read(file, 512, 256, 300), 600255);
    answers("255 rows in 511 bytes refuse", try_read(file, 511, 255, 255), -10);
    answers("255 rows in 513 bytes refuse", try_read(file, 513, 255, 255), -10);
    answers("254 places for 255 values refuse", try_read(file, 512, 254, 255), -4);
    answers("254 places for 255 cares refuse", try_read(file, 512, 255, 254), -4);
    file[0] = 0;
    answers("width byte 0 refuses", try_read(file, 512, 255, 255), -1);
    file[0] = 7;
    answers("width byte 7 refuses", try_read(file, 512, 255, 255), -1);
    file[0] = 6;
    file[1] = 0;
    answers("an empty list is read", try_read(file, 2, 0, 0), 600000);
    answers("an empty list in 3 bytes refuses", try_read(file, 3, 0, 0), -10);
    file[0] = 1;
    answers("an empty list is read", try_read(file, 2, 0, 0), 100000);
    file[1] = 1;
    answers("a row in 2 bytes refuses", try_read(file, 2, 1, 1), -10);
    answers("a row in 3 bytes refuses", try_read(file, 3, 1, 1), -10);
    answers("a row is read from 4 bytes", try_read(file, 4, 1, 1), 100001);
    answers("no place for a value refuses", try_read(file, 4, 0, 1), -4);
    answers("no place for a care refuses", try_read(file, 4, 1, 0), -4);
    answers("10 before 1", try_read((uint8_t[]){7}, 1, 0, 0), -10);
    answers("10 before 1 and 7", try_read((uint8_t[]){7, 1, 0}, 3, 0, 0), -10);
    answers("1 before 7 and 4", try_read((uint8_t[]){0, 1, 0, 64}, 4, 0, 0), -1);
    answers("7 before 4", try_read((uint8_t[]){1, 1, 0, 2}, 4, 0, 0), -7);
    row_of_a_file(1, 0);
    row_of_a_file(255, 0);
    row_of_a_file(255, 254);
}

/* Each sentence of "Codes at the edge", for each call that it concerns. */
void edges(void) {
    memset(wanted, 1, sizeof wanted);
    width_refused(0, 1);
    width_refused(7, 128);
    width_accepted(1, 2, 3);
    width_accepted(6, 64, 729);
    answers("number 728 spells", try_spell(6, 728), 0);
    answers("number 729 refuses", try_spell(6, 729), -8);
    answers("number 729 refuses", try_cells(6, 729, 64), -8);
    builds("arrays of 31 refuse", 6, wanted, 64, 31, 32, each(-4));
    builds("arrays of 31 refuse", 6, wanted, 64, 32, 31, each(-4));
    builds("arrays of 32 pass", 6, wanted, 64, 32, 32, (struct built){{10000, 0, KEPT_OUT}});
    builds("0 places refuse at width 1", 1, wanted, 2, 0, 1, each(-4));
    builds("0 places refuse at width 1", 1, wanted, 2, 1, 0, each(-4));
    builds("1 place passes at width 1", 1, wanted, 2, 1, 1, (struct built){{10000, 0, KEPT_OUT}});
    cells_at_the_edge();
    lists_at_the_edge();
    files_at_the_edge();
}

struct example {
    const char *name, *cells;
    size_t n;
    int primes, essentials;
    struct built lists;
};

/* The cases a to j, with the numbers of their keep-out lists; the last one has an ordinary list of fewer rows and more bits than its keep-out list. */
static const struct example examples[] = {
    {"a", "00", 1, 0, 0, {{0, 10000, 0}}},
    {"b", "11", 1, 1, 1, {{10000, 0, KEPT_OUT}}},
    {"c", "0201", 2, 1, 1, {{10001, 10001, 10001}}},
    {"d", "1002", 2, 1, 1, {{10002, 20002, 10002}}},
    {"e", "01111110", 3, 6, 0, {{30006, 20006, KEPT_OUT + 20006}}},
    {"f", "0000000101101111", 4, 4, 4, {{40011, 40010, KEPT_OUT + 40010}}},
    {"g", "1111101111010001", 4, 6, 3, {{30006, 30009, 30006}}},
    {"h", "1100000011100000", 4, 2, 2, {{20005, 30005, 20005}}},
    {"i", "1111011010010000", 4, 5, 4, {{40012, 40012, 40012}}},
    {"j", "1110011101110111", 4, 8, 0, {{40009, 30010, KEPT_OUT + 30010}}},
    {"fewer rows and more bits", "00010010", 3, 2, 2, {{20006, 30005, 20006}}},
};

/* The tables whose lists have the most rows: the codes with an odd number of ones are wanted, or those with an even number. All places are filled, by each call
 * that writes a list, and with one fewer in either array or in both it refuses. */
void filled_places(void) {
    uint8_t cells[MOST_CODES];
    for (size_t n = 1; n <= WIDEST; n++) {
        size_t most = code_pairs(n);
        struct built filled = each((int32_t)(10000 * most + n * most)), refused = each(-4);
        for (unsigned odd = 0; odd < 2; odd++) {
            for (unsigned c = 0; c < codes(n); c++) {
                cells[c] = ones(c) % 2 == odd;
            }
            builds("the most rows", n, cells, codes(n), most, most, filled);
            builds("the most rows, and twice the places", n, cells, codes(n), 2 * most, 2 * most, filled);
            builds("a place fewer for values", n, cells, codes(n), most - 1, most, refused);
            builds("a place fewer for cares", n, cells, codes(n), most, most - 1, refused);
            builds("a place fewer for both", n, cells, codes(n), most - 1, most - 1, refused);
        }
    }
}

/* The calls on a table of free codes and a few others: how many primes match a wanted code, which are the chart's rows, how many are essential, and lists. */
static void free_table(const char *sentence, size_t n, const uint8_t *cells, int32_t primes, int32_t essentials, struct built lists) {
    answers(sentence, try_primes(n, cells, codes(n), cubes(n)), primes);
    answers(sentence, try_chart(n, cells, codes(n), cubes(n)), primes);
    answers(sentence, try_essentials(n, cells, codes(n), cubes(n)), essentials);
    builds(sentence, n, cells, codes(n), code_pairs(n), code_pairs(n), lists);
}

/* Primes that match free codes alone are not listed. With one barred code the primes test a bit each, for every bit the other value than that code's; those that
 * match the one wanted code test a bit in which the two differ. */
void free_codes(void) {
    uint8_t cells[MOST_CODES];
    for (size_t n = 1; n <= WIDEST; n++) {
        memset(cells, 2, sizeof cells);
        free_table("all codes free", n, cells, 0, 0, each(0));
        for (size_t wanted = 0; wanted < codes(n); wanted++) {
            cells[wanted] = 1;
            free_table("one wanted code among free ones", n, cells, 1, 1, (struct built){{10000, 0, KEPT_OUT}});
            for (size_t barred = 0; barred < codes(n); barred++) {
                int32_t differ = (int32_t)ones(wanted ^ barred);
                if (differ > 0) {
                    cells[barred] = 0;
                    free_table("one wanted and one barred code among free ones", n, cells, differ, differ == 1, each(10001));
                    cells[barred] = 2;
                }
            }
            cells[wanted] = 0;
            free_table("one barred code among free ones", n, cells, 0, 0, (struct built){{0, 10000, 0}});
            cells[wanted] = 2;
        }
    }
}

/* Table 1 of document 002: the nine essential primes that it prints, by both calls that list them. */
void essentials_of_002(void) {
    static const char cells[] = "0002010200120112002200221022002201121002100211121122112201221022";
    static const char *const printed[] = {"00-1-1", "0110-0", "0-1-1-", "101-00", "110---", "11-0-1", "1-001-", "1-00-1", "1--100"};
    uint8_t table[64];
    uint16_t cubes[2][729];
    for (size_t c = 0; c < 64; c++) {
        table[c] = (uint8_t)(cells[c] - '0');
    }
    answers("Table 1 of 002", try_essentials(6, table, 64, 729), LENGTH(printed));
    rows_essentials(6, table, 64, cubes[0], 729);
    rows_essentials_by_neighbours(6, table, 64, cubes[1], 729);
    for (size_t i = 0; i < LENGTH(printed); i++) {
        size_t cube = 0;
        for (const char *digit = printed[i]; *digit != 0; digit++) {
            cube = 3 * cube + (*digit == '-' ? 2 : (size_t)(*digit - '0'));
        }
        expect(cubes[0][i] == cube && cubes[1][i] == cube, "Table 1 of 002, %s", printed[i]);
    }
}

void cases(void) {
    uint8_t cells[16];
    for (size_t i = 0; i < sizeof examples / sizeof examples[0]; i++) {
        const struct example *e = &examples[i];
        size_t codes = strlen(e->cells);
        for (size_t c = 0; c < codes; c++) {
            cells[c] = (uint8_t)(e->cells[c] - '0');
        }
        answers(e->name, try_primes(e->n, cells, codes, 81), e->primes);
        answers(e->name, try_chart(e->n, cells, codes, 81), e->primes);
        answers(e->name, try_essentials(e->n, cells, codes, 81), e->essentials);
        builds(e->name, e->n, cells, codes, codes / 2, codes / 2, e->lists);
    }
}

/* Arrays so long that their length becomes a different number once it is cut to 32 bits. Nobody touches most of their pages. */
void long_arrays(void) {
    size_t more = (size_t)1 << 32, half = more + 4096;
    uint8_t *large = mmap(NULL, 2 * half, PROT_READ | PROT_WRITE, MAP_PRIVATE | MAP_ANONYMOUS | MAP_NORESERVE, -1, 0);
    if (large == MAP_FAILED) {
        perror("mmap");
        exit(2);
    }
    uint8_t *second = large + half, zeros[64] = {0}, file[300], other[32], one_row[] = {6, 1, 0, 0}, two_rows[] = {6, 2, 0, 0, 0, 0};
    uint16_t cubes[729];
    struct rows_chart_row chart[729];
    uint8_t halves[64] = {0}; /* a row for each half, of one bit */
    memset(halves + 32, 1, 32);
    answers("2^32 + 64 cells", rows_primes(6, large, more + 64, cubes, 729), -2);
    answers("2^32 + 64 cells", rows_chart(6, large, more + 64, chart, 729), -2);
    answers("2^32 + 64 cells", rows_essentials(6, large, more + 64, cubes, 729), -2);
    answers("2^32 + 64 cells", rows_essentials_by_neighbours(6, large, more + 64, cubes, 729), -2);
    answers("2^32 + 64 cells", rows_check(6, large, more + 64, zeros, 1, rows, 1), -2);
    answers("2^32 + 1 values, one care", rows_check(6, barred, 64, large, more + 1, zeros, 1), -5);
    answers("2^32 + 1 values, one care", rows_write(6, large, more + 1, zeros, 1, file, 300), -5);
    answers("one value, 2^32 + 1 cares", rows_check(6, barred, 64, zeros, 1, large, more + 1), -5);
    answers("one value, 2^32 + 1 cares", rows_write(6, zeros, 1, large, more + 1, file, 300), -5);
    answers("2^32 + 1 rows", rows_check(6, barred, 64, large, more + 1, second, more + 1), -6);
    answers("2^32 + 1 rows", rows_write(6, large, more + 1, second, more + 1, file, 300), -6);
    answers("2^32 + 1 places for codes", rows_cells(6, 728, large, more + 1), 64);
    answers("2^32 + 1 places for primes", rows_primes(6, wanted, 64, (uint16_t *)large, more + 1), 1);
    answers("2^32 + 1 places for essentials", rows_essentials(6, wanted, 64, (uint16_t *)large, more + 1), 1);
    answers("2^32 + 1 places for essentials", rows_essentials_by_neighbours(6, wanted, 64, (uint16_t *)large, more + 1), 1);
    answers("2^32 + 1 bytes for a file", rows_write(6, zeros, 1, rows, 1, large, more + 1), 4);
    answers("2^32 + 1 places for what is read", rows_read(two_rows, 6, large, more + 1, other, 2), 600002);
    answers("2^32 + 1 places for what is read", rows_read(two_rows, 6, other, 2, large, more + 1), 600002);
    answers("2^32 + 1 places for what is read", rows_read(two_rows, 6, large, more + 1, second, more + 1), 600002);
    memcpy(large, one_row, 4);
    answers("a row in 4 bytes", rows_read(large, 4, file, 300, other, 32), 600001);
    answers("a row in 2^32 + 4 bytes", rows_read(large, more + 4, file, 300, other, 32), -10);
    for (size_t b = 0; b < BUILDERS; b++) {
        answers("2^32 + 64 cells", builders[b](6, large, more + 64, file, 32, other, 32), -2);
        answers("2^32 + 1 places for values", builders[b](6, halves, 64, large, more + 1, other, 32), 10001);
        answers("2^32 + 1 places for cares", builders[b](6, halves, 64, other, 32, large, more + 1), 10001);
    }
    munmap(large, 2 * half);
}
