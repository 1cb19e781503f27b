#include <string.h>

#include "client.h"

/* What is refused, in the order of document 01: the number of the first condition that holds, or 0. */

static int refuses_width(size_t n) { return n < 1 || n > 6 ? 1 : 0; }

static int refuses_cube(size_t n, size_t cube) {
    if (refuses_width(n)) {
        return 1;
    }
    return cube >= power(3, n) ? 8 : 0;
}

static int refuses_table(size_t n, const uint8_t *table, size_t table_len) {
    if (refuses_width(n)) {
        return 1;
    }
    if (table_len != power(2, n)) {
        return 2;
    }
    for (size_t c = 0; c < table_len; c++) {
        if (table[c] > 2) {
            return 3;
        }
    }
    return 0;
}

static int refuses_list(size_t n, const uint8_t *values, size_t values_len, const uint8_t *cares, size_t cares_len) {
    if (values_len != cares_len) {
        return 5;
    }
    if (values_len > 255) {
        return 6;
    }
    for (size_t i = 0; i < values_len; i++) {
        if (!formed(n, (struct row){values[i], cares[i]})) {
            return 7;
        }
    }
    return 0;
}

/* A list file, in the order of document 02: byte 0 is the width, byte 1 the number of rows, then all values, then all cares. */
static int refuses_file(const uint8_t *file, size_t file_len) {
    if (file_len < 2 || file_len != 2 + 2 * (size_t)file[1]) {
        return 10;
    }
    if (refuses_width(file[0])) {
        return 1;
    }
    return refuses_list(file[0], file + 2, file[1], file + 2 + file[1], file[1]);
}

/* Bytes as text, for a failure: a digit each, `+` above 9. */
static const char *text(const uint8_t *bytes, size_t len) {
    static char shown[MOST_BYTES + 1];
    for (size_t i = 0; i < len; i++) {
        shown[i] = bytes[i] > 9 ? '+' : (char)('0' + bytes[i]);
    }
    shown[len] = 0;
    return shown;
}

static const char *word(int right) { return right ? "right" : "wrong"; }

int32_t try_spell(size_t n, size_t cube) {
    uint8_t *value = lend_random(0, 1), *care = lend_random(1, 1);
    int k = refuses_cube(n, cube);
    calling = "rows_spell";
    int32_t answer = rows_spell(n, cube, value, care);
    int right = kept(0, k ? 0 : 1) && kept(1, k ? 0 : 1);
    if (!k) {
        struct row row = row_of(n, cube);
        right = right && *value == row.value && *care == row.care;
    }
    expect(answer == -k && right, "rows_spell(%zu, %zu): %d, expected %d; lent memory is %s", n, cube, answer, -k, word(right));
    return answer;
}

int32_t try_cells(size_t n, size_t cube, size_t codes_len) {
    uint8_t *codes = lend_random(0, codes_len);
    int k = refuses_cube(n, cube);
    k = k ? k : codes_len < power(2, n) ? 4 : 0;
    calling = "rows_cells";
    int32_t answer = rows_cells(n, cube, codes, codes_len), count = 0;
    int right = 1;
    for (size_t c = 0; !k && c < power(2, n); c++) {
        if (matches(row_of(n, cube), c)) {
            right = right && codes[count++] == c;
        }
    }
    right = right && kept(0, (size_t)count);
    int32_t want = k ? -k : count;
    expect(answer == want && right, "rows_cells(%zu, %zu, %zu places): %d, expected %d; lent memory is %s", n, cube, codes_len, answer, want, word(right));
    return answer;
}

/* The calls that list cubes. */
typedef int32_t listing(size_t n, const uint8_t *table, size_t table_len, uint16_t *cubes, size_t cubes_len);

/* Primes, or one of the calls that list the essential primes. */
static int32_t try_listing(listing *call, const char *name, int essentials, size_t n, const uint8_t *cells, size_t table_len, size_t cubes_len) {
    struct term primes[MOST_CUBES];
    uint8_t *table = lend(0, cells, table_len);
    uint16_t *cubes = lend_random(1, cubes_len * sizeof *cubes);
    int k = refuses_table(n, cells, table_len);
    k = k ? k : cubes_len < power(3, n) ? 4 : 0;
    calling = name;
    int32_t answer = call(n, table, table_len, cubes, cubes_len), count = 0;
    size_t listed = k ? 0 : (essentials ? find_primes : find_serving)(n, cells, primes);
    int right = kept(0, 0);
    for (size_t i = 0; i < listed; i++) {
        if (!essentials || primes[i].essential) {
            right = right && cubes[count++] == primes[i].cube;
        }
    }
    right = right && kept(1, (size_t)count * sizeof *cubes);
    int32_t want = k ? -k : count;
    expect(answer == want && right, "%s(%zu, %s, %zu places): %d, expected %d; lent memory is %s", calling, n, text(cells, table_len), cubes_len, answer, want,
           word(right));
    return answer;
}

int32_t try_primes(size_t n, const uint8_t *table, size_t table_len, size_t cubes_len) {
    return try_listing(rows_primes, "rows_primes", 0, n, table, table_len, cubes_len);
}

int32_t try_essentials(size_t n, const uint8_t *table, size_t table_len, size_t cubes_len) {
    try_listing(rows_essentials_by_neighbours, "rows_essentials_by_neighbours", 1, n, table, table_len, cubes_len);
    try_same_essentials(n, table, table_len, cubes_len);
    return try_listing(rows_essentials, "rows_essentials", 1, n, table, table_len, cubes_len);
}

void try_same_essentials(size_t n, const uint8_t *cells, size_t table_len, size_t cubes_len) {
    size_t bytes = cubes_len * sizeof(uint16_t);
    uint8_t *table = lend(0, cells, table_len);
    uint16_t *cubes = lend_random(1, bytes), *others = lend(2, cubes, bytes);
    calling = "rows_essentials";
    int32_t answer = rows_essentials(n, table, table_len, cubes, cubes_len);
    calling = "rows_essentials_by_neighbours";
    int32_t other = rows_essentials_by_neighbours(n, table, table_len, others, cubes_len);
    int same = memcmp(cubes, others, bytes) == 0;
    expect(answer == other && same, "rows_essentials(%zu, %s, %zu places): %d, by neighbours %d; the places are %s", n, text(cells, table_len), cubes_len, answer,
           other, same ? "the same" : "not the same");
}

int32_t try_chart(size_t n, const uint8_t *cells, size_t table_len, size_t rows_len) {
    struct term primes[MOST_CUBES];
    uint8_t *table = lend(0, cells, table_len);
    struct rows_chart_row *rows = lend_random(1, rows_len * sizeof *rows);
    int k = refuses_table(n, cells, table_len);
    k = k ? k : rows_len < power(3, n) ? 4 : 0;
    calling = "rows_chart";
    int32_t answer = rows_chart(n, table, table_len, rows, rows_len);
    size_t count = k ? 0 : find_serving(n, cells, primes);
    int right = kept(0, 0) && kept(1, count * sizeof *rows);
    for (size_t i = 0; i < count; i++) {
        right = right && rows[i].cube == primes[i].cube && rows[i].word == primes[i].wanted && rows[i].literals == primes[i].tested;
    }
    int32_t want = k ? -k : (int32_t)count;
    expect(answer == want && right, "rows_chart(%zu, %s, %zu places): %d, expected %d; lent memory is %s", n, text(cells, table_len), rows_len, answer, want,
           word(right));
    return answer;
}

/* Whether a list is formed, ascending by cube number, and has this many tested bits. Whether a shorter one exists is tested by tests/minimum. */
static int listed(size_t n, const uint8_t *values, const uint8_t *cares, size_t rows, unsigned bits) {
    int ok = 1;
    unsigned tested = 0;
    for (size_t i = 0; i < rows; i++) {
        struct row row = {values[i], cares[i]};
        ok = ok && formed(n, row) && (i == 0 || cube_of(n, (struct row){values[i - 1], cares[i - 1]}) < cube_of(n, row));
        tested += ones(row.care);
    }
    return ok && tested == bits;
}

/* Whether an answer and the first rows of two arrays are those of the better of the two lists that rows_plan and rows_keep_out write. */
static int is_better(size_t n, const uint8_t *table, int32_t answer, const uint8_t *values, const uint8_t *cares, size_t rows) {
    uint8_t list_values[2][MOST_CODE_PAIRS], list_cares[2][MOST_CODE_PAIRS];
    int32_t numbers[2];
    for (size_t i = 0; i < 2; i++) {
        numbers[i] = (i == 0 ? rows_plan : rows_keep_out)(n, table, power(2, n), list_values[i], MOST_CODE_PAIRS, list_cares[i], MOST_CODE_PAIRS);
    }
    size_t written = answer >= KEPT_OUT;
    return answer == better_of(numbers[0], numbers[1]) && memcmp(values, list_values[written], rows) == 0 && memcmp(cares, list_cares[written], rows) == 0;
}

building *const builders[] = {rows_plan, rows_keep_out, rows_better};

int32_t try_build(size_t builder, size_t n, const uint8_t *cells, size_t table_len, size_t values_len, size_t cares_len) {
    static const char *const names[] = {"rows_plan", "rows_keep_out", "rows_better"};
    uint8_t *table = lend(0, cells, table_len), *values = lend_random(1, values_len), *cares = lend_random(2, cares_len);
    int k = refuses_table(n, cells, table_len);
    k = k ? k : values_len < power(2, n - 1) || cares_len < power(2, n - 1) ? 4 : 0;
    calling = names[builder];
    int32_t answer = builders[builder](n, table, table_len, values, values_len, cares, cares_len);
    int right = kept(0, 0);
    if (k) {
        right = right && answer == -k && kept(1, 0) && kept(2, 0);
    } else {
        int keep_out = builder == KEEP_OUT || (builder == BETTER && answer >= KEPT_OUT);
        int32_t number = builder == BETTER && keep_out ? answer - KEPT_OUT : answer;
        size_t rows = (size_t)number / 10000;
        right = right && number >= 0 && rows <= power(2, n - 1) && kept(1, rows) && kept(2, rows);
        right = right && listed(n, values, cares, rows, (unsigned)number % 10000);
        right = right && (keep_out ? keeps_out(n, cells, values, cares, rows) : verdict(n, cells, values, cares, rows) == 0);
        right = right && (builder != BETTER || is_better(n, cells, answer, values, cares, rows));
    }
    expect(right, "%s(%zu, %s, %zu and %zu places): %d, refusal expected: %d", names[builder], n, text(cells, table_len), values_len, cares_len, answer, -k);
    return answer;
}

int32_t try_check(size_t n, const uint8_t *cells, size_t table_len, const uint8_t *list_values, size_t values_len, const uint8_t *list_cares,
                  size_t cares_len) {
    uint8_t *table = lend(0, cells, table_len), *values = lend(1, list_values, values_len), *cares = lend(2, list_cares, cares_len);
    int k = refuses_table(n, cells, table_len);
    k = k ? k : refuses_list(n, list_values, values_len, list_cares, cares_len);
    calling = "rows_check";
    int32_t answer = rows_check(n, table, table_len, values, values_len, cares, cares_len);
    int32_t want = k ? -k : verdict(n, cells, list_values, list_cares, values_len);
    int right = kept(0, 0) && kept(1, 0) && kept(2, 0);
    expect(answer == want && right, "rows_check(%zu, %s, %zu values, %zu cares): %d, expected %d; lent memory is %s", n, text(cells, table_len), values_len,
           cares_len, answer, want, word(right));
    return answer;
}

int32_t try_write(size_t n, const uint8_t *list_values, size_t values_len, const uint8_t *list_cares, size_t cares_len, size_t file_len) {
    uint8_t *values = lend(0, list_values, values_len), *cares = lend(1, list_cares, cares_len), *file = lend_random(2, file_len);
    int k = refuses_width(n);
    k = k ? k : refuses_list(n, list_values, values_len, list_cares, cares_len);
    k = k ? k : file_len < 2 + 2 * values_len ? 4 : 0;
    calling = "rows_write";
    int32_t answer = rows_write(n, values, values_len, cares, cares_len, file, file_len);
    size_t used = k ? 0 : 2 + 2 * values_len;
    int right = kept(0, 0) && kept(1, 0) && kept(2, used);
    if (!k) {
        right = right && file[0] == n && file[1] == values_len;
        for (size_t i = 0; i < values_len; i++) {
            right = right && file[2 + i] == list_values[i] && file[2 + values_len + i] == list_cares[i];
        }
    }
    int32_t want = k ? -k : (int32_t)used;
    expect(answer == want && right, "rows_write(%zu, %zu values, %zu cares, %zu bytes): %d, expected %d; lent memory is %s", n, values_len, cares_len, file_len,
           answer, want, word(right));
    return answer;
}

int32_t try_read(const uint8_t *list_file, size_t file_len, size_t values_len, size_t cares_len) {
    uint8_t *file = lend(0, list_file, file_len), *values = lend_random(1, values_len), *cares = lend_random(2, cares_len);
    int k = refuses_file(list_file, file_len);
    size_t rows = k ? 0 : list_file[1];
    k = k ? k : values_len < rows || cares_len < rows ? 4 : 0;
    calling = "rows_read";
    int32_t answer = rows_read(file, file_len, values, values_len, cares, cares_len);
    size_t used = k ? 0 : rows;
    int right = kept(0, 0) && kept(1, used) && kept(2, used);
    for (size_t i = 0; i < used; i++) {
        right = right && values[i] == list_file[2 + i] && cares[i] == list_file[2 + rows + i];
    }
    int32_t want = k ? -k : 100000 * list_file[0] + (int32_t)rows;
    expect(answer == want && right, "rows_read(%zu bytes, %zu and %zu places): %d, expected %d; lent memory is %s", file_len, values_len, cares_len, answer,
           want, word(right));
    return answer;
}
