#include <string.h>

#include "client.h"

/* A list, and how many rows there is room for. */
enum { ROOM = 300 };

struct list {
    uint8_t values[ROOM], cares[ROOM];
};

static void put(struct list *list, size_t i, struct row row) {
    list->values[i] = row.value;
    list->cares[i] = row.care;
}

struct row random_row(size_t n) { return row_of(width_or_6(n), random_below(cubes(n))); }

/* Its care is 2^n or more, or its value has a one outside care. */
struct row damaged_row(size_t n) {
    struct row row = random_row(n);
    if (random_below(2)) {
        row.care = (uint8_t)(row.care | codes(n) << random_below(2));
    } else {
        row.care = (uint8_t)(row.care & ~1u);
        row.value = (uint8_t)(row.value | 1u);
    }
    return row;
}

/* Check and Write on a list with two arrays of one length. The file has a byte too few, just enough, more, or hardly any. */
static void try_list(size_t n, const uint8_t *table, const struct list *list, size_t rows) {
    size_t need = 2 + 2 * rows;
    try_check(n, table, codes(n), list->values, rows, list->cares, rows);
    try_write(n, list->values, rows, list->cares, rows, need);
    try_write(n, list->values, rows, list->cares, rows, need - 1);
    try_write(n, list->values, rows, list->cares, rows, random_below(need));
    try_write(n, list->values, rows, list->cares, rows, need + random_below(9));
}

/* At each width, a list of one row for each value and care that a byte can hold: counts the wrong answers. */
void every_row(void) {
    static const uint8_t table[MOST_CODES];
    for (size_t n = 1; n <= WIDEST; n++) {
        for (unsigned care = 0; care < 256; care++) {
            int wrong = 0;
            for (unsigned value = 0; value < 256; value++) {
                struct row row = {(uint8_t)value, (uint8_t)care};
                uint8_t file[4];
                int ok = formed(n, row);
                wrong += rows_write(n, &row.value, 1, &row.care, 1, file, 4) != (ok ? 4 : -7);
                wrong += rows_check(n, table, codes(n), &row.value, 1, &row.care, 1) != (ok ? 257 + (int32_t)value : -7);
            }
            expect(wrong == 0, "rows of width %zu with care %u: %d wrong answers", n, care, wrong);
        }
    }
}

/* Every code against every formed row, each a list of its own: the code alone is barred or wanted, so Check tells whether the row matches it. */
void every_code(void) {
    for (size_t n = 1; n <= WIDEST; n++) {
        for (size_t cube = 0; cube < cubes(n); cube++) {
            struct row row = row_of(n, cube);
            for (size_t c = 0; c < codes(n); c++) {
                uint8_t table[MOST_CODES];
                memset(table, 2, sizeof table);
                table[c] = 0;
                try_check(n, table, codes(n), &row.value, 1, &row.care, 1);
                table[c] = 1;
                try_check(n, table, codes(n), &row.value, 1, &row.care, 1);
            }
        }
    }
}

/* Lists of 255 rows that match the first code, and one among them, at each place, that alone matches the last code, which is wanted or barred. */
void every_place(void) {
    for (size_t n = 1; n <= WIDEST; n++) {
        uint8_t table[MOST_CODES], last = (uint8_t)(codes(n) - 1);
        memset(table, 0, sizeof table);
        table[0] = 1;
        for (size_t place = 0; place < 255; place++) {
            struct list list;
            for (size_t i = 0; i < 255; i++) {
                put(&list, i, (struct row){i == place ? last : 0, last});
            }
            table[last] = 1;
            expect(try_check(n, table, codes(n), list.values, 255, list.cares, 255) == 0, "row %zu of 255 does not count at width %zu", place, n);
            table[last] = 0;
            try_check(n, table, codes(n), list.values, 255, list.cares, 255);
        }
    }
}

/* Check on every table of widths 1 and 2 with every list of at most two rows, formed or with a care or a value just too high. */
void every_small_list(void) {
    for (size_t n = 1; n <= 2; n++) {
        uint8_t table[4];
        size_t bytes = codes(n) + 1, rows = bytes * bytes;
        for (size_t number = 0; number < power(3, codes(n)); number++) {
            for (size_t c = 0, rest = number; c < codes(n); c++, rest /= 3) {
                table[c] = (uint8_t)(rest % 3);
            }
            for (size_t pair = 0; pair < rows * rows; pair++) {
                size_t first = pair / rows, second = pair % rows;
                uint8_t values[] = {(uint8_t)(first % bytes), (uint8_t)(second % bytes)}, cares[] = {(uint8_t)(first / bytes), (uint8_t)(second / bytes)};
                try_check(n, table, codes(n), values, 2, cares, 2);
                if (second == 0) {
                    try_check(n, table, codes(n), values, 1, cares, 1);
                }
            }
            try_check(n, table, codes(n), NULL, 0, NULL, 0);
        }
    }
}

/* Lists of every length from 0 to 256, of three kinds: random rows; random codes that are not barred, so that none is stray; and the wanted codes over and
 * over, so that it is right once it is long enough. Each is tried as it is, and with a row that is not formed. */
void random_lists(void) {
    for (size_t n = 1; n <= WIDEST; n++) {
        for (size_t rows = 0; rows <= 256; rows++) {
            for (size_t kind = 0; kind < 3; kind++) {
                uint8_t table[MOST_CODES];
                struct list list;
                random_table(n, table, 1 + random_below(4), random_below(4));
                table[random_below(codes(n))] = 1;
                size_t code = 0;
                for (size_t i = 0; i < rows; i++) {
                    do {
                        code = kind == 2 ? (code + 1) % codes(n) : random_below(codes(n));
                    } while (kind == 2 ? table[code] != 1 : table[code] == 0);
                    put(&list, i, kind == 0 ? random_row(n) : (struct row){(uint8_t)code, (uint8_t)(codes(n) - 1)});
                }
                try_list(n, table, &list, rows);
                if (rows > 0) {
                    put(&list, random_below(rows), damaged_row(n));
                    try_list(n, table, &list, rows);
                }
            }
        }
    }
}

/* Lists that Plan wrote, and the same with a bit of one row no longer tested, or tested: the check must notice. */
void planned_lists(void) {
    for (size_t n = 1; n <= WIDEST; n++) {
        for (size_t t = 0; t < 500; t++) {
            uint8_t table[MOST_CODES];
            struct list list;
            random_table(n, table, 1 + random_below(7), random_below(3));
            int32_t answer = rows_plan(n, table, codes(n), list.values, code_pairs(n), list.cares, code_pairs(n));
            size_t rows = answer < 0 ? 0 : (size_t)answer / 10000;
            expect(try_check(n, table, codes(n), list.values, rows, list.cares, rows) == 0, "a list that Plan wrote is not right");
            if (rows > 0) {
                size_t i = random_below(rows);
                list.cares[i] = (uint8_t)(list.cares[i] ^ 1u << random_below(n));
                list.values[i] &= list.cares[i];
                try_check(n, table, codes(n), list.values, rows, list.cares, rows);
            }
        }
    }
}

/* Lengths of the two arrays: equal or not, and up to 255 or above. */
static const size_t lengths[][2] = {{0, 0}, {1, 1}, {255, 255}, {256, 256}, {300, 300}, {0, 1}, {1, 0}, {255, 256}, {256, 255}, {256, 300}, {300, 256}};

/* A random list, formed at the width or at 6, with a row that is not: none, the first, one in the middle or the last. */
static void fill(size_t n, struct list *list, size_t rows, size_t damaged) {
    for (size_t i = 0; i < ROOM; i++) {
        put(list, i, random_row(n));
    }
    if (damaged > 0 && rows > 0) {
        put(list, (rows - 1) * (damaged - 1) / 2, damaged_row(n));
    }
}

/* Every set of the conditions 1, 2, 3, 5, 6 and 7, in several ways each. */
void refusals_of_check(void) {
    uint8_t table[2 * MOST_CODES];
    struct list list;
    for (size_t i = 0; i < width_count; i++) {
        size_t n = widths[i];
        size_t cells[] = {codes(n), 0, 1, codes(n) - 1, codes(n) + 1, 2 * codes(n)};
        for (size_t t = 0; t < 2 * LENGTH(cells); t++) {
            size_t table_len = cells[t / 2];
            for (size_t l = 0; l < 4 * LENGTH(lengths); l++) {
                random_table(WIDEST, table, 4, 2);
                random_table(WIDEST, table + MOST_CODES, 4, 2);
                if (t % 2 && table_len > 0) {
                    table[random_below(table_len)] = (uint8_t)(3 + random_below(253));
                }
                fill(n, &list, lengths[l / 4][0], l % 4);
                try_check(n, table, table_len, list.values, lengths[l / 4][0], list.cares, lengths[l / 4][1]);
            }
        }
    }
}

/* Every set of the conditions 1, 5, 6, 7 and 4, in several ways each. */
void refusals_of_write(void) {
    struct list list;
    for (size_t i = 0; i < width_count; i++) {
        for (size_t l = 0; l < 4 * LENGTH(lengths); l++) {
            size_t values_len = lengths[l / 4][0], cares_len = lengths[l / 4][1], need = 2 + 2 * values_len;
            size_t bytes[] = {0, 1, need - 1, need, need + 1};
            fill(widths[i], &list, values_len, l % 4);
            for (size_t b = 0; b < LENGTH(bytes); b++) {
                try_write(widths[i], list.values, values_len, list.cares, cares_len, bytes[b]);
            }
        }
    }
}
