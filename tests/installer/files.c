#include <string.h>

#include "client.h"

/* The most rows of a list file, the bytes of the longest one, and room for one that is too long. */
enum { MOST_ROWS = 255, LONGEST = 2 + 2 * MOST_ROWS, ROOM = 3 * LONGEST };

static void put(uint8_t *file, size_t i, struct row row) {
    file[2 + i] = row.value;
    file[2 + file[1] + i] = row.care;
}

/* A list file of random rows, formed at the width or at 6, with a row that is not: none, the first, one in the middle or the last. Random bytes
 * follow it. */
static void fill(uint8_t *file, size_t n, size_t rows, size_t damaged) {
    for (size_t i = 0; i < ROOM; i++) {
        file[i] = (uint8_t)random_word();
    }
    file[0] = (uint8_t)n;
    file[1] = (uint8_t)rows;
    for (size_t i = 0; i < rows; i++) {
        put(file, i, random_row(n));
    }
    if (damaged > 0 && rows > 0) {
        put(file, (rows - 1) * (damaged - 1) / 2, damaged_row(n));
    }
}

/* Every file of 0, 1 and 2 bytes. Of those of 3 bytes, which are all refused, the wrong answers are counted. */
void every_small_file(void) {
    uint8_t file[3] = {0}, value = 0xa5, care = 0x5a;
    try_read(file, 0, 1, 1);
    for (unsigned width = 0; width < 256; width++) {
        int wrong = 0;
        file[0] = (uint8_t)width;
        try_read(file, 1, 1, 1);
        for (unsigned rows = 0; rows < 256; rows++) {
            file[1] = (uint8_t)rows;
            try_read(file, 2, random_below(3), random_below(3));
            for (unsigned last = 0; last < 256; last++) {
                file[2] = (uint8_t)last;
                wrong += rows_read(file, 3, &value, 1, &care, 1) != -10;
            }
        }
        wrong += value != 0xa5 || care != 0x5a;
        expect(wrong == 0, "files of 3 bytes with width byte %u: %d wrong answers", width, wrong);
    }
}

/* At each width, and at bytes that are not widths, a file of one row for each value and care that a byte can hold: counts the wrong answers. */
void every_row_of_a_file(void) {
    static const uint8_t bytes[] = {1, 2, 3, 4, 5, 6, 0, 7, 255};
    for (size_t w = 0; w < LENGTH(bytes); w++) {
        int is_width = bytes[w] >= 1 && bytes[w] <= WIDEST;
        for (unsigned care = 0; care < 256; care++) {
            int wrong = 0;
            for (unsigned value = 0; value < 256; value++) {
                uint8_t file[] = {bytes[w], 1, (uint8_t)value, (uint8_t)care};
                struct row row = {file[2], file[3]}, before = {(uint8_t)~value, (uint8_t)~care}, after = before;
                int ok = is_width && formed(bytes[w], row);
                int32_t want = ok ? 100000 * bytes[w] + 1 : is_width ? -7 : -1;
                wrong += rows_read(file, 4, &after.value, 1, &after.care, 1) != want;
                wrong += memcmp(&after, ok ? &row : &before, sizeof row) != 0;
            }
            expect(wrong == 0, "files of a row with width byte %u and care %u: %d wrong answers", bytes[w], care, wrong);
        }
    }
}

/* Read with just enough places, one too few for the values, for the cares and for both, and more. */
static void try_places(const uint8_t *file) {
    size_t rows = file[1], bytes = 2 + 2 * rows, fewer = rows > 0 ? rows - 1 : 0;
    try_read(file, bytes, rows, rows);
    try_read(file, bytes, fewer, rows);
    try_read(file, bytes, rows, fewer);
    try_read(file, bytes, fewer, fewer);
    try_read(file, bytes, rows + 1 + random_below(9), rows);
    try_read(file, bytes, rows, rows + 1 + random_below(9));
    try_read(file, bytes, 256 + random_below(99), 256 + random_below(99));
}

/* Read of a file that does not have the length that it should, by a byte or by many, and of one whose number of rows is wrong by one. */
static void try_lengths(uint8_t *file) {
    size_t rows = file[1], bytes = 2 + 2 * rows;
    size_t lengths[] = {0, 1, bytes / 2, bytes - 1, bytes + 1, bytes + 2, bytes + 256, bytes + 512, ROOM};
    for (size_t l = 0; l < LENGTH(lengths); l++) {
        try_read(file, lengths[l], MOST_ROWS, MOST_ROWS);
    }
    file[1] = (uint8_t)(rows + 1);
    try_read(file, bytes, MOST_ROWS, MOST_ROWS);
    file[1] = (uint8_t)(rows - 1);
    try_read(file, bytes, MOST_ROWS, MOST_ROWS);
}

/* Files of every number of rows at every width: formed, with a row that is not, and of a wrong length. */
void random_files(void) {
    uint8_t file[ROOM];
    for (size_t n = 1; n <= WIDEST; n++) {
        for (size_t rows = 0; rows <= MOST_ROWS; rows++) {
            for (size_t damaged = 0; damaged < 4; damaged++) {
                fill(file, n, rows, damaged);
                try_places(file);
            }
            fill(file, n, rows, 0);
            try_lengths(file);
        }
    }
}

/* Every set of the conditions 10, 1, 7 and 4, in several ways each. */
void refusals_of_read(void) {
    static const uint8_t bytes[] = {1, 2, 3, 4, 5, 6, 0, 7, 8, 64, 129, 134, 255}, counts[] = {0, 1, 2, 7, 127, 128, 255};
    uint8_t file[ROOM];
    for (size_t w = 0; w < LENGTH(bytes); w++) {
        for (size_t c = 0; c < 4 * LENGTH(counts); c++) {
            size_t rows = counts[c / 4], need = 2 + 2 * rows;
            size_t lengths[] = {0, 1, need - 1, need, need + 1, need + 2}, places[] = {0, rows > 0 ? rows - 1 : 0, rows, rows + 1};
            fill(file, bytes[w], rows, c % 4);
            for (size_t l = 0; l < LENGTH(lengths); l++) {
                for (size_t p = 0; p < LENGTH(places) * LENGTH(places); p++) {
                    try_read(file, lengths[l], places[p / LENGTH(places)], places[p % LENGTH(places)]);
                }
            }
        }
    }
}

/* A random list of this width and length, written and read, is as it was. */
static void write_and_read(size_t n, size_t rows) {
    uint8_t values[MOST_ROWS], cares[MOST_ROWS], file[LONGEST], read_values[MOST_ROWS], read_cares[MOST_ROWS];
    for (size_t i = 0; i < MOST_ROWS; i++) {
        struct row row = random_row(n);
        values[i] = row.value;
        cares[i] = row.care;
    }
    int32_t length = rows_write(n, values, rows, cares, rows, file, LONGEST);
    int32_t answer = rows_read(file, length < 0 ? 0 : (size_t)length, read_values, rows, read_cares, rows);
    int same = answer == 100000 * (int32_t)n + (int32_t)rows && memcmp(values, read_values, rows) == 0 && memcmp(cares, read_cares, rows) == 0;
    expect(same, "a list of width %zu with %zu rows, written and read: %d", n, rows, answer);
}

/* A random file of this width and number of rows, read and written, is as it was. */
static void read_and_write(size_t n, size_t rows) {
    uint8_t file[ROOM], values[MOST_ROWS], cares[MOST_ROWS], written[LONGEST];
    size_t bytes = 2 + 2 * rows;
    fill(file, n, rows, 0);
    int32_t answer = rows_read(file, bytes, values, MOST_ROWS, cares, MOST_ROWS);
    size_t width = answer < 0 ? 0 : (size_t)answer / 100000, count = answer < 0 ? 0 : (size_t)answer % 100000;
    int32_t length = rows_write(width, values, count, cares, count, written, LONGEST);
    expect(length == (int32_t)bytes && memcmp(file, written, bytes) == 0, "a file of width %zu with %zu rows, read and written: %d", n, rows, length);
}

/* Both ways round, at every width and for every number of rows. */
void round_trips(void) {
    for (size_t n = 1; n <= WIDEST; n++) {
        for (size_t rows = 0; rows <= MOST_ROWS; rows++) {
            write_and_read(n, rows);
            read_and_write(n, rows);
        }
    }
}
