/* A client of the library as the installer would write it. It tries every edge of document 01 through C, and of document 02 those of Read, of Plan's places and
 * of keep-out lists. Each answer, and every byte of lent memory, is compared with a few lines of C that share no code with the product (../meanings.c). Prints
 * each failure, and at the end 'N passed, 0 failed'. */
#include <stdio.h>

#include "client.h"

/* Some of the numbers that are not widths would be widths if bits were cut off. */
const size_t widths[] = {
    1, 2, 3, 4, 5, 6,
    0, 7, 8, 9, 32, 63, 64, 65, 255, 256, 257, 262, 65537, 65542, 4294967297, 4294967302,
    SIZE_MAX / 2, SIZE_MAX / 2 + 2, SIZE_MAX - 1, SIZE_MAX,
};
const size_t width_count = LENGTH(widths);

size_t width_or_6(size_t n) { return n < 1 || n > WIDEST ? WIDEST : n; }

size_t codes(size_t n) { return power(2, width_or_6(n)); }

size_t code_pairs(size_t n) { return codes(n) / 2; }

size_t cubes(size_t n) { return power(3, width_or_6(n)); }

int main(void) {
    setvbuf(stdout, NULL, _IOLBF, 0);
    edges();
    filled_places();
    free_codes();
    essentials_of_002();
    cases();
    long_arrays();
    every_cube();
    places_for_codes();
    every_small_table();
    random_tables();
    many_essentials();
    places_for_tables();
    refusals_of_tables();
    every_row();
    every_code();
    every_place();
    every_small_list();
    random_lists();
    planned_lists();
    refusals_of_check();
    refusals_of_write();
    every_small_file();
    every_row_of_a_file();
    random_files();
    refusals_of_read();
    round_trips();
    printf("%ld passed, %ld failed\n", passed, failed);
    return failed != 0;
}
