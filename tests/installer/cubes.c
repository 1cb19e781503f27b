#include "client.h"

/* Cube numbers that would become other ones if bits were cut off, and the highest. */
static const size_t high[] = {65535, 65536, 65537, 4294967295, 4294967296, 4294967297, SIZE_MAX / 2, SIZE_MAX / 2 + 1, SIZE_MAX - 1, SIZE_MAX};

/* Spell and Cells at each width for the numbers from 0 to 999, which include every cube of every width, and for the high ones. */
void every_cube(void) {
    for (size_t i = 0; i < width_count; i++) {
        size_t n = widths[i];
        for (size_t cube = 0; cube < 1000; cube++) {
            try_spell(n, cube);
            try_cells(n, cube, codes(n));
        }
        for (size_t h = 0; h < LENGTH(high); h++) {
            try_spell(n, high[h]);
            try_cells(n, high[h], codes(n));
        }
    }
}

/* Cells with every number of places: for the first cubes, the last, one between, and numbers that are not cubes. */
void places_for_codes(void) {
    for (size_t i = 0; i < width_count; i++) {
        size_t n = widths[i];
        size_t tried[] = {0, 1, cubes(n) / 2, cubes(n) - 2, cubes(n) - 1, cubes(n), SIZE_MAX};
        for (size_t len = 0; len < codes(n) + 10; len++) {
            for (size_t q = 0; q < LENGTH(tried); q++) {
                try_cells(n, tried[q], len);
            }
        }
    }
}
