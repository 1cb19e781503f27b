/* The stack that rows_essentials_by_neighbours needs: at most LIMIT bytes at every width, where rows_essentials needs thousands. Tables of each share of wanted and
 * free codes in eighths are tried. Prints each failure, and at the end 'N passed, 0 failed'. */
#include <stdio.h>

#include "../../bench/painted.h"
#include "../meanings.h"
#include "rows.h"

enum { LIMIT = 512, TABLES = 200 };

typedef int32_t listing(size_t n, const uint8_t *table, size_t table_len, uint16_t *cubes, size_t cubes_len);

static size_t n, wanted;
static listing *call;

static void *list_all(void *unused) {
    static uint8_t table[MOST_CODES];
    static uint16_t cubes[MOST_CUBES];
    for (size_t t = 0; t < TABLES; t++) {
        random_table(n, table, wanted, t % (9 - wanted));
        call(n, table, power(2, n), cubes, MOST_CUBES);
    }
    return unused;
}

int main(void) {
    int passed = 0, failed = 0;
    for (n = 1; n <= WIDEST; n++) {
        for (wanted = 0; wanted <= 8; wanted++) {
            call = rows_essentials_by_neighbours;
            size_t used = stack_of(list_all);
            call = rows_essentials;
            size_t by_chart = stack_of(list_all);
            if (used <= LIMIT && by_chart > 4 * LIMIT) {
                passed++;
            } else {
                failed++;
                printf("width %zu, %zu of eight codes wanted: %zu bytes of stack by neighbours, %zu by chart\n", n, wanted, used, by_chart);
            }
        }
    }
    printf("%d passed, %d failed\n", passed, failed);
    return failed != 0;
}
