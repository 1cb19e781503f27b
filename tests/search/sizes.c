/* The search for C: sizes that do not fit are refused with 2^64 - 1, and `effort` and what is beside it are left alone; 768 rows still fit. Prints each
 * failure, and at the end 'N passed, 0 failed'. */
#include <inttypes.h>
#include <stdio.h>

uint64_t minimum_cover(const uint64_t *words, size_t rows, const uint32_t *weights, size_t weights_len, uint64_t columns, uint64_t *effort);

enum { MOST_ROWS = 768, ROOM = 2000, SIDE = 4 };

static const uint64_t beside = 0xA5A5A5A5A5A5A5A5u;
static int passed, failed;

/* This many rows and this many weights must get this answer. Row i has column i % 64 and weighs 1000 + i. */
static void expect(size_t rows, size_t weights_len, uint64_t want) {
    static uint64_t words[ROOM], effort[SIDE + 2 + SIDE];
    static uint32_t weights[ROOM];
    uint64_t columns = 0;
    for (size_t i = 0; i < ROOM; i++) {
        words[i] = (uint64_t)1 << i % 64;
        weights[i] = (uint32_t)(1000 + i);
        columns |= i < rows ? words[i] : 0;
    }
    for (size_t i = 0; i < 2 * SIDE + 2; i++) {
        effort[i] = beside;
    }
    uint64_t answer = minimum_cover(words, rows, weights, weights_len, columns, effort + SIDE);
    int changed = 0;
    for (size_t i = 0; i < 2 * SIDE + 2; i++) {
        int lent = i == SIDE || i == SIDE + 1;
        changed += (want == UINT64_MAX || !lent) && effort[i] != beside;
    }
    if (answer == want && changed == 0) {
        passed++;
    } else {
        failed++;
        printf("%zu rows and %zu weights: %" PRIu64 ", expected %" PRIu64 ", and %d words changed\n", rows, weights_len, answer, want, changed);
    }
}

int main(void) {
    expect(0, 0, 0);
    expect(1, 1, 1000);
    expect(MOST_ROWS - 1, MOST_ROWS - 1, 64 * 1000 + 63 * 64 / 2);
    expect(MOST_ROWS, MOST_ROWS, 64 * 1000 + 63 * 64 / 2);
    expect(MOST_ROWS + 1, MOST_ROWS + 1, UINT64_MAX);
    expect(ROOM, ROOM, UINT64_MAX);
    expect(0, 1, UINT64_MAX);
    expect(1, 0, UINT64_MAX);
    expect(64, 63, UINT64_MAX);
    expect(64, 65, UINT64_MAX);
    expect(MOST_ROWS, MOST_ROWS + 1, UINT64_MAX);
    expect(MOST_ROWS + 1, MOST_ROWS, UINT64_MAX);
    printf("%d passed, %d failed\n", passed, failed);
    return failed != 0;
}
