#include "meanings.h"

size_t power(size_t base, size_t exponent) {
    size_t product = 1;
    for (size_t i = 0; i < exponent; i++) {
        product *= base;
    }
    return product;
}

unsigned ones(uint64_t word) {
    unsigned count = 0;
    for (; word != 0; word >>= 1) {
        count += word & 1;
    }
    return count;
}

int formed(size_t n, struct row row) { return row.care < power(2, n) && (row.value & ~row.care) == 0; }

int matches(struct row row, size_t code) { return (code & row.care) == row.value; }

/* xn, of weight 1, has the last digit. */
struct row row_of(size_t n, size_t cube) {
    struct row row = {0, 0};
    for (size_t weight = 1; weight < power(2, n); weight *= 2, cube /= 3) {
        row.value = (uint8_t)(row.value + (cube % 3 == 1 ? weight : 0));
        row.care = (uint8_t)(row.care + (cube % 3 != 2 ? weight : 0));
    }
    return row;
}

size_t cube_of(size_t n, struct row row) {
    size_t cube = 0;
    for (size_t weight = power(2, n) / 2; weight > 0; weight /= 2) {
        cube = 3 * cube + ((row.care & weight) == 0 ? 2 : (row.value & weight) != 0);
    }
    return cube;
}

uint64_t codes_of(size_t n, size_t cube) {
    struct row row = row_of(n, cube);
    uint64_t codes = 0;
    for (size_t code = 0; code < power(2, n); code++) {
        codes |= (uint64_t)matches(row, code) << code;
    }
    return codes;
}

/* The codes whose cell is this one. */
static uint64_t codes_with(size_t n, const uint8_t *table, uint8_t cell) {
    uint64_t codes = 0;
    for (size_t code = 0; code < power(2, n); code++) {
        codes |= (uint64_t)(table[code] == cell) << code;
    }
    return codes;
}

/* The codes and the tested bits of every cube of a width, found once. */
struct cubes {
    int known;
    uint64_t codes[MOST_CUBES];
    unsigned tested[MOST_CUBES];
};

static const struct cubes *all_cubes(size_t n) {
    static struct cubes widths[WIDEST + 1];
    struct cubes *cubes = &widths[n];
    for (size_t q = 0; !cubes->known && q < power(3, n); q++) {
        cubes->codes[q] = codes_of(n, q);
        cubes->tested[q] = ones(row_of(n, q).care);
    }
    cubes->known = 1;
    return cubes;
}

size_t find_primes(size_t n, const uint8_t *table, struct term *primes) {
    const struct cubes *cubes = all_cubes(n);
    uint64_t barred = codes_with(n, table, 0), wanted = codes_with(n, table, 1);
    size_t end = power(3, n), count = 0;
    for (size_t q = 0; q < end; q++) {
        int prime = (cubes->codes[q] & barred) == 0;
        for (size_t p = 0; prime && p < end; p++) {
            int implicant = (cubes->codes[p] & barred) == 0, all_of_q = (cubes->codes[q] & ~cubes->codes[p]) == 0;
            prime = !(implicant && all_of_q && cubes->tested[p] < cubes->tested[q]);
        }
        if (prime) {
            primes[count++] = (struct term){(uint16_t)q, cubes->codes[q] & wanted, (uint8_t)cubes->tested[q], 0};
        }
    }
    for (size_t i = 0; i < count; i++) {
        uint64_t others = 0;
        for (size_t j = 0; j < count; j++) {
            others |= j == i ? 0 : primes[j].wanted;
        }
        primes[i].essential = (primes[i].wanted & ~others) != 0;
    }
    return count;
}

size_t find_serving(size_t n, const uint8_t *table, struct term *primes) {
    size_t all = find_primes(n, table, primes), count = 0;
    for (size_t i = 0; i < all; i++) {
        if (primes[i].wanted != 0) {
            primes[count++] = primes[i];
        }
    }
    return count;
}

static int list_matches(const uint8_t *values, const uint8_t *cares, size_t rows, size_t code) {
    for (size_t i = 0; i < rows; i++) {
        if (matches((struct row){values[i], cares[i]}, code)) {
            return 1;
        }
    }
    return 0;
}

int32_t verdict(size_t n, const uint8_t *table, const uint8_t *values, const uint8_t *cares, size_t rows) {
    for (size_t code = 0; code < power(2, n); code++) {
        int hit = list_matches(values, cares, rows, code);
        if (table[code] == 1 && !hit) {
            return 1 + (int32_t)code;
        }
        if (table[code] == 0 && hit) {
            return 257 + (int32_t)code;
        }
    }
    return 0;
}

int keeps_out(size_t n, const uint8_t *table, const uint8_t *values, const uint8_t *cares, size_t rows) {
    for (size_t code = 0; code < power(2, n); code++) {
        int hit = list_matches(values, cares, rows, code);
        if ((table[code] == 0 && !hit) || (table[code] == 1 && hit)) {
            return 0;
        }
    }
    return 1;
}

int32_t better_of(int32_t plan, int32_t keep_out) {
    int32_t more_rows = plan / 10000 - keep_out / 10000, more_bits = plan % 10000 - keep_out % 10000;
    return more_rows > 0 || (more_rows == 0 && more_bits > 0) ? KEPT_OUT + keep_out : plan;
}

uint64_t random_word(void) {
    static uint64_t state = 88172645463325252u;
    state ^= state << 13;
    state ^= state >> 7;
    state ^= state << 17;
    return state;
}

size_t random_below(size_t n) { return (size_t)(random_word() >> 33) % n; }

void random_table(size_t n, uint8_t *table, size_t wanted, size_t free) {
    for (size_t code = 0; code < power(2, n); code++) {
        size_t draw = random_below(8);
        table[code] = draw < wanted ? 1 : draw < wanted + free ? 2 : 0;
    }
}
