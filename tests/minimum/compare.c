/* Compares the lists that rows_plan writes with what independent programs find, which share no code with it and are meant to be obviously right:
 *   - for every table of widths 1, 2 and 3, by trying every set of at most 2^(n-1) cubes;
 *   - for random tables of widths 1 to 6 with at most 16 wanted codes, by the sets of wanted codes;
 *   - for the tables of the files given, whose rows and bits are known, each within the given number of seconds of processor time.
 * rows_keep_out must find the same for the table with wanted and barred exchanged, and rows_better must write the better of what the two write for one table.
 * Each list is tried on all codes, and checked by rows_check. All this is done with the stack that rows.h asks for, 1 MB, and memory behind it that nobody may
 * touch. Prints each failure, and at the end 'N passed, 0 failed'.
 *
 *     compare FILE COUNT SECONDS ..       files of tables, how many tables each has, and the time for one call */
#include <pthread.h>
#include <stdio.h>
#include <stdlib.h>
#include <string.h>
#include <time.h>

#include "../meanings.h"
#include "rows.h"

static long passed, failed;

static void count(int ok, const char *call, const char *what, size_t n, const uint8_t *table) {
    if (ok) {
        passed++;
        return;
    }
    failed++;
    printf("%s: %s: %zu ", call, what, n);
    for (size_t c = 0; c < power(2, n); c++) {
        putchar("01-"[table[c]]);
    }
    putchar('\n');
}

/* The implicants of a table that match a wanted code, each with the set of those that it matches, the lowest wanted code first, and its tested bits. */
struct implicant {
    uint64_t wanted;
    int32_t bits;
};

static struct implicant implicants[MOST_CUBES];
static size_t implicant_count, wanted_count;

static void list_implicants(size_t n, const uint8_t *table) {
    implicant_count = 0;
    for (size_t q = 0; q < power(3, n); q++) {
        struct row row = row_of(n, q);
        struct implicant i = {0, (int32_t)ones(row.care)};
        int barred = 0;
        wanted_count = 0;
        for (size_t c = 0, end = power(2, n); c < end; c++) {
            uint64_t hit = (uint64_t)matches(row, c);
            barred |= hit && table[c] == 0;
            if (table[c] == 1) {
                i.wanted |= hit << wanted_count++;
            }
        }
        if (!barred && i.wanted != 0) {
            implicants[implicant_count++] = i;
        }
    }
}

/* 10000 * rows + bits of the best list, by the sets of wanted codes, of which there are few: the lowest code that is left takes an implicant. */
enum { MOST_WANTED = 16 };

static int32_t by_sets(void) {
    static int32_t best[1 << MOST_WANTED];
    best[0] = 0;
    for (uint64_t left = 1; left < (uint64_t)1 << wanted_count; left++) {
        uint64_t low = left & -left;
        int32_t least = INT32_MAX;
        for (size_t i = 0; i < implicant_count; i++) {
            if (implicants[i].wanted & low) {
                int32_t with = best[left & ~implicants[i].wanted] + 10000 + implicants[i].bits;
                least = with < least ? with : least;
            }
        }
        best[left] = least;
    }
    return best[((uint64_t)1 << wanted_count) - 1];
}

/* The same, by trying every set of at most `most` implicants from one on, with `left` the wanted codes that are not matched yet. */
static int32_t by_trying(size_t from, size_t most, uint64_t left) {
    if (left == 0) {
        return 0;
    }
    int32_t least = INT32_MAX / 2;
    for (size_t i = from; most > 0 && i < implicant_count; i++) {
        int32_t with = 10000 + implicants[i].bits + by_trying(i + 1, most - 1, left & ~implicants[i].wanted);
        least = with < least ? with : least;
    }
    return least;
}

static double slowest;

static double seconds(void) {
    struct timespec now;
    clock_gettime(CLOCK_PROCESS_CPUTIME_ID, &now);
    return (double)now.tv_sec + 1e-9 * (double)now.tv_nsec;
}

static void exchange(size_t n, const uint8_t *table, uint8_t *exchanged) {
    for (size_t c = 0; c < power(2, n); c++) {
        exchanged[c] = table[c] == 2 ? 2 : 1 - table[c];
    }
}

/* What a call answered, and both arrays. Before the call they hold 200 and up, which are no values and no cares. */
struct list {
    int32_t answer;
    uint8_t values[MOST_CODE_PAIRS], cares[MOST_CODE_PAIRS];
};

static struct list build(building *call, size_t n, const uint8_t *table) {
    struct list list;
    for (size_t i = 0; i < MOST_CODE_PAIRS; i++) {
        list.values[i] = list.cares[i] = (uint8_t)(200 + i);
    }
    double start = seconds();
    list.answer = call(n, table, power(2, n), list.values, power(2, n - 1), list.cares, power(2, n - 1));
    double took = seconds() - start;
    slowest = took > slowest ? took : slowest;
    return list;
}

/* The number of a shortest list where no program has found it. */
enum { UNKNOWN = -1 };

/* A list that rows_plan or rows_keep_out writes for a table: it must have this number, be right, and be formed, and what is behind it must be as it was. */
static struct list shortest(int keep_out, size_t n, const uint8_t *table, int32_t number) {
    const char *call = keep_out ? "rows_keep_out" : "rows_plan";
    struct list list = build(keep_out ? rows_keep_out : rows_plan, n, table);
    size_t pairs = power(2, n - 1);
    count(list.answer >= 0 && (number == UNKNOWN || list.answer == number), call, "another number of rows and bits", n, table);
    count(list.answer / 10000 <= (int32_t)pairs, call, "more rows than pairs of codes", n, table);
    size_t rows = list.answer < 0 || list.answer / 10000 > (int32_t)pairs ? 0 : (size_t)list.answer / 10000;
    int32_t bits = 0;
    for (size_t i = 0; i < rows; i++) {
        bits += (int32_t)ones(list.cares[i]);
    }
    int kept = 1;
    for (size_t i = rows; i < MOST_CODE_PAIRS; i++) {
        kept = kept && list.values[i] == 200 + i && list.cares[i] == 200 + i;
    }
    uint8_t exchanged[MOST_CODES];
    exchange(n, table, exchanged);
    int right = keep_out ? keeps_out(n, table, list.values, list.cares, rows) : verdict(n, table, list.values, list.cares, rows) == 0;
    int32_t checked = rows_check(n, keep_out ? exchanged : table, power(2, n), list.values, rows, list.cares, rows);
    count(list.answer >= 0 && bits == list.answer % 10000, call, "other bits than answered", n, table);
    count(kept, call, "a place behind the list is changed", n, table);
    count(right, call, "a list that is not right", n, table);
    count(checked == 0, call, "a list that Check does not pass", n, table);
    return list;
}

/* Both lists of a table, with these numbers, and the better of them: rows_better must answer and write what the call that writes it does, and nothing else. */
static void both(size_t n, const uint8_t *table, int32_t number, int32_t keep_out_number) {
    struct list plan = shortest(0, n, table, number), keep_out = shortest(1, n, table, keep_out_number), better = build(rows_better, n, table);
    int32_t answer = better_of(plan.answer, keep_out.answer);
    const struct list *list = answer < KEPT_OUT ? &plan : &keep_out;
    int same = memcmp(better.values, list->values, MOST_CODE_PAIRS) == 0 && memcmp(better.cares, list->cares, MOST_CODE_PAIRS) == 0;
    count(better.answer == answer, "rows_better", "another answer", n, table);
    count(same, "rows_better", "other arrays", n, table);
}

/* A table whose shortest list has this number, and the same with wanted and barred exchanged, whose shortest list has the other: rows_plan on the one and
 * rows_keep_out on the other, and both lists of the one and of the other in turn. */
static void compare_table(size_t n, const uint8_t *table, int32_t number, int32_t other) {
    static int turn;
    uint8_t exchanged[MOST_CODES];
    exchange(n, table, exchanged);
    turn = !turn;
    if (turn) {
        both(n, table, number, other);
        shortest(1, n, exchanged, number);
    } else {
        both(n, exchanged, other, number);
        shortest(0, n, table, number);
    }
}

/* The number of a shortest list, for a table of a small width. */
static int32_t least_by_trying(size_t n, const uint8_t *table) {
    list_implicants(n, table);
    return by_trying(0, power(2, n - 1), ((uint64_t)1 << wanted_count) - 1);
}

static void all_tables(size_t n) {
    uint8_t table[8], exchanged[8];
    for (size_t number = 0; number < power(3, power(2, n)); number++) {
        for (size_t c = 0, rest = number; c < power(2, n); c++, rest /= 3) {
            table[c] = (uint8_t)(rest % 3);
        }
        exchange(n, table, exchanged);
        both(n, table, least_by_trying(n, table), least_by_trying(n, exchanged));
    }
}

/* The number of a shortest list, for a table with at most MOST_WANTED wanted codes. */
static int32_t least_by_sets(size_t n, const uint8_t *table) {
    list_implicants(n, table);
    return wanted_count > MOST_WANTED ? UNKNOWN : by_sets();
}

/* Random tables with at most `most` wanted codes. */
static void random_tables(size_t n, size_t tables, size_t most) {
    uint8_t table[MOST_CODES], exchanged[MOST_CODES];
    for (size_t t = 0; t < tables; t++) {
        random_table(n, table, 0, random_below(7));
        for (size_t i = 0; i < most; i++) {
            table[random_below(power(2, n))] = 1;
        }
        exchange(n, table, exchanged);
        compare_table(n, table, least_by_sets(n, table), least_by_sets(n, exchanged));
    }
}

/* A line of a file of tables: width, cells, rows, bits. Returns whether it has that form. */
static int known_table(const char *line) {
    char cells[MOST_CODES + 1], more;
    uint8_t table[MOST_CODES];
    size_t n;
    int rows, bits;
    if (sscanf(line, "%zu %64s %d %d %c", &n, cells, &rows, &bits, &more) != 4 || n < 1 || n > WIDEST) {
        return 0;
    }
    if (strlen(cells) != power(2, n) || strspn(cells, "01-") != power(2, n)) {
        return 0;
    }
    for (size_t c = 0; c < power(2, n); c++) {
        table[c] = (uint8_t)(cells[c] == '-' ? 2 : cells[c] - '0');
    }
    compare_table(n, table, 10000 * rows + bits, UNKNOWN);
    return 1;
}

/* The tables of a file, of which there must be this many, no call slower than this. */
static void known_tables(const char *path, long expected, double most) {
    FILE *f = fopen(path, "r");
    if (f == NULL) {
        perror(path);
        exit(2);
    }
    char line[200];
    long tables = 0;
    slowest = 0;
    for (; fgets(line, sizeof line, f) != NULL; tables++) {
        if (!known_table(line)) {
            failed++;
            printf("%s: line %ld is not a table: %s", path, tables + 1, line);
        }
    }
    fclose(f);
    if (tables != expected || slowest > most) {
        failed++;
        printf("%s: %ld tables, expected %ld; the slowest took %.3f s, allowed %.3f s\n", path, tables, expected, slowest, most);
    } else {
        passed++;
    }
}

/* The arguments of the program, ended by NULL. */
static char **arguments;

static void *compare(void *unused) {
    for (size_t n = 1; n <= 3; n++) {
        all_tables(n);
    }
    for (size_t n = 1; n <= WIDEST; n++) {
        random_tables(n, 800, 11);
        random_tables(n, 100, 16);
    }
    for (char **file = arguments; *file != NULL; file += 3) {
        known_tables(file[0], atol(file[1]), atof(file[2]));
    }
    return unused;
}

int main(int argc, char **argv) {
    pthread_attr_t attributes;
    pthread_t thread;
    if (argc % 3 != 1) {
        fprintf(stderr, "usage: compare FILE COUNT SECONDS ..\n");
        return 2;
    }
    arguments = argv + 1;
    if (pthread_attr_init(&attributes) || pthread_attr_setstacksize(&attributes, 1 << 20) || pthread_attr_setguardsize(&attributes, 1 << 20) ||
        pthread_create(&thread, &attributes, compare, NULL) || pthread_join(thread, NULL)) {
        fprintf(stderr, "no thread\n");
        return 2;
    }
    printf("%ld passed, %ld failed\n", passed, failed);
    return failed != 0;
}
