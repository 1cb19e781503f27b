/* rows.h: the row builder for C. It makes the rows by which a switch chip picks packet marks.
 *
 * Link with libinstaller.a, which `make target/staticlib/libinstaller.a` writes. Of the C library it
 * uses memcpy, memmove, memset and memcmp at most. examples/install.c and examples/read.c are clients
 * to copy.
 *
 * Words
 *
 *   width         n, the number of bits of a code: 1 to 6
 *   code          a packet mark: a number from 0 to 2^n - 1
 *   table         2^n cells, one for each code from code 0 up: 0 barred, 1 wanted, 2 free
 *   row           a value and a care. It matches the codes c with (c & care) == value, so care has a
 *                 one at each bit that is tested. It is formed when care is below 2^n and value has
 *                 no one outside care
 *   list          rows in two arrays of the same length: row i is values[i] with cares[i]. It matches
 *                 a code when one of its rows does. It may be empty, and a row may be repeated
 *   keep-out list a list that matches every barred code and no wanted one
 *   cube number   a formed row as one number, of n base-3 digits, the highest bit's first: 0 the bit
 *                 must be 0, 1 it must be 1, 2 it is not tested. From 0 to 3^n - 1
 *   prime         a cube that matches no barred code, such that no cube with fewer tested bits that
 *                 matches no barred code matches everything that it matches
 *   essential     a prime that alone of all primes matches some wanted code
 *
 * A prime may match free codes alone. Then it serves nobody, and is not listed.
 *
 * Memory
 *
 * The caller owns all memory. An array is lent for the call only. It has at least the length that is
 * stated with it, which counts places and not bytes. It does not overlap another lent array (the two
 * bytes of rows_spell must be distinct), and it is not NULL: for a length of 0, any other aligned
 * address will do. A call touches no other memory of the caller, keeps nothing and allocates nothing,
 * so threads may call at the same time, each with its own arrays.
 *
 * A call needs stack: allow rows_plan, rows_keep_out and rows_better 1 MB. The most that was measured on
 * x86-64, from the caller's frame down, is 85 KB for these three, 8 KB for rows_essentials, 4 KB for
 * rows_chart, 240 bytes for rows_essentials_by_neighbours and 2 KB for the other calls. No bound is
 * proved.
 *
 * Answers
 *
 * An answer of 0 or more is a success, and means what is stated with each call. The call fills places
 * from the first one on; those after them are unchanged.
 *
 * A negative answer is a refusal. It is minus one of these numbers, and then no lent byte is changed:
 *
 *   1   the width is not 1 to 6
 *   2   the table does not have 2^n cells
 *   3   a cell is above 2
 *   4   an array to be filled is too short
 *   5   values and cares differ in length
 *   6   there are more than 255 rows
 *   7   a row is not formed
 *   8   the cube number is 3^n or more
 *  10   the list file has fewer than 2 bytes, or not the 2 + 2 * rows that its byte 1 asks for
 *
 * A call refuses for the numbers named with it and for nothing else. They are named in the order in
 * which they are tested: where several hold, the one named first is answered.
 */
#ifndef ROWS_H
#define ROWS_H

#include <stddef.h>
#include <stdint.h>

#ifdef __cplusplus
extern "C" {
#endif

/* The row of a cube: its value goes into *value, its care into *care.
 *
 * Answers 0.
 * Refuses 1, 8.
 */
int32_t rows_spell(size_t n, size_t cube, uint8_t *value, uint8_t *care);

/* The codes that a cube matches, ascending, into the first places of codes.
 *
 * Answers how many there are.
 * Refuses 1, 8, then 4 when codes_len is below 2^n, even if fewer codes match.
 */
int32_t rows_cells(size_t n, size_t cube, uint8_t *codes, size_t codes_len);

/* The cube numbers of the primes of the table that match a wanted code, ascending, into the first places
 * of cubes.
 *
 * Answers how many there are.
 * Refuses 1, 2, 3, then 4 when cubes_len is below 3^n, even if there are fewer primes.
 */
int32_t rows_primes(size_t n, const uint8_t *table, size_t table_len, uint16_t *cubes, size_t cubes_len);

/* A row of the chart: the cube number of a prime, the wanted codes that it matches, and how many bits it
 * tests. Bit c of word stands for code c; it is 0 where c is free or barred. Some bit of it is 1.
 */
struct rows_chart_row {
    uint16_t cube;
    uint64_t word;
    uint8_t literals;
};

/* The chart of the table, a row for each prime that matches a wanted code, ascending by cube number, into
 * the first places of rows.
 *
 * Answers how many there are.
 * Refuses 1, 2, 3, then 4 when rows_len is below 3^n, even if there are fewer primes.
 */
int32_t rows_chart(size_t n, const uint8_t *table, size_t table_len, struct rows_chart_row *rows,
                   size_t rows_len);

/* The cube numbers of the essential primes of the table, ascending, into the first places of cubes.
 *
 * Answers how many there are.
 * Refuses 1, 2, 3, then 4 when cubes_len is below 3^n, as rows_primes does.
 */
int32_t rows_essentials(size_t n, const uint8_t *table, size_t table_len, uint16_t *cubes, size_t cubes_len);

/* What rows_essentials does, for tools with little memory: the answers, the refusals and the places afterwards
 * are the same for every table, and there is no chart. It looks at the neighbours of each wanted code, which
 * differ from it in one bit.
 */
int32_t rows_essentials_by_neighbours(size_t n, const uint8_t *table, size_t table_len, uint16_t *cubes,
                                      size_t cubes_len);

/* A shortest list for the table, ascending by cube number, into the first places of values and cares.
 * It matches every wanted code and no barred one. No list that does so has fewer rows, and none with as
 * many rows tests fewer bits. Which of several equally good lists is written is left open.
 *
 * Answers 10000 * rows + tested bits, summed over the rows: rows is answer / 10000, tested bits is
 * answer % 10000. There are never more than 2^(n-1) rows.
 * Refuses 1, 2, 3, then 4 when values_len or cares_len is below 2^(n-1), even if there are fewer rows.
 */
int32_t rows_plan(size_t n, const uint8_t *table, size_t table_len, uint8_t *values, size_t values_len,
                  uint8_t *cares, size_t cares_len);

/* A shortest keep-out list for the table, for chips that pass everything except what a row matches. It is
 * written as rows_plan writes its list, with wanted and barred exchanged: it matches every barred code and
 * no wanted one. No list that does so has fewer rows, and none with as many rows tests fewer bits. Which
 * of several equally good lists is written is left open.
 *
 * Answers and refuses as rows_plan does.
 */
int32_t rows_keep_out(size_t n, const uint8_t *table, size_t table_len, uint8_t *values, size_t values_len,
                      uint8_t *cares, size_t cares_len);

/* The better of both kinds: builds a shortest list, as rows_plan does, and a shortest keep-out list, as
 * rows_keep_out does, and writes the one that has fewer rows, or as many rows and fewer tested bits. Where
 * both counts are equal, the ordinary one is written. Places after the list are as they were before the
 * call.
 *
 * Answers 10000 * rows + tested bits of the list that is written, and 100000000 more if it is the keep-out
 * list: answer / 100000000 is 1 for the keep-out list and 0 for the ordinary one, and answer % 100000000
 * is read as that of rows_plan.
 * Refuses as rows_plan does.
 */
int32_t rows_better(size_t n, const uint8_t *table, size_t table_len, uint8_t *values, size_t values_len,
                    uint8_t *cares, size_t cares_len);

/* Whether a list matches every wanted code of the table and no barred one. Changes nothing.
 *
 * Answers 0 if it does. Otherwise the lowest wrong code is named: 1 + code if it is wanted and not
 * matched, 257 + code if it is barred and matched.
 * Refuses 1, 2, 3, 5, 6, 7.
 */
int32_t rows_check(size_t n, const uint8_t *table, size_t table_len, const uint8_t *values,
                   size_t values_len, const uint8_t *cares, size_t cares_len);

/* The list file of a list, into the first bytes of file: byte 0 the width, byte 1 the number of rows,
 * then all values, then all cares.
 *
 * Answers the length of the list file, 2 + 2 * rows: at most 512.
 * Refuses 1, 5, 6, 7, then 4 when file_len is below that length.
 */
int32_t rows_write(size_t n, const uint8_t *values, size_t values_len, const uint8_t *cares,
                   size_t cares_len, uint8_t *file, size_t file_len);

/* The list of a list file, into the first places of values and cares: a row for each row of the file, in
 * its order. What rows_write wrote comes back as it was, and writing what was read gives the same file.
 *
 * Answers 100000 * width + rows: width is answer / 100000, rows is answer % 100000, at most 255.
 * Refuses 10, 1, 7, then 4 when values_len or cares_len is below rows. Here 1 is about byte 0 of the
 * file, which is its width.
 */
int32_t rows_read(const uint8_t *file, size_t file_len, uint8_t *values, size_t values_len, uint8_t *cares,
                  size_t cares_len);

#ifdef __cplusplus
}
#endif

#endif
