/* From the list file for a board to its rows: reads the file, and prints a line for each row and then the width and the number of rows.
 *
 *     cc -Iinclude examples/read.c target/staticlib/libinstaller.a -o target/read && target/read target/rows.bin
 */
#include <stdio.h>
#include <rows.h>

/* The most rows of a list file, and the bytes of the longest one. */
enum { MOST_ROWS = 255, LONGEST = 2 + 2 * MOST_ROWS };

/* x1, the highest bit, comes first: 0 it must be 0, 1 it must be 1, - it is not tested. */
static void print_row(int width, uint8_t value, uint8_t care) {
    for (int bit = 1 << (width - 1); bit > 0; bit /= 2) {
        putchar((care & bit) == 0 ? '-' : (value & bit) == 0 ? '0' : '1');
    }
    putchar('\n');
}

int main(int argc, char **argv) {
    uint8_t values[MOST_ROWS], cares[MOST_ROWS], file[LONGEST + 1];
    if (argc != 2) {
        fprintf(stderr, "usage: read FILE\n");
        return 1;
    }

    FILE *in = fopen(argv[1], "rb");
    size_t length = in == NULL ? 0 : fread(file, 1, sizeof file, in);
    if (in == NULL || ferror(in)) {
        perror(argv[1]);
        return 1;
    }
    fclose(in);
    if (length > LONGEST) {
        fprintf(stderr, "%s: more than %d bytes\n", argv[1], LONGEST);
        return 1;
    }

    int32_t answer = rows_read(file, length, values, MOST_ROWS, cares, MOST_ROWS);
    if (answer < 0) {
        fprintf(stderr, "rows_read refused: %d\n", (int)answer);
        return 1;
    }
    int width = (int)answer / 100000, rows = (int)answer % 100000;
    for (int i = 0; i < rows; i++) {
        print_row(width, values[i], cares[i]);
    }
    printf("width %d, %d rows\n", width, rows);
    if (fflush(stdout) != 0 || ferror(stdout)) {
        perror("standard output");
        return 1;
    }
    return 0;
}
