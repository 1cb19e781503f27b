/* From a provider's table to the list file for a board: plans the shortest list, checks it on every code, and writes the file.
 *
 *     cc -Iinclude examples/install.c target/staticlib/libinstaller.a -o target/install && target/install target/rows.bin
 */
#include <stdio.h>
#include <rows.h>

enum { WIDTH = 4, CODES = 1 << WIDTH, PLACES = CODES / 2 };

/* A cell for each code from 0 up: 0 barred, 1 wanted, 2 free. */
static const uint8_t table[CODES] = {0, 0, 0, 0, 0, 0, 0, 1, 0, 1, 1, 0, 1, 1, 1, 1};

static int fail(const char *what, int32_t answer) {
    fprintf(stderr, "%s: %d\n", what, (int)answer);
    return 1;
}

int main(int argc, char **argv) {
    uint8_t values[PLACES], cares[PLACES], file[2 + 2 * PLACES];
    if (argc != 2) {
        fprintf(stderr, "usage: install FILE\n");
        return 1;
    }

    int32_t planned = rows_plan(WIDTH, table, CODES, values, PLACES, cares, PLACES);
    if (planned < 0) {
        return fail("rows_plan refused", planned);
    }
    size_t rows = (size_t)planned / 10000;
    printf("%zu rows with %d tested bits\n", rows, (int)planned % 10000);

    int32_t checked = rows_check(WIDTH, table, CODES, values, rows, cares, rows);
    if (checked != 0) {
        return fail("rows_check found a wrong code or refused", checked);
    }
    printf("every wanted code is matched, and no barred one\n");

    int32_t length = rows_write(WIDTH, values, rows, cares, rows, file, sizeof file);
    if (length < 0) {
        return fail("rows_write refused", length);
    }
    FILE *out = fopen(argv[1], "wb");
    if (out == NULL || fwrite(file, 1, (size_t)length, out) != (size_t)length || fclose(out) != 0) {
        perror(argv[1]);
        return 1;
    }
    printf("%d bytes in %s\n", (int)length, argv[1]);
    return 0;
}
