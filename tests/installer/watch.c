#include <signal.h>
#include <stdarg.h>
#include <stdio.h>
#include <stdlib.h>
#include <string.h>
#include <sys/mman.h>
#include <unistd.h>

#include "client.h"

long passed, failed;
const char *calling = "the client";

void expect(int ok, const char *what, ...) {
    if (ok) {
        passed++;
        return;
    }
    failed++;
    va_list words;
    va_start(words, what);
    vprintf(what, words);
    va_end(words);
    putchar('\n');
}

/* The bytes beside an array that are compared. */
enum { SIDE = 256, PAGE = 4096, ROOM = 5 * PAGE };

struct watched {
    uint8_t *room; /* ROOM bytes between two pages that nobody may touch */
    uint8_t *array, *from;
    size_t bytes;
    uint8_t before[SIDE + MOST_BYTES];
};

static struct watched memory[ARRAYS];

static void outside(int signal) {
    static const char words[] = " touched memory that was not lent\n";
    (void)signal;
    if (write(STDOUT_FILENO, calling, strlen(calling)) < 0 || write(STDOUT_FILENO, words, sizeof words - 1) < 0) {
        _exit(2);
    }
    _exit(1);
}

static void prepare(struct watched *w) {
    uint8_t *pages = mmap(NULL, PAGE + ROOM + PAGE, PROT_NONE, MAP_PRIVATE | MAP_ANONYMOUS, -1, 0);
    if (pages == MAP_FAILED || mprotect(pages + PAGE, ROOM, PROT_READ | PROT_WRITE) != 0) {
        perror("mmap");
        exit(2);
    }
    w->room = pages + PAGE;
    signal(SIGSEGV, outside);
    signal(SIGBUS, outside);
}

void *lend(size_t which, const void *contents, size_t bytes) {
    struct watched *w = &memory[which];
    if (w->room == NULL) {
        prepare(w);
    }
    int at_end = (int)random_below(2);
    w->array = at_end ? w->room + ROOM - bytes : w->room;
    w->from = at_end ? w->array - SIDE : w->array;
    w->bytes = bytes;
    memset(w->from, 0xA5, SIDE + bytes);
    if (bytes > 0) {
        memcpy(w->array, contents, bytes);
    }
    memcpy(w->before, w->from, SIDE + bytes);
    return w->array;
}

void *lend_random(size_t which, size_t bytes) {
    static uint8_t contents[MOST_BYTES];
    for (size_t i = 0; i < bytes; i++) {
        contents[i] = (uint8_t)random_word();
    }
    return lend(which, contents, bytes);
}

int kept(size_t which, size_t used) {
    const struct watched *w = &memory[which];
    size_t front = (size_t)(w->array - w->from);
    return memcmp(w->from, w->before, front) == 0 && memcmp(w->array + used, w->before + front + used, SIDE + w->bytes - front - used) == 0;
}
