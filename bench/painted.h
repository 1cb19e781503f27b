/* How much stack a function needs: it runs in a thread whose stack was painted, and the bytes that were overwritten below its caller's frame are counted. What a
 * thread needs to start and to end is not among them. */
#include <pthread.h>
#include <stdlib.h>
#include <string.h>

#define STACK ((size_t)8 << 20)
#define PAINT 0xa5

struct painted {
    unsigned char *stack;
    void *(*work)(void *);
    size_t used;
};

static void *run_painted(void *of) {
    struct painted *p = of;
    unsigned char *frame = __builtin_frame_address(0);
    p->work(NULL);
    unsigned char *lowest = p->stack;
    while (lowest < frame && *lowest == PAINT) {
        lowest++;
    }
    p->used = (size_t)(frame - lowest);
    return of;
}

static size_t stack_of(void *(*work)(void *)) {
    struct painted p = {NULL, work, 0};
    pthread_attr_t attributes;
    pthread_t thread;
    if (posix_memalign((void **)&p.stack, 4096, STACK)) {
        exit(1);
    }
    memset(p.stack, PAINT, STACK);
    pthread_attr_init(&attributes);
    pthread_attr_setstack(&attributes, p.stack, STACK);
    if (pthread_create(&thread, &attributes, run_painted, &p)) {
        exit(1);
    }
    pthread_join(thread, NULL);
    free(p.stack);
    return p.used;
}
