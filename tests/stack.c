/* Runs another program, its main named called_main, on a thread, with each export of the archive called on a stack of its own: as
 * many bytes as the first argument says, below which lies a page that can't be touched. The other arguments are the program's.
 *
 * tests/stack makes the functions that move a call over, and links them in place of the exports. */
#define _GNU_SOURCE
#include <pthread.h>
#include <stdint.h>
#include <stdio.h>
#include <stdlib.h>
#include <string.h>
#include <sys/mman.h>
#include <unistd.h>

int called_main(int argc, char **argv);

/* Where a call's arguments go, with the stack below; the caller's stack while a call runs; and how many there were. */
uint8_t *small_stack;
void *caller_stack;
uint64_t small_calls = 0;

/* What no call leaves everywhere. */
#define PAINT 0xa5

static int count;
static char **words;

static void *on_thread(void *status) {
    *(int *)status = called_main(count, words);
    return NULL;
}

int main(int argc, char **argv) {
    size_t bytes = argc > 1 ? strtoul(argv[1], NULL, 10) : 0, page = (size_t)sysconf(_SC_PAGESIZE);
    if (bytes == 0 || bytes % 16 != 0)
        return 2;
    /* A page that can't be touched, the stack, and room for the arguments above it. */
    size_t open = (bytes + 16 * sizeof(uint64_t) + page - 1) / page * page;
    uint8_t *base = mmap(NULL, page + open, PROT_READ | PROT_WRITE, MAP_PRIVATE | MAP_ANONYMOUS, -1, 0);
    if (base == MAP_FAILED || mprotect(base, page, PROT_NONE) != 0)
        return 2;
    uint8_t *lowest = base + page;
    small_stack = lowest + bytes;
    memset(lowest, PAINT, bytes);

    argv[1] = argv[0], count = argc - 1, words = argv + 1;
    pthread_t thread;
    int status = 1;
    if (pthread_create(&thread, NULL, on_thread, &status) != 0 || pthread_join(thread, NULL) != 0)
        return 2;
    size_t untouched = 0;
    while (untouched < bytes && lowest[untouched] == PAINT)
        untouched++;
    printf("small stack: %lu calls, %lu bytes used\n", (unsigned long)small_calls, (unsigned long)(bytes - untouched));
    return status;
}
