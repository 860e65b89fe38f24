/* Calls every function of the header, knowing no more of it than its declarations, which tests/boundary hands over as the table
 * `exports`: any lengths, NULL where a length is 0, any values, and slices at every address that their type allows.
 *
 *     boundary ROUNDS SEED             each call is made twice, at other addresses: what it answers and writes must be the same,
 *                                      what is only read must stay, and nothing beside a slice may be touched
 *     boundary threads ROUNDS SEED     8 threads make the same calls at once, on buffers of their own and on one copy of what is
 *                                      only read, and must get what one thread gets
 *
 * Under valgrind the bytes beside a slice can't be touched at all. */
#include "razvolk.h"

#include <pthread.h>
#include <stdbool.h>
#include <stdio.h>
#include <stdlib.h>
#include <string.h>

#ifdef WITH_VALGRIND
#include <valgrind/memcheck.h>
#else
#define VALGRIND_MAKE_MEM_NOACCESS(start, bytes) ((void)(start), (void)(bytes))
#define VALGRIND_MAKE_MEM_DEFINED(start, bytes) ((void)(start), (void)(bytes))
#define VALGRIND_CHECK_MEM_IS_DEFINED(start, bytes) ((void)(start), (void)(bytes), 0)
#endif

#define MOST_PARAMETERS 16
#define MOST_WORDS 16
#define THREADS 8

/* A slice of elements of some bytes, lent to be read or to be written; a number of so many bytes; or a structure. */
typedef enum { READ, WRITTEN, NUMBER, STRUCTURE } kind;

typedef struct {
    kind is;
    size_t bytes;
} parameter;

typedef struct {
    const char *name;
    size_t count;
    parameter parameters[MOST_PARAMETERS];
    size_t words;                                              /* numbers in the answer */
    int number;                                                /* which of them is 0 if the call is done; -1 if none is */
    void (*call)(void **data, const uint64_t *values, uint64_t *words);
} export;

#include "exports.h"

#define EXPORTS (sizeof exports / sizeof *exports)

/* ---- Random numbers. */

static uint64_t state;

static uint64_t number(void) {
    state ^= state << 13;
    state ^= state >> 7;
    state ^= state << 17;
    return state * 0x2545f4914f6cdd1dULL >> 16;
}

static uint64_t below(uint64_t n) { return number() % n; }

/* Whether this call's values and lengths are from a few that fit each other. */
static bool plain;

/* Mostly small, often multiples of 16, now and then next to a limit that a size may have, or huge. */
static uint64_t any_value(size_t bytes) {
    static const uint64_t few[6] = {0, 1, 2, 16, 32, 32};
    uint64_t value;
    if (plain)
        return few[below(6)];
    switch (below(16)) {
    case 0:
        value = UINT64_MAX - below(3);
        break;
    case 1:
        value = (1ULL << below(20)) - 1 + below(3);
        break;
    case 2:
    case 3:
    case 4:
    case 5:
        value = 16 * below(6);
        break;
    case 6:
        value = number();
        break;
    default:
        value = below(below(2) == 0 ? 4 : 40);
    }
    return bytes == 8 ? value : value & ((1ULL << 8 * bytes) - 1);
}

static size_t any_length(void) {
    static const size_t few[6] = {0, 1, 2, 1000, 1000, 1000};
    if (plain)
        return few[below(6)];
    switch (below(8)) {
    case 0:
        return 0;
    case 1:
        return below(4);
    case 2:
    case 3:
        return below(60);
    case 4:
    case 5:
        return below(600);
    default:
        return below(9000);
    }
}

/* Zeros, a few random elements and then zeros, elements below a power of two, or any. */
static void fill(uint8_t *data, size_t length, size_t bytes) {
    size_t way = below(4), head = way == 0 ? 0 : way == 1 ? 1 + below(24) : length, bits = way == 2 ? below(8 * bytes) : 64;
    for (size_t i = 0; i < length; i++) {
        uint64_t value = i < head ? number() : 0;
        if (bits < 64)
            value &= (1ULL << bits) - 1;
        memcpy(data + i * bytes, &value, bytes);
    }
}

/* ---- A call: what is lent, and what came of it. */

typedef struct {
    const export *of;
    uint64_t values[MOST_PARAMETERS]; /* a number, or a slice's length in elements */
    uint8_t *before[MOST_PARAMETERS]; /* what a slice or structure holds at entry; NULL for no bytes */
    bool null[MOST_PARAMETERS];       /* a slice without elements that is NULL */
    uint8_t *after[MOST_PARAMETERS];
    uint64_t words[MOST_WORDS];
} call;

static size_t bytes_of(const call *c, size_t k) {
    const parameter *p = &c->of->parameters[k];
    return p->is == NUMBER ? 0 : p->is == STRUCTURE ? p->bytes : p->bytes * (size_t)c->values[k];
}

static void *memory(size_t bytes) {
    void *room = malloc(bytes > 0 ? bytes : 1);
    if (room == NULL)
        exit(2);
    return room;
}

static call any_call(const export *of) {
    call c;
    memset(&c, 0, sizeof c);
    c.of = of;
    plain = below(3) == 0;
    for (size_t k = 0; k < of->count; k++) {
        const parameter *p = &of->parameters[k];
        c.values[k] = p->is == NUMBER ? any_value(p->bytes) : p->is == STRUCTURE ? 0 : any_length();
        if (p->is == NUMBER)
            continue;
        c.null[k] = p->is != STRUCTURE && c.values[k] == 0 && below(2) == 0;
        c.before[k] = memory(bytes_of(&c, k));
        if (p->is == STRUCTURE)
            fill(c.before[k], p->bytes / 4, 4);
        else
            fill(c.before[k], c.values[k], p->bytes);
        c.after[k] = memory(bytes_of(&c, k));
    }
    return c;
}

static void forget(call *c) {
    for (size_t k = 0; k < c->of->count; k++)
        free(c->before[k]), free(c->after[k]);
}

/* ---- Slices at a place. */

/* Bytes beside a slice, of which none may be touched. */
#define BESIDE 64
#define UNTOUCHED 0x5a

typedef struct {
    uint8_t *base, *data;
    size_t bytes;
} slice;

static slice lend(const uint8_t *from, size_t bytes, size_t at) {
    slice lent = {memory(bytes + 3 * BESIDE + at), NULL, bytes};
    uint8_t *aligned = lent.base + BESIDE - (uintptr_t)lent.base % BESIDE;
    lent.data = aligned + BESIDE + at;
    memset(lent.base, UNTOUCHED, bytes + 3 * BESIDE + at);
    memcpy(lent.data, from, bytes);
    VALGRIND_MAKE_MEM_NOACCESS(lent.base, lent.data - lent.base);
    VALGRIND_MAKE_MEM_NOACCESS(lent.data + bytes, lent.base + 3 * BESIDE + at - lent.data);
    return lent;
}

/* Gives a slice back; whether the bytes beside it are as they were. */
static bool give_back(slice lent, size_t at) {
    size_t whole = lent.bytes + 3 * BESIDE + at, first = (size_t)(lent.data - lent.base);
    bool kept = true;
    VALGRIND_MAKE_MEM_DEFINED(lent.base, first);
    VALGRIND_MAKE_MEM_DEFINED(lent.data + lent.bytes, whole - first - lent.bytes);
    for (size_t i = 0; i < whole; i++)
        if (i < first || i >= first + lent.bytes)
            kept = kept && lent.base[i] == UNTOUCHED;
    free(lent.base);
    return kept;
}

static void fail(const call *c, const char *what) {
    printf("boundary: %s: %s\n", c->of->name, what);
    exit(1);
}

/* ---- Each call twice. */

/* The addresses, modulo 64, that each slice of each export has had. */
static bool tried[EXPORTS][MOST_PARAMETERS][BESIDE];
static unsigned long calls, done[EXPORTS], refused[EXPORTS];

/* Makes a call with each slice at its place; keeps what is written and answered in `after` and `words`. */
static void make(call *c, const size_t *places) {
    slice lent[MOST_PARAMETERS];
    void *data[MOST_PARAMETERS] = {NULL};
    for (size_t k = 0; k < c->of->count; k++) {
        if (c->of->parameters[k].is == NUMBER)
            continue;
        lent[k] = lend(c->before[k], bytes_of(c, k), places[k]);
        data[k] = c->null[k] ? NULL : lent[k].data;
    }
    c->of->call(data, c->values, c->words);
    calls++;
    if (VALGRIND_CHECK_MEM_IS_DEFINED(c->words, c->of->words * sizeof *c->words) != 0)
        fail(c, "the answer isn't set");
    for (size_t k = 0; k < c->of->count; k++) {
        if (c->of->parameters[k].is == NUMBER)
            continue;
        memcpy(c->after[k], lent[k].data, lent[k].bytes);
        if (!give_back(lent[k], places[k]))
            fail(c, "a byte beside a slice is changed");
        if (c->of->parameters[k].is == READ && memcmp(c->after[k], c->before[k], lent[k].bytes) != 0)
            fail(c, "a slice that is only read is changed");
    }
}

/* Places that go round all that a type allows, and others. */
static void places_of(const call *c, unsigned long round, size_t *places) {
    for (size_t k = 0; k < c->of->count; k++) {
        size_t step = c->of->parameters[k].is == STRUCTURE ? 8 : c->of->parameters[k].bytes;
        if (c->of->parameters[k].is == NUMBER)
            continue;
        places[k] = (size_t)(round == 0 ? below(BESIDE / step) : (round + k) % (BESIDE / step)) * step;
        tried[c->of - exports][k][places[k]] = true;
    }
}

static void twice(const export *of, unsigned long round) {
    size_t places[MOST_PARAMETERS] = {0};
    call c = any_call(of), first = c;
    for (size_t k = 0; k < of->count; k++)
        first.after[k] = of->parameters[k].is == NUMBER ? NULL : memory(bytes_of(&c, k));
    places_of(&c, round, places);
    make(&first, places);
    places_of(&c, 0, places);
    make(&c, places);
    if (memcmp(first.words, c.words, of->words * sizeof *c.words) != 0)
        fail(&c, "the same call answers something else");
    for (size_t k = 0; k < of->count; k++) {
        if (of->parameters[k].is == NUMBER)
            continue;
        if (memcmp(first.after[k], c.after[k], bytes_of(&c, k)) != 0)
            fail(&c, "the same call writes something else");
        free(first.after[k]);
    }
    if (of->number >= 0)
        ++*(c.words[of->number] == 0 ? &done[of - exports] : &refused[of - exports]);
    forget(&c);
}

static int boundary(unsigned long rounds) {
    for (unsigned long round = 1; round <= rounds; round++)
        for (size_t i = 0; i < EXPORTS; i++)
            twice(&exports[i], round);
    size_t places = 0, possible = 0;
    for (size_t i = 0; i < EXPORTS; i++) {
        if (exports[i].number >= 0)
            printf("  %s: %lu done, %lu refused\n", exports[i].name, done[i], refused[i]);
        for (size_t k = 0; k < exports[i].count; k++) {
            const parameter *p = &exports[i].parameters[k];
            for (size_t at = 0; (p->is == READ || p->is == WRITTEN) && at < BESIDE; at += p->bytes)
                places += tried[i][k][at], possible++;
        }
    }
    printf("boundary: %zu exports, %lu calls, slices at %zu of %zu places, ok\n", EXPORTS, calls, places, possible);
    return 0;
}

/* ---- Threads. */

static call *asked;
static size_t asked_count;

/* Makes every call that is asked, from one on, and compares it with what one thread got; returns the first that differs. */
static void *worker(void *start) {
    for (size_t i = 0; i < asked_count; i++) {
        const call *c = &asked[(*(size_t *)start + i) % asked_count];
        void *data[MOST_PARAMETERS] = {NULL};
        uint64_t words[MOST_WORDS];
        bool same = true;
        for (size_t k = 0; k < c->of->count; k++) {
            bool written = c->of->parameters[k].is == WRITTEN;
            data[k] = c->null[k] ? NULL : c->before[k];
            if (written && !c->null[k])
                data[k] = memcpy(memory(bytes_of(c, k)), c->before[k], bytes_of(c, k));
        }
        c->of->call(data, c->values, words);
        same = memcmp(words, c->words, c->of->words * sizeof *words) == 0;
        for (size_t k = 0; k < c->of->count; k++) {
            if (c->of->parameters[k].is != WRITTEN || data[k] == NULL)
                continue;
            same = same && memcmp(data[k], c->after[k], bytes_of(c, k)) == 0;
            free(data[k]);
        }
        if (!same)
            return (void *)c;
    }
    return NULL;
}

static int threads(unsigned long rounds) {
    size_t places[MOST_PARAMETERS] = {0}, start[THREADS];
    pthread_t each[THREADS];
    int status = 0;
    asked = memory(rounds * EXPORTS * sizeof *asked);
    for (size_t i = 0; i < rounds * EXPORTS; i++) {
        asked[i] = any_call(&exports[i % EXPORTS]);
        make(&asked[i], places);
    }
    asked_count = rounds * EXPORTS;
    for (size_t t = 0; t < THREADS; t++) {
        start[t] = t * asked_count / THREADS;
        if (pthread_create(&each[t], NULL, worker, &start[t]) != 0)
            return 2;
    }
    for (size_t t = 0; t < THREADS; t++) {
        void *differs = NULL;
        if (pthread_join(each[t], &differs) != 0)
            return 2;
        if (differs != NULL)
            printf("threads: %s: %d threads get something else than one\n", ((const call *)differs)->of->name, THREADS), status = 1;
    }
    for (size_t i = 0; i < asked_count; i++)
        forget(&asked[i]);
    free(asked);
    if (status == 0)
        printf("threads: %d at once, %zu calls of %zu exports each, all as one thread's\n", THREADS, asked_count, EXPORTS);
    return status;
}

int main(int argc, char **argv) {
    bool at_once = argc > 1 && strcmp(argv[1], "threads") == 0;
    argv += at_once;
    if (argc - at_once != 3)
        return 2;
    state = (uint64_t)strtoull(argv[2], NULL, 10) * 0x9e3779b97f4a7c15ULL + 0x5eed;
    return (at_once ? threads : boundary)(strtoul(argv[1], NULL, 10));
}
