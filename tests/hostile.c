/* Calls every decoder with streams that are random, written or damaged, with right and with short buffers, and holds it to what
 * can be told without a second decoder: the refusal among 1 to 4, 11 and 12, what each answer leaves, that the entries of one
 * decoder and all V0 decoders agree, that a sample without an old part is the same over any old samples, that one of a cut
 * stream with map byte 0 is final, and that a frame taken as clean has a map of zeros and misses no word. Calls the writer with
 * any samples, sizes and buffers, and holds it to its refusal, to the length that is worked out apart, and to the decoders, which
 * must give the samples back. Blanks frames by any map, and holds what is set, listed and exported to a plain loop. Calls V0 into
 * V2 likewise, and holds it to the V0 decoder, whose samples and map it must leave, and to the V2 decoder. Has streams checked as
 * if others had packed them, and holds the verdict to the decoder for clean frames and to the length that is worked out apart.
 *
 *     hostile [pages|heap [COUNT[s] [SEED]]]      COUNT rounds, or COUNT seconds; by itself: pages, 300 rounds
 *
 * With pages each lent slice touches a page that can't be read or written, at its end or at its start, and what is only read
 * can't be written: a function that leaves its slices ends the program. With heap each comes from malloc, and what map, scratch
 * and written stream hold at entry is not set, for valgrind. Half of the slices without elements are NULL. */
#define _DEFAULT_SOURCE
#include "razvolk.h"

#include <stdbool.h>
#include <stdio.h>
#include <stdlib.h>
#include <string.h>
#include <sys/mman.h>
#include <time.h>
#include <unistd.h>

/* The highest number that is answered. */
#define MOST_NUMBER 21

static bool heap = false;
static unsigned long rounds = 0, calls = 0, numbers[MOST_NUMBER + 1];

static void fail(const char *what) {
    printf("hostile: round %lu: %s\n", rounds, what);
    exit(1);
}

static void expect(bool holds, const char *what) {
    if (!holds)
        fail(what);
}

/* ---- Random numbers. */

static uint64_t state;

static uint64_t number(void) {
    state ^= state << 13;
    state ^= state >> 7;
    state ^= state << 17;
    return state * 0x2545f4914f6cdd1dULL >> 16;
}

static size_t below(size_t n) { return (size_t)(number() % n); }

static void scatter(uint8_t *bytes, size_t len) {
    for (size_t i = 0; i < len; i++)
        bytes[i] = (uint8_t)number();
}

/* ---- Lent slices. */

typedef struct {
    void *base; /* what is mapped or allocated */
    size_t size;
    uint8_t *data;
    size_t bytes;
} slice;

static slice lend(size_t bytes) {
    slice lent = {NULL, 0, NULL, bytes};
    if (bytes == 0 && below(2) == 0)
        return lent;
    if (heap) {
        lent.data = (uint8_t *)malloc(bytes > 0 ? bytes : 1);
        lent.base = lent.data;
        expect(lent.base != NULL, "there is memory");
        return lent;
    }
    size_t page = (size_t)sysconf(_SC_PAGESIZE), inner = (bytes + page - 1) / page * page;
    lent.size = inner + 2 * page;
    lent.base = mmap(NULL, lent.size, PROT_NONE, MAP_PRIVATE | MAP_ANONYMOUS, -1, 0);
    expect(lent.base != MAP_FAILED, "there is memory");
    uint8_t *start = (uint8_t *)lent.base + page;
    if (inner > 0)
        expect(mprotect(start, inner, PROT_READ | PROT_WRITE) == 0, "pages can be opened");
    lent.data = below(4) == 0 ? start : start + inner - bytes;
    return lent;
}

/* From here on it is only read. */
static void close_for_writing(slice lent) {
    size_t page = (size_t)sysconf(_SC_PAGESIZE);
    if (!heap && lent.size > 2 * page)
        expect(mprotect((uint8_t *)lent.base + page, lent.size - 2 * page, PROT_READ) == 0, "pages can be closed");
}

static void give_back(slice lent) {
    if (heap)
        free(lent.base);
    else if (lent.base != NULL)
        munmap(lent.base, lent.size);
}

/* Of no bytes C's own functions must not be asked about NULL. */
static bool same(const uint8_t *one, const uint8_t *other, size_t len) { return len == 0 || memcmp(one, other, len) == 0; }

static slice copy(const void *bytes, size_t len) {
    slice lent = lend(len);
    if (len > 0)
        memcpy(lent.data, bytes, len);
    return lent;
}

/* ---- What is asked for. */

typedef struct {
    bool v2;
    slice src, offsets;
    size_t width, height;
    size_t samples, map, scratch; /* how many are lent */
    size_t bands, block_width;    /* how the frame is cut for the decoder in bands */
    slice steps;
} ask;

static size_t cells(const ask *a) { return a->width * a->height; }

/* The most bands, and how many blocks each has, by the words of the rules. */
static size_t most_bands(const ask *a) {
    size_t half = a->height > 2 ? (a->height - 2) / 2 : 0;
    return half < 1 ? 1 : half > 64 ? 64 : half;
}

static size_t blocks_in_band(const ask *a) {
    return a->width > 0 && a->height > 2 ? (a->width - 1) / a->block_width + 1 : 0;
}

/* Refusal 11 or 12 of a frame within the limits, or 0. What is done is kept step by step. */
static uint32_t refusal_of_cut(const ask *a) {
    static bool done[64 * 1024];
    if (a->bands < 1 || a->bands > most_bands(a) || a->block_width < 1 || a->block_width % 16 != 0)
        return 11;
    size_t blocks = blocks_in_band(a), count = a->bands * blocks;
    if (a->steps.bytes / 4 != count)
        return 12;
    memset(done, 0, count);
    for (size_t i = 0; i < count; i++) {
        uint32_t step;
        memcpy(&step, a->steps.data + 4 * i, 4);
        if (step >= count || done[step] || (step % blocks > 0 && !done[step - 1]) || (step >= blocks && !done[step - blocks]))
            return 12;
        done[step] = true;
    }
    return 0;
}

/* The refusal among 1 to 4, or 0. */
static uint32_t refusal(const ask *a, bool with_map, bool with_scratch) {
    if (a->width > 16384 || a->height > 16384)
        return 1;
    if (a->v2 && (a->height < 1 || a->width < 32))
        return 2;
    if (a->samples < cells(a) || (!a->v2 && a->offsets.bytes / 4 < a->height))
        return 3;
    if ((with_map && a->map < cells(a)) || (with_scratch && a->scratch < RAZVOLK_SCRATCH(a->width, a->height)))
        return 4;
    return 0;
}

/* Writes bits, the highest first, in words whose lowest byte comes first. */
static uint8_t written[1 << 20];
static size_t written_len;
static uint64_t held;
static unsigned held_count;

static void put(uint32_t value, unsigned n) {
    held = held << n | (value & ((1ULL << n) - 1));
    held_count += n;
    if (held_count >= 32) {
        held_count -= 32;
        uint32_t word = (uint32_t)(held >> held_count);
        for (int i = 0; i < 4; i++)
            written[written_len++] = (uint8_t)(word >> 8 * i);
    }
}

static void align(void) {
    while (held_count > 0 || written_len % 16 != 0)
        put(0, 32 - held_count);
}

static void write_block(uint32_t options, uint32_t depth, size_t row, size_t col) {
    if (!(options & 4) && col % 64 == 0) {
        uint32_t code = (uint32_t)below(4);
        put(code, 2);
        if (code == 3)
            put((uint32_t)below(16), 12);
    }
    /* At the start of row 2 a motion may refer to before the frame, which is refusal 6. */
    bool up = row > 2 || (row == 2 && (col > 0 || below(2) == 0));
    if (options & 2) {
        put(up ? (uint32_t)below(2) : 0, 1);
    } else {
        put(0, 1);
        put(up ? (uint32_t)below(8) : 7, 3);
    }
    if (!(options & 1)) {
        bool none = below(2) == 0;
        put(none, 1);
        if (none)
            return;
    }
    uint32_t lengths[4];
    put(0xff, 8); /* flag 3, four times: each length is told */
    for (int j = 0; j < 4; j++) {
        lengths[j] = (uint32_t)below(depth + 2 < 16 ? depth + 2 : 16);
        put(lengths[j], 4);
    }
    for (int k = 0; k < 16; k++)
        put((uint32_t)number(), lengths[k / 4]);
}

/* A V2 stream that is accepted, or refused by 6. */
static void write_v2(size_t width, size_t height) {
    uint32_t options = (uint32_t)below(16), depth = 1 + (uint32_t)below(16);
    written_len = 0, held = 0, held_count = 0;
    put(0, 20), put(depth - 1, 4), put(0, 30), put(0, 30), put(options, 4), put(0, 26), put((uint32_t)number(), 14);
    for (size_t row = 0; row < height; row++) {
        for (size_t col = 0; col + 15 < width; col += 16)
            write_block(options, depth, row, col);
        align();
    }
}

static void damage(void) {
    for (size_t i = below(4); i > 0 && written_len > 0; i--) {
        size_t at = below(4) == 0 ? below(written_len < 64 ? written_len : 64) : below(written_len);
        if (below(8) == 0)
            written_len = at;
        else
            written[at] ^= (uint8_t)(1 << below(8));
    }
}

static void any_bytes(size_t len) {
    written_len = len;
    switch (below(4)) {
    case 0:
        memset(written, 0, len);
        break;
    case 1:
        memset(written, 0xff, len);
        break;
    default:
        scatter(written, len);
    }
}

static ask any_v0(void) {
    ask a = {false, {0}, {0}, below(70), below(12), 0, 0, 0, 0, 0, {0}};
    switch (below(40)) {
    case 0:
        a.width = 16384, a.height = below(3);
        break;
    case 1:
        a.width = below(3), a.height = 16384;
        break;
    case 2:
        a.width = below(2) == 0 ? 16385 : SIZE_MAX - below(9);
        break;
    case 3:
        a.height = SIZE_MAX - below(2);
        break;
    case 4:
        a.height = below(300);
        break;
    }
    any_bytes(below(4) == 0 ? 0 : below(4096));
    damage();
    a.src = copy(written, written_len);
    size_t rows = a.height > 16384 ? below(5) : a.height + (below(8) == 0 ? below(3) : 0);
    if (rows > 0 && below(16) == 0)
        rows--;
    a.offsets = lend(4 * rows);
    for (size_t i = 0; i < rows; i++) {
        uint32_t at = (uint32_t)(below(8) == 0 ? number() : below(written_len + 9));
        memcpy(a.offsets.data + 4 * i, &at, 4);
    }
    return a;
}

/* A camera's frame, or a crop. */
static ask any_v2(void) {
    ask a = {true, {0}, {0}, 646 + below(40), 436 + below(4), 0, 0, 0, 0, 0, {0}};
    if (below(2) == 0)
        a.width = 32 + below(169), a.height = 1 + below(80);
    if (below(8) == 0)
        any_bytes(below(4096));
    else
        write_v2(a.width, a.height);
    damage();
    a.src = copy(written, written_len);
    a.offsets = lend(0);
    switch (below(24)) {
    case 0:
        a.width = below(32);
        break;
    case 1:
        a.height = 0;
        break;
    case 2:
        a.width = 16385;
        break;
    }
    return a;
}

/* How long the buffers are: mostly long enough. */
static void any_lengths(ask *a) {
    bool large = a->width > 16384 || a->height > 16384;
    size_t n = large ? below(50) : cells(a), scratch = large ? below(50) : RAZVOLK_SCRATCH(a->width, a->height);
    size_t *each[3] = {&a->samples, &a->map, &a->scratch};
    a->samples = n, a->map = n, a->scratch = scratch;
    for (int i = 0; i < 3; i++) {
        if (below(3) == 0)
            *each[i] += below(40);
        else if (*each[i] > 0 && below(24) == 0)
            *each[i] -= 1 + below(*each[i]);
    }
}

/* A band count and a block width that fit, and a good list: how many steps it has. */
static uint32_t list[64 * 1024 + 1];

static size_t good_steps(ask *a) {
    size_t progress[64] = {0}, count = 0;
    bool large = a->width > 16384 || a->height > 16384;
    a->bands = below(3) == 0 ? most_bands(a) : 1 + below(most_bands(a));
    a->block_width = below(3) == 0 ? 16 : below(8) == 0 ? SIZE_MAX - 15 : 16 * (1 + below(6));
    size_t blocks = large ? 0 : blocks_in_band(a);
    while (count < a->bands * blocks) {
        size_t band = below(a->bands); /* from here down, the first band whose next block is ready; around, if there is none */
        while (progress[band] == blocks || (band > 0 && progress[band] == progress[band - 1]))
            band = (band + 1) % a->bands;
        list[count++] = (uint32_t)(band * blocks + progress[band]++);
    }
    return count;
}

/* A band count, a block width and a list of steps: mostly ones that fit. */
static void any_cut(ask *a) {
    size_t count = good_steps(a);
    size_t one = count > 0 ? below(count) : 0, other = count > 0 ? below(count) : 0;
    uint32_t kept = list[one];
    switch (below(24)) {
    case 0:
        count = one;
        break;
    case 1:
        list[count++] = (uint32_t)other;
        break;
    case 2:
        list[one] = list[other];
        break;
    case 3:
        list[one] = (uint32_t)(below(2) == 0 ? count + below(3) : number());
        break;
    case 4:
    case 5:
        list[one] = list[other], list[other] = kept;
        break;
    case 6:
        a->bands = below(2) == 0 ? below(70) : below(2) == 0 ? most_bands(a) + 1 : SIZE_MAX - below(70);
        break;
    case 7:
        a->block_width = below(2) == 0 ? below(70) : SIZE_MAX - below(70);
        break;
    }
    a->steps = copy(list, 4 * count);
}

/* ---- The decoders' entries. */

typedef struct {
    razvolk_answer answer;
    slice samples, map, scratch;
} outcome;

/* Slices as C hands them over. */
#define BYTES(lent) (lent).data, (lent).bytes
#define WORDS(lent) (const uint32_t *)(const void *)(lent).data, (lent).bytes / 4
#define SAMPLES(lent) (uint16_t *)(void *)(lent).data, (lent).bytes / 2

/* What V0's and V2's entries are all asked. */
#define V0(a) BYTES((a)->src), WORDS((a)->offsets), (a)->width, (a)->height
#define V2(a) BYTES((a)->src), (a)->width, (a)->height

static razvolk_answer direct(const ask *a, const outcome *o) {
    return razvolk_decode_v0_reference(V0(a), SAMPLES(o->samples));
}

static razvolk_answer direct_map(const ask *a, const outcome *o) {
    return razvolk_decode_v0_reference_map(V0(a), SAMPLES(o->samples), BYTES(o->map));
}

static razvolk_answer clean(const ask *a, const outcome *o) {
    return razvolk_decode_v0_clean(V0(a), SAMPLES(o->samples));
}

static razvolk_answer clean_map(const ask *a, const outcome *o) {
    return razvolk_decode_v0_clean_map(V0(a), SAMPLES(o->samples), BYTES(o->map));
}

static razvolk_answer two_phase(const ask *a, const outcome *o) {
    return razvolk_decode_v0(V0(a), SAMPLES(o->samples), BYTES(o->scratch));
}

static razvolk_answer bands(const ask *a, const outcome *o) {
    return razvolk_decode_v0_bands(V0(a), SAMPLES(o->samples), BYTES(o->scratch), a->bands, a->block_width, WORDS(a->steps));
}

static razvolk_answer v2(const ask *a, const outcome *o) {
    return razvolk_decode_v2(V2(a), SAMPLES(o->samples));
}

static razvolk_answer v2_map(const ask *a, const outcome *o) {
    return razvolk_decode_v2_map(V2(a), SAMPLES(o->samples), BYTES(o->map));
}

/* An entry: of which version, what it is lent besides samples, whether it takes clean frames alone, and how it is called. A new
 * decoder is a row here. */
typedef struct {
    bool v2, with_map, with_scratch, with_steps, clean_alone;
    razvolk_answer (*call)(const ask *, const outcome *);
} entry;

static const entry entries[] = {
    {false, false, false, false, false, direct},
    {false, true, false, false, false, direct_map},
    {false, false, false, false, true, clean},
    {false, true, false, false, true, clean_map},
    {false, false, true, false, false, two_phase},
    {false, false, true, true, false, bands},
    {true, false, false, false, false, v2},
    {true, true, false, false, false, v2_map},
};
static const entry *const entries_end = entries + sizeof entries / sizeof *entries;

/* Whether the stream was begun: done, or refused by 5 to 8. */
static bool begun(razvolk_answer answer) { return answer.number == 0 || (5 <= answer.number && answer.number <= 8); }

/* Whether the frame isn't clean: refused by 17 to 19, with nothing changed. */
static bool unclean(razvolk_answer answer) { return 17 <= answer.number && answer.number <= 19; }

/* Bytes of which those from `from` on must stay 9, and those before it must have become `most` or less. */
static void filled(slice lent, size_t from) {
    if (lent.bytes > from)
        memset(lent.data + from, 9, lent.bytes - from);
}

static void check_bytes(slice lent, size_t from, uint8_t most, const char *what) {
    for (size_t i = 0; i < lent.bytes; i++)
        expect(i < from ? lent.data[i] <= most : lent.data[i] == 9, what);
}

/* Calls an entry over old samples, and checks what it answers and leaves. */
static outcome run(const ask *a, const entry *e, const uint8_t *old) {
    uint32_t refused = refusal(a, e->with_map, e->with_scratch);
    if (refused == 0 && e->with_steps)
        refused = refusal_of_cut(a);
    size_t n = refused == 0 ? cells(a) : 0, directions = RAZVOLK_SCRATCH(a->width, a->height);
    size_t marks = refused == 0 && e->with_map ? n : 0, scratched = refused == 0 && e->with_scratch ? directions : 0;
    outcome out = {{0, 0, 0}, copy(old, 2 * a->samples), lend(a->map), lend(a->scratch)};
    /* With valgrind, what a decoder must set is not set before; a refusal must not read it, either. */
    filled(out.map, heap && !e->clean_alone ? marks : 0);
    filled(out.scratch, heap ? scratched : 0);
    out.answer = e->call(a, &out);
    calls++;
    expect(out.answer.number <= MOST_NUMBER, "the answer is a number of the list");
    numbers[out.answer.number]++;
    if (refused == 0 && e->clean_alone && unclean(out.answer)) {
        expect(out.answer.row < a->height && out.answer.filler == 0, "17 to 19 have a row of the frame, and no count");
        expect(out.answer.number != 17 || out.answer.row < 2, "17 comes in row 0 or 1");
        n = marks = 0;
    } else if (refused > 0 || !a->v2)
        expect(out.answer.number == refused && out.answer.row == 0, "the refusal among 1 to 4, 11 and 12");
    else
        expect(out.answer.number == 0 ? out.answer.row == 0 : begun(out.answer) && out.answer.row < a->height,
               "V2 answers 0 or 5 to 8, with a row of the frame");
    if (out.answer.number == 5)
        expect(out.answer.row < 2, "5 comes in row 0 or 1");
    if (refused > 0 || e->with_scratch || (a->v2 && out.answer.number == 0))
        expect(out.answer.filler == 0, "1 to 4, two phases, bands and V2 when it is done tell of no missing words");
    if (out.answer.number == 8)
        expect(out.answer.filler > 0, "8 tells of missing words");
    expect(a->samples == n || memcmp(out.samples.data + 2 * n, old + 2 * n, 2 * (a->samples - n)) == 0, "samples past the frame stay");
    check_bytes(out.map, marks, RAZVOLK_OLD | RAZVOLK_FILLER, "the map is 0 to 3 within the frame, and stays past it");
    check_bytes(out.scratch, scratched, 1, "the scratch is 0 and 1 where it is used, and stays past it");
    if (refused == 0 && e->with_map && out.answer.filler == 0)
        for (size_t i = 0; i < n; i++)
            expect(out.map.data[i] <= RAZVOLK_OLD, "no sample rests on missing words where there are none");
    return out;
}

static void end(outcome out) {
    give_back(out.samples);
    give_back(out.map);
    give_back(out.scratch);
}

/* What a cut stream shows is final: where its byte is 0, the whole stream's is, and the sample is the same. */
static void check_cut(const ask *a, const entry *marked, const uint8_t *old, const outcome *whole) {
    ask cut = *a;
    cut.src = copy(a->src.data, below(a->src.bytes + 1));
    close_for_writing(cut.src);
    outcome out = run(&cut, marked, old);
    for (size_t i = 0; i < cells(a); i++)
        expect(out.map.data[i] != 0 ||
                   (whole->map.data[i] == 0 && memcmp(out.samples.data + 2 * i, whole->samples.data + 2 * i, 2) == 0),
               "a sample of a cut stream with byte 0 is final");
    end(out);
    give_back(cut.src);
}

/* All entries of the version over the same old samples, and one with a map over others and over a cut stream. */
static void play(const ask *a) {
    slice old = lend(2 * a->samples), other = lend(2 * a->samples);
    scatter(old.data, old.bytes);
    scatter(other.data, other.bytes);
    const entry *marked = entries;
    while (marked->v2 != a->v2 || !marked->with_map)
        marked++;
    outcome first = run(a, marked, old.data), phased = {{1, 0, 0}, {0}, {0}, {0}};
    for (const entry *e = entries; e < entries_end; e++) {
        if (e->v2 != a->v2)
            continue;
        outcome next = run(a, e, old.data);
        if (e->clean_alone && begun(first.answer)) {
            expect(next.answer.number != 0 || first.answer.filler == 0, "a frame taken as clean misses no word");
            expect(next.answer.number != 19 || first.answer.filler > 0, "19 comes where a word is missing");
            for (size_t i = 0; next.answer.number == 0 && i < cells(a); i++)
                expect(first.map.data[i] == 0, "a frame taken as clean has a map of zeros");
        }
        if (begun(first.answer) && begun(next.answer)) {
            expect(next.answer.number == first.answer.number && next.answer.row == first.answer.row, "answers agree");
            expect(e->with_scratch || next.answer.filler == first.answer.filler, "counts agree");
            expect(same(next.samples.data, first.samples.data, first.samples.bytes), "samples agree");
            if (e->with_map)
                expect(same(next.map.data, first.map.data, first.map.bytes), "maps agree");
        }
        if (!e->with_scratch || phased.answer.number == 0) {
            if (e->with_scratch && next.answer.number == 0)
                expect(same(next.scratch.data, phased.scratch.data, phased.scratch.bytes), "scratch agrees");
            end(next);
        } else {
            end(phased);
            phased = next;
        }
    }
    if (begun(first.answer)) {
        outcome over = run(a, marked, other.data);
        expect(over.answer.number == first.answer.number && over.answer.row == first.answer.row, "answers over others");
        expect(over.answer.filler == first.answer.filler, "counts over others");
        for (size_t i = 0; i < cells(a); i++) {
            expect(over.map.data[i] == first.map.data[i], "maps over others");
            expect((over.map.data[i] & RAZVOLK_OLD) != 0 || memcmp(over.samples.data + 2 * i, first.samples.data + 2 * i, 2) == 0,
                   "a sample without an old part is the same over other old samples");
        }
        end(over);
        check_cut(a, marked, old.data, &first);
    }
    end(phased);
    end(first);
    give_back(old);
    give_back(other);
}

/* A frame through the decoders; every eighth is V2's. */
static void play_decoders(void) {
    ask a = rounds % 8 == 7 ? any_v2() : any_v0();
    any_lengths(&a);
    any_cut(&a);
    close_for_writing(a.src);
    close_for_writing(a.offsets);
    close_for_writing(a.steps);
    play(&a);
    give_back(a.src);
    give_back(a.offsets);
    give_back(a.steps);
}

/* The reader, in any state. */
static void play_reader(void) {
    any_bytes(below(40));
    slice src = copy(written, written_len);
    close_for_writing(src);
    razvolk_bits bits = {below(2) == 0 ? below(50) : number(), (uint32_t)number(), (uint32_t)below(70), 0};
    bits.filler = below(2) == 0 ? below(9) : UINT64_MAX - below(9);
    for (int i = 0; i < 20; i++) {
        razvolk_got got = razvolk_get(src.data, src.bytes, bits, (uint32_t)below(40));
        expect(got.bits.count < 32, "at most 31 bits are unread");
        expect(got.bits.pos == bits.pos || got.bits.pos == bits.pos + 4, "at most one word is fetched");
        bool missing = got.bits.pos != bits.pos && (src.bytes < 4 || bits.pos > src.bytes - 4);
        expect(got.bits.filler == bits.filler + (missing && bits.filler < UINT64_MAX), "each missing word counts");
        bits = below(6) == 0 ? razvolk_reset_at(got.bits, below(50)) : got.bits;
        calls++;
    }
    give_back(src);
}

/* ---- Colour planes: samples moved out of one slice into another, and back. */

typedef razvolk_answer (*mover)(slice from, size_t width, size_t height, slice to);

static razvolk_answer to_planes(slice from, size_t width, size_t height, slice to) {
    return razvolk_to_planes(SAMPLES(from), width, height, SAMPLES(to));
}

static razvolk_answer from_planes(slice from, size_t width, size_t height, slice to) {
    return razvolk_from_planes(SAMPLES(from), width, height, SAMPLES(to));
}

static void move_and_back(mover there, mover back, size_t width, size_t height, size_t read, size_t written_to) {
    size_t n = width <= 16384 && height <= 16384 ? width * height : 0;
    uint32_t refused = width > 16384 || height > 16384 ? 1 : read < n || written_to < n ? 3 : 0;
    slice from = lend(2 * read), to = lend(2 * written_to), again = lend(2 * read);
    scatter(from.data, from.bytes);
    filled(to, heap && refused == 0 ? 2 * n : 0);
    filled(again, heap && refused == 0 ? 2 * n : 0);
    close_for_writing(from);
    razvolk_answer answer = there(from, width, height, to);
    calls++;
    numbers[answer.number <= MOST_NUMBER ? answer.number : 0]++;
    expect(answer.number == refused && answer.row == 0, "planes are refused by 1 or 3");
    for (size_t i = refused == 0 ? 2 * n : 0; i < to.bytes; i++)
        expect(to.data[i] == 9, "what lies past the planes stays");
    if (refused == 0) {
        answer = back(to, width, height, again);
        expect(answer.number == 0 && same(again.data, from.data, 2 * n), "each way undoes the other");
        for (size_t i = 2 * n; i < again.bytes; i++)
            expect(again.data[i] == 9, "what lies past the frame stays");
    }
    give_back(from);
    give_back(to);
    give_back(again);
}

static void play_planes(void) {
    size_t width = below(60) == 0 ? (size_t)number() : below(24), height = below(60) == 0 ? (size_t)number() : below(24);
    size_t n = width < 24 && height < 24 ? width * height : 0;
    size_t read = n + below(3), written_to = n + below(3);
    if (below(4) == 0)
        read -= below(read + 1);
    if (below(4) == 0)
        written_to -= below(written_to + 1);
    move_and_back(to_planes, from_planes, width, height, read, written_to);
    move_and_back(from_planes, to_planes, width, height, read, written_to);
}

/* ---- The writer. */

typedef struct {
    slice samples, stream, offsets;
    size_t width, height;
} to_write;

#define READ_SAMPLES(lent) (const uint16_t *)(const void *)(lent).data, (lent).bytes / 2
#define WRITTEN_OFFSETS(lent) (uint32_t *)(void *)(lent).data, (lent).bytes / 4

static uint16_t sample_at(const to_write *w, size_t i) {
    uint16_t sample;
    memcpy(&sample, w->samples.data + 2 * i, 2);
    return sample;
}

/* A sample of the frame after the exchange of places. */
static int32_t exchanged(const to_write *w, size_t row, size_t col) {
    bool right = row % 2 == 0 && col % 2 == 1 && row + 1 < w->height;
    bool below = row % 2 == 1 && col % 2 == 0 && col + 1 < w->width;
    return sample_at(w, right ? (row + 1) * w->width + col - 1 : below ? (row - 1) * w->width + col + 1 : row * w->width + col);
}

/* The bits that a block takes: nine to open it, four lengths of 4, and four residuals of each. */
static size_t block_bits(const to_write *w, size_t row, size_t col) {
    size_t bits = 9;
    for (size_t group = 0; group < 4; group++) {
        size_t length = 0;
        for (size_t c = group % 2 * 8 + group / 2; c < group % 2 * 8 + 8 && col + c < w->width; c += 2) {
            int32_t residual = exchanged(w, row, col + c) - (col == 0 ? 128 : exchanged(w, row, col - 2 + c % 2));
            while (length == 0 ? residual != 0 : residual < -(1 << (length - 1)) || residual > (1 << (length - 1)) - 1)
                length++;
        }
        bits += 4 + 4 * length;
    }
    return bits;
}

/* The bytes that the frame takes; each row is whole words. */
static size_t stream_bytes(const to_write *w) {
    size_t words = 0;
    for (size_t row = 0; row < w->height; row++) {
        size_t bits = 0;
        for (size_t col = 0; col < w->width; col += 16)
            bits += block_bits(w, row, col);
        words += (bits + 31) / 32;
    }
    return 4 * words;
}

/* The refusal among 1, 3 and 9, or 0. */
static uint32_t unwritable(const to_write *w) {
    if (w->width > 16384 || w->height > 16384)
        return 1;
    if (w->samples.bytes / 2 < w->width * w->height)
        return 3;
    for (size_t i = 0; i < w->width * w->height; i++)
        if (sample_at(w, i) > 16383)
            return 9;
    return 0;
}

/* A size, and samples that are of up to 14 bits, mostly: any, near one another, or black and white. */
static to_write any_frame(void) {
    to_write w = {{0}, {0}, {0}, below(70), below(12)};
    switch (below(40)) {
    case 0:
        w.width = 16384, w.height = below(3);
        break;
    case 1:
        w.width = below(3), w.height = 16384;
        break;
    case 2:
        w.width = below(2) == 0 ? 16385 : SIZE_MAX - below(9);
        break;
    case 3:
        w.height = SIZE_MAX - below(2);
        break;
    }
    bool large = w.width > 16384 || w.height > 16384;
    size_t n = large ? below(50) : w.width * w.height, lent = n + (below(3) == 0 ? below(9) : 0);
    if (n > 0 && below(16) == 0)
        lent = below(n);
    w.samples = lend(2 * lent);
    uint16_t least = (uint16_t)below(12000), most = (uint16_t)(1 << below(13));
    size_t kind = below(4);
    for (size_t i = 0; i < lent; i++) {
        uint16_t sample = (uint16_t)(kind == 0 ? below(16384) : kind == 1 ? 16383 * below(2) : least + below(most));
        memcpy(w.samples.data + 2 * i, &sample, 2);
    }
    if (lent > 0 && below(8) == 0) {
        uint16_t bright = (uint16_t)(16384 + (below(2) == 0 ? 0 : below(49152)));
        memcpy(w.samples.data + 2 * below(lent), &bright, 2);
    }
    close_for_writing(w.samples);
    return w;
}

/* What was written gives the samples back by each V0 entry, and no map byte is 1. */
static void decodes_back(const to_write *w) {
    size_t n = w->width * w->height;
    ask a = {false, w->stream, w->offsets, w->width, w->height, n, n, RAZVOLK_SCRATCH(w->width, w->height), 0, 0, {0}};
    a.steps = copy(list, 4 * good_steps(&a));
    slice old = lend(2 * n);
    scatter(old.data, old.bytes);
    for (const entry *e = entries; e < entries_end; e++) {
        if (e->v2)
            continue;
        outcome out = run(&a, e, old.data);
        expect(out.answer.number == 0, "what is written is decoded");
        expect(same(out.samples.data, w->samples.data, 2 * n), "what is written decodes to the samples");
        for (size_t i = 0; e->with_map && i < n; i++)
            expect(out.map.data[i] == 0, "what is written decodes with every map byte 0");
        end(out);
    }
    give_back(a.steps);
    give_back(old);
}

/* Writes a frame into buffers that are just long enough, longer or short, and checks what is answered and left. */
static void play_writer(void) {
    to_write w = any_frame();
    uint32_t refused = unwritable(&w);
    size_t bytes = refused == 0 ? stream_bytes(&w) : below(200), rows = refused == 0 ? w.height : below(20);
    size_t stream_len = bytes + (below(2) == 0 ? 0 : below(40)), offsets_len = rows + (below(2) == 0 ? 0 : below(4));
    if (bytes > 0 && below(8) == 0)
        stream_len = bytes - 1 - (below(2) == 0 ? 0 : below(bytes));
    if (rows > 0 && below(8) == 0)
        offsets_len = rows - 1;
    if (refused == 0 && (stream_len < bytes || offsets_len < rows))
        refused = 10;
    if (refused > 0)
        bytes = 0, rows = 0;
    w.stream = lend(stream_len), w.offsets = lend(4 * offsets_len);
    filled(w.stream, heap ? bytes : 0);
    filled(w.offsets, heap ? 4 * rows : 0);
    razvolk_written out =
        razvolk_write_v0(READ_SAMPLES(w.samples), w.width, w.height, BYTES(w.stream), WRITTEN_OFFSETS(w.offsets));
    calls++;
    expect(out.answer.number == refused && out.answer.row == 0, "the writer's refusal");
    numbers[refused]++;
    expect(out.length == bytes, "the length is the stream's, or 0");
    for (size_t i = bytes; i < w.stream.bytes; i++)
        expect(w.stream.data[i] == 9, "bytes past the stream stay");
    for (size_t i = 4 * rows; i < w.offsets.bytes; i++)
        expect(w.offsets.data[i] == 9, "offsets past the rows stay");
    if (refused == 0)
        decodes_back(&w);
    give_back(w.samples);
    give_back(w.stream);
    give_back(w.offsets);
}

/* ---- Blanking, and the export. */

/* A map of a frame: no marks, all, any, in turn, or few; now and then with a byte that no map has. */
static slice any_map(size_t n) {
    size_t len = n + (below(3) == 0 ? below(9) : 0), kind = below(5);
    if (n > 0 && below(16) == 0)
        len = below(n);
    slice lent = lend(len);
    for (size_t i = 0; i < len; i++)
        lent.data[i] = (uint8_t)(kind == 0 ? 0 : kind == 1 ? 1 + i % 3 : kind == 2 ? below(4) : kind == 3 ? i % 2 * 2 : below(40) / 38);
    if (len > 0 && below(8) == 0)
        lent.data[below(len)] = (uint8_t)(4 + below(252));
    close_for_writing(lent);
    return lent;
}

/* The numbers of the runs that a map has, and how many runs; and how many samples it marks. */
static uint32_t told[3 * 16384];
static size_t told_runs, told_count;

static void tell_runs(slice map, size_t width, size_t height) {
    told_runs = told_count = 0;
    for (size_t row = 0; row < height; row++)
        for (size_t col = 0; col < width; col++) {
            if (map.data[row * width + col] == 0)
                continue;
            if (col == 0 || map.data[row * width + col - 1] == 0) {
                told[3 * told_runs] = (uint32_t)row, told[3 * told_runs + 1] = (uint32_t)col, told[3 * told_runs + 2] = 0;
                told_runs++;
            }
            told[3 * told_runs - 1]++;
            told_count++;
        }
}

/* The refusal among 1, 3, 4, 14 and 13, or 0; the runs are told by then. */
static uint32_t unblankable(slice samples, slice map, size_t width, size_t height, size_t list) {
    if (width > 16384 || height > 16384)
        return 1;
    if (samples.bytes / 2 < width * height)
        return 3;
    if (map.bytes < width * height)
        return 4;
    for (size_t i = 0; i < width * height; i++)
        if (map.data[i] > (RAZVOLK_OLD | RAZVOLK_FILLER))
            return 14;
    tell_runs(map, width, height);
    return list < 3 * told_runs ? 13 : 0;
}

/* What a marked sample is set to where no fill is stated: the nearest to the left in its row, of its parity, that isn't marked. */
static uint16_t nearest(slice old, slice map, size_t width, size_t i) {
    uint16_t sample = 0;
    for (size_t by = 2; by <= i % width; by += 2)
        if (map.data[i - by] == 0) {
            memcpy(&sample, old.data + 2 * (i - by), 2);
            break;
        }
    return sample;
}

/* Blanks a frame, stated or not, or exports it, and checks all that is answered and left. */
static void play_blanking(void) {
    size_t width = below(60) == 0 ? 16385 + below(2) * (SIZE_MAX - 20000) : below(70), height = below(12);
    size_t n = width <= 16384 ? width * height : 0, lent = n + (below(3) == 0 ? below(9) : 0);
    if (n > 0 && below(16) == 0)
        lent = below(n);
    slice samples = lend(2 * lent), map = any_map(n), old;
    for (size_t i = 0; i < lent; i++) {
        uint16_t sample = (uint16_t)(below(40) == 0 ? number() : below(16384));
        memcpy(samples.data + 2 * i, &sample, 2);
    }
    old = copy(samples.data, samples.bytes);
    uint32_t refused = unblankable(samples, map, width, height, SIZE_MAX);
    size_t list_len = refused == 0 ? 3 * told_runs + (below(2) == 0 ? 0 : below(5)) : below(9);
    if (refused == 0 && told_runs > 0 && below(8) == 0)
        list_len = 3 * told_runs - 1 - (below(2) == 0 ? 0 : below(3 * told_runs));
    refused = unblankable(samples, map, width, height, list_len);
    size_t runs = refused == 0 ? told_runs : 0, count = refused == 0 ? told_count : 0;
    slice list_lent = lend(4 * list_len), stream = lend(below(3) == 0 ? below(60) : 40000), offsets = lend(4 * below(14));
    filled(list_lent, heap ? 12 * runs : 0);
    filled(stream, 0);
    filled(offsets, 0);
    size_t kind = below(3);
    uint16_t fill = kind == 1 ? (uint16_t)number() : 0;
    razvolk_exported out = {{0, 0, 0}, 0, 0, 0};
    if (kind == 2) {
        out = razvolk_export_v0(SAMPLES(samples), BYTES(map), width, height, WRITTEN_OFFSETS(list_lent), BYTES(stream),
                                WRITTEN_OFFSETS(offsets));
    } else {
        razvolk_blanked blanked =
            kind == 0 ? razvolk_blank(SAMPLES(samples), BYTES(map), width, height, WRITTEN_OFFSETS(list_lent))
                      : razvolk_blank_with(SAMPLES(samples), BYTES(map), width, height, fill, WRITTEN_OFFSETS(list_lent));
        out.answer = blanked.answer, out.count = blanked.count, out.runs = blanked.runs;
    }
    calls++;
    expect(out.count == count && out.runs == runs && out.answer.row == 0, "both counts of blanking");
    for (size_t i = 0; i < lent; i++) {
        uint16_t was, is;
        memcpy(&was, old.data + 2 * i, 2), memcpy(&is, samples.data + 2 * i, 2);
        int set = refused == 0 && i < n && map.data[i] != 0;
        uint16_t to = !set ? was : kind == 0 ? nearest(old, map, width, i) : fill;
        expect(is == to, "marked samples are the fill, the others stay");
    }
    expect(same(list_lent.data, (const uint8_t *)told, 12 * runs), "the runs are listed");
    for (size_t i = 12 * runs; i < list_lent.bytes; i++)
        expect(list_lent.data[i] == 9, "the list past the runs stays");
    to_write w = {samples, stream, offsets, width, height};
    size_t bytes = 0, rows = 0;
    if (kind == 2 && refused == 0) {
        refused = unwritable(&w);
        if (refused == 0 && (stream.bytes < stream_bytes(&w) || offsets.bytes / 4 < height))
            refused = 10;
        if (refused == 0)
            bytes = stream_bytes(&w), rows = height, decodes_back(&w);
    }
    expect(out.answer.number == refused, "the refusal of blanking or of the export");
    numbers[refused]++;
    expect(out.length == bytes, "the length is the stream's, or 0");
    for (size_t i = bytes; i < stream.bytes; i++)
        expect(stream.data[i] == 9, "bytes past the stream stay");
    for (size_t i = 4 * rows; i < offsets.bytes; i++)
        expect(offsets.data[i] == 9, "offsets past the rows stay");
    slice all[6] = {samples, map, old, list_lent, stream, offsets};
    for (int i = 0; i < 6; i++)
        give_back(all[i]);
}

/* The refusal of V0 into V2 before decoding, or 0: 1 to 4, with V2's 2, and 15. */
static uint32_t unconvertible(const ask *a) {
    if (a->width > 16384 || a->height > 16384)
        return 1;
    if (a->width < RAZVOLK_V2_LEAST_WIDTH || a->height < RAZVOLK_V2_LEAST_HEIGHT)
        return 2;
    if (a->samples < cells(a) || a->offsets.bytes / 4 < a->height)
        return 3;
    if (a->map < cells(a))
        return 4;
    return a->width % 16 > 0 ? 15 : 0;
}

/* The refusal of a decoded frame, or 0: 16 and 9. */
static uint32_t unfit(const uint16_t *samples, const uint8_t *map, size_t n) {
    uint32_t refused = 0;
    for (size_t i = 0; i < n; i++) {
        if (map[i] > 0)
            return 16;
        if (samples[i] > 16383)
            refused = 9;
    }
    return refused;
}

/* A frame that V2 takes, its samples written as V0; now and then with a bit of the stream turned, or a first block that predicts
 * from the row above. */
static ask convertible(void) {
    ask a = {false, {0}, {0}, 32 + 16 * below(10), 1 + below(40), 0, 0, 0, 0, 0, {0}};
    if (below(4) == 0)
        a.width = 656, a.height = 436;
    size_t n = cells(&a), most = RAZVOLK_V0_MOST(a.width, a.height);
    slice samples = lend(2 * n);
    uint16_t least = (uint16_t)below(12000), range = (uint16_t)(1 << below(13));
    for (size_t i = 0; i < n; i++) {
        uint16_t sample = (uint16_t)(least + below(range));
        memcpy(samples.data + 2 * i, &sample, 2);
    }
    slice stream = lend(most);
    a.offsets = lend(4 * a.height), a.samples = n, a.map = n;
    size_t length = (size_t)razvolk_write_v0(READ_SAMPLES(samples), a.width, a.height, BYTES(stream), WRITTEN_OFFSETS(a.offsets)).length;
    if (below(2) == 0)
        stream.data[below(length)] ^= (uint8_t)(1 << below(8));
    else if (below(3) == 0)
        stream.data[3] |= 0x80;
    a.src = copy(stream.data, length);
    give_back(samples);
    give_back(stream);
    return a;
}

/* What was converted gives the samples back as V2, with no map byte other than 0. */
static void decodes_as_v2(const ask *a, slice stream, size_t length, const uint8_t *samples) {
    size_t n = cells(a);
    slice back = lend(2 * n), map = lend(n);
    scatter(back.data, back.bytes);
    razvolk_answer answer = razvolk_decode_v2_map(stream.data, length, a->width, a->height, SAMPLES(back), BYTES(map));
    expect(answer.number == 0 && same(back.data, samples, 2 * n), "what is converted decodes to the samples");
    for (size_t i = 0; i < n; i++)
        expect(map.data[i] == 0, "what is converted decodes with no map byte other than 0");
    give_back(back);
    give_back(map);
}

/* Converts a frame, a third of the time one that can be, and holds the call to the direct decoder's. */
static void play_converter(void) {
    bool good = below(3) == 0;
    ask a = good ? convertible() : any_v0();
    if (!good)
        any_lengths(&a);
    uint32_t refused = unconvertible(&a);
    slice samples = lend(2 * a.samples), map = lend(a.map);
    slice stream = lend(refused > 0 ? below(99) : RAZVOLK_V2_MOST(a.width, a.height));
    scatter(samples.data, samples.bytes);
    slice old = copy(samples.data, samples.bytes), left = lend(a.map);
    filled(map, 0), filled(left, 0), filled(stream, 0);
    razvolk_written out = razvolk_v0_to_v2(V0(&a), SAMPLES(samples), BYTES(map), BYTES(stream));
    calls++;
    if (refused == 0) {
        razvolk_decode_v0_reference_map(V0(&a), SAMPLES(old), BYTES(left));
        refused = unfit((const uint16_t *)(const void *)old.data, left.data, cells(&a));
    }
    numbers[refused]++;
    expect(out.answer.number == refused && out.answer.row == 0, "the converter's refusal");
    expect(same(samples.data, old.data, old.bytes), "the converter leaves the decoder's samples");
    expect(same(map.data, left.data, left.bytes), "the converter leaves the decoder's map");
    expect((out.length == 0) == (refused > 0), "the converter's length");
    for (size_t i = (size_t)out.length; i < stream.bytes; i++)
        expect(stream.data[i] == 9, "bytes past what is converted stay");
    if (refused == 0)
        decodes_as_v2(&a, stream, (size_t)out.length, samples.data);
    give_back(samples), give_back(old), give_back(map), give_back(left), give_back(stream);
    give_back(a.src), give_back(a.offsets), give_back(a.steps);
}

/* ---- Packed by others. */

/* A stream with its offsets, as if others had packed it: what the writer makes, one byte longer, cut, with a bit turned, with a
 * first block that looks up, or with rows told elsewhere; of a frame that can't be written any bytes. */
static void pack(to_write *w, bool writable) {
    size_t bytes = writable ? stream_bytes(w) : below(60), rows = writable ? w->height : below(20);
    slice made = lend(bytes + 1), offsets = lend(4 * (rows + below(3)));
    scatter(made.data, made.bytes);
    scatter(offsets.data, offsets.bytes);
    if (writable)
        razvolk_write_v0(READ_SAMPLES(w->samples), w->width, w->height, BYTES(made), WRITTEN_OFFSETS(offsets));
    switch (below(10)) {
    case 0:
        bytes++;
        break;
    case 1:
        bytes -= below(bytes + 1);
        break;
    case 2:
        made.data[below(made.bytes)] ^= (uint8_t)(1 << below(8));
        break;
    case 3:
        if (bytes > 3)
            made.data[3] |= 0x80;
        break;
    case 4:
        for (size_t i = 0; i < offsets.bytes / 4; i++) {
            uint32_t offset = (uint32_t)(4 * below(bytes / 4 + 2));
            memcpy(offsets.data + 4 * i, &offset, 4);
        }
        break;
    case 5:
        offsets.bytes -= rows > 0 ? offsets.bytes - 4 * (rows - 1) : 0;
        break;
    }
    w->stream = copy(made.data, bytes), w->offsets = copy(offsets.data, offsets.bytes);
    close_for_writing(w->stream), close_for_writing(w->offsets);
    give_back(made), give_back(offsets);
}

/* What must be answered, over scratch samples as they are, which it decodes into: by the writer's refusals, by the decoder for
 * clean frames, by the stream's length, and by the samples. */
static razvolk_answer verdict(const to_write *w, slice scratch) {
    razvolk_answer answer = {unwritable(w), 0, 0};
    size_t n = w->width * w->height;
    if (answer.number > 0)
        return answer;
    slice old = copy(scratch.data, scratch.bytes);
    answer = razvolk_decode_v0_clean(BYTES(w->stream), WORDS(w->offsets), w->width, w->height, SAMPLES(scratch));
    if (answer.number == 0 && w->stream.bytes > stream_bytes(w)) {
        answer.number = 21;
        if (scratch.bytes > 0)
            memcpy(scratch.data, old.data, scratch.bytes);
    } else if (answer.number == 0 && !same(scratch.data, w->samples.data, 2 * n))
        answer.number = 20;
    give_back(old);
    return answer;
}

static void play_packed(void) {
    to_write w = any_frame();
    uint32_t refused = unwritable(&w);
    pack(&w, refused == 0);
    size_t n = refused == 1 ? 0 : w.width * w.height;
    slice scratch = lend(2 * (below(8) == 0 ? below(n + 1) : n + below(3)));
    scatter(scratch.data, scratch.bytes);
    slice left = copy(scratch.data, scratch.bytes);
    razvolk_answer answer = razvolk_check_packed(BYTES(w.stream), WORDS(w.offsets), w.width, w.height, READ_SAMPLES(w.samples),
                                                 SAMPLES(scratch));
    calls++;
    razvolk_answer expected = verdict(&w, left);
    numbers[expected.number]++;
    expect(answer.number == expected.number && answer.row == expected.row && answer.filler == 0, "the verdict on what is packed");
    expect(same(scratch.data, left.data, left.bytes), "the scratch after the verdict");
    if (answer.number == 0)
        decodes_back(&w);
    give_back(w.samples), give_back(w.stream), give_back(w.offsets);
    give_back(scratch), give_back(left);
}

/* What is played in each round. Functions of a new kind are a row here. */
static void (*const plays[])(void) = {play_decoders, play_reader,    play_planes, play_writer,
                                      play_blanking, play_converter, play_packed};

int main(int argc, char **argv) {
    const char *count = argc > 2 ? argv[2] : "300";
    heap = argc > 1 && strcmp(argv[1], "heap") == 0;
    unsigned long most = strtoul(count, NULL, 10);
    bool seconds = strchr(count, 's') != NULL;
    state = argc > 3 ? strtoul(argv[3], NULL, 10) : 1;
    state = state * 0x9e3779b97f4a7c15ULL + 0x5eed;
    time_t began = time(NULL);
    while (seconds ? (unsigned long)(time(NULL) - began) < most : rounds < most) {
        for (size_t i = 0; i < sizeof plays / sizeof *plays; i++)
            plays[i]();
        rounds++;
    }
    printf("hostile: %s, %lu rounds, %lu calls, answers 0 to %d:", heap ? "heap" : "pages", rounds, calls, MOST_NUMBER);
    for (int i = 0; i <= MOST_NUMBER; i++)
        printf(" %lu", numbers[i]);
    printf("\nhostile: ok\n");
    return 0;
}
