/* Calls every function of include/razvolk.h from C, and from C++: that the header and the archive agree on how a structure
 * is laid out and handed over, and in which order the arguments come. What the functions compute is proved, and compared in
 * rust/compare. */
#include "razvolk.h"

#include <stdbool.h>
#include <stdio.h>
#include <stdlib.h>
#include <string.h>

static int failed = 0;

static void expect(bool holds, const char *what) {
    if (!holds) {
        printf("not so: %s\n", what);
        failed = 1;
    }
}

static void reader(void) {
    static const uint8_t stream[7] = {0x78, 0x56, 0x34, 0x12, 0xff, 0x00, 0x00};
    razvolk_bits state = {0, 0, 0, 0};
    razvolk_got got;

    for (uint32_t digit = 1; digit <= 3; digit++) {
        got = razvolk_get(stream, sizeof stream, state, 4);
        state = got.bits;
        expect(got.value == digit, "three 4-bit reads of 78 56 34 12 give 1, 2, 3");
    }
    expect(state.pos == 4 && state.word == 0x12345678 && state.count == 20, "20 bits of the word are left");
    expect(state.filler == 0, "no word was missing");

    got = razvolk_get(stream, sizeof stream, state, UINT32_MAX);
    state = got.bits;
    expect(got.value == 0x45678fff, "32 bits: the 20 left, then 12 of the filler");
    expect(state.pos == 8 && state.count == 20 && state.filler == 1, "three bytes left over are a missing word");

    state = razvolk_reset_at(state, UINT64_MAX);
    expect(state.pos == UINT64_MAX && state.count == 0 && state.filler == 1, "reset_at keeps the count of missing words");

    got = razvolk_get(stream, 0, state, 1);
    expect(got.value == 1 && got.bits.pos == 3 && got.bits.count == 31, "the position wraps at 2^64");
    expect(got.bits.filler == 2, "another word was missing");

    state.filler = UINT64_MAX - 1;
    got = razvolk_get(stream, 0, state, 1);
    expect(got.bits.filler == UINT64_MAX, "the count comes to 2^64 - 1");
    got = razvolk_get(stream, 0, got.bits, 32);
    expect(got.bits.filler == UINT64_MAX, "and stops there");
}

/* A frame of 2 by 3, whose first row is skipped: stream, offsets, what the buffers hold before and after. The seventh sample and
 * map byte, and the second byte of scratch, lie past the frame. */
static const uint8_t stream[12] = {0x00, 0x00, 0x00, 0x80, 0x18, 0x20, 0xa0, 0x7f, 0x00, 0x00, 0x70, 0x00};
static const uint32_t offsets[3] = {0, 4, 0};
static const uint16_t after[7] = {7, 131, 8, 126, 131, 12, 77};
static const uint8_t marks[7] = {1, 0, 1, 0, 0, 1, 9};
static uint16_t samples[7];
static uint8_t map[7], scratch[2];

static void before(void) {
    static const uint16_t old[7] = {7, 8, 9, 10, 11, 12, 77};
    memcpy(samples, old, sizeof samples);
    memset(map, 9, sizeof map);
    memset(scratch, 9, sizeof scratch);
}

static void done(razvolk_answer answer, bool with_map, bool with_scratch, const char *what) {
    static const uint8_t untouched[7] = {9, 9, 9, 9, 9, 9, 9};
    expect(answer.number == 0 && answer.row == 0 && answer.filler == 0, what);
    expect(memcmp(samples, after, sizeof samples) == 0, what);
    expect(memcmp(map, with_map ? marks : untouched, sizeof map) == 0, what);
    expect(scratch[0] == (with_scratch ? 1 : 9) && scratch[1] == 9, what);
}

static void v0_reference(void) {
    razvolk_answer answer;
    before();
    done(razvolk_decode_v0_reference(stream, 12, offsets, 3, 2, 3, samples, 7), false, false, "decode_v0_reference");
    before();
    done(razvolk_decode_v0_reference_map(stream, 12, offsets, 3, 2, 3, samples, 7, map, 7), true, false,
         "decode_v0_reference_map");
    answer = razvolk_decode_v0_reference(stream, 8, offsets, 3, 2, 3, samples, 7);
    expect(answer.number == 0 && answer.filler == 2, "rows 1 and 2 miss the word from byte 8 on");
    before();
    answer = razvolk_decode_v0_reference_map(stream, 11, offsets, 3, 2, 3, samples, 7, map, 7);
    expect(answer.number == 0 && answer.filler == 2, "and so they do where three bytes of it are there");
    for (int i = 0; i < 6; i++) {
        static const uint8_t filled[6] = {0, 2, 0, 2, 2, 2}; /* row 1's places, before the exchange, and row 2's */
        expect(map[i] == marks[i] + filled[i] && (filled[i] & RAZVOLK_FILLER) == filled[i], "a cut stream's map");
    }
    answer = razvolk_decode_v0_reference_map(stream, 0, offsets, 1, 1, 1, samples, 1, map, 1);
    expect(answer.filler == 1 && map[0] == (RAZVOLK_OLD | RAZVOLK_FILLER), "1 by 1 without a byte has map 3");
    answer = razvolk_decode_v0_reference(stream, 12, offsets, 3, 16385, 0, samples, 7);
    expect(answer.number == 1 && answer.row == 0 && answer.filler == 0, "a width of 16,385 is refused by 1");
    answer = razvolk_decode_v0_reference_map(stream, 12, offsets, 3, 2, 3, samples, 7, map, 5);
    expect(answer.number == 4 && answer.row == 0 && answer.filler == 0, "a map of 5 bytes for 6 samples is refused by 4");
    answer = razvolk_decode_v0_reference_map(stream, 12, offsets, 3, 2, 3, samples, 5, map, 5);
    expect(answer.number == 3 && answer.row == 0 && answer.filler == 0, "5 samples for a frame of 6 are refused by 3");
}

static void v0_clean(void) {
    static const uint8_t down_up[8] = {0x00, 0x00, 0x80, 0x7f, 0x00, 0x00, 0x80, 0xff};
    static const uint32_t rows[3] = {0, 0, 4}, upward[3] = {0, 4, 4}, missing[3] = {0, 0, 5};
    static const uint8_t below[8] = {0x2a, 0x00, 0x80, 0x7f, 0x00, 0x00, 0x00, 0x80};
    uint16_t wide[17] = {7};
    razvolk_answer answer;
    before();
    answer = razvolk_decode_v0_clean(down_up, 8, rows, 3, 2, 3, samples, 7);
    expect(answer.number == 0 && answer.row == 0 && answer.filler == 0, "decode_v0_clean");
    expect(samples[0] == 128 && samples[5] == 128 && samples[6] == 77, "the frame's samples, and the one past them");
    before();
    answer = razvolk_decode_v0_clean_map(down_up, 8, rows, 3, 2, 3, samples, 7, map, 7);
    expect(answer.number == 0 && map[0] == 0 && map[5] == 0 && map[6] == 9, "decode_v0_clean_map");
    before();
    answer = razvolk_decode_v0_clean_map(down_up, 8, upward, 3, 2, 3, samples, 7, map, 7);
    expect(answer.number == RAZVOLK_EARLY_UPWARD && answer.row == 1 && answer.filler == 0, "direction 1 in row 1 is refused by 17");
    answer = razvolk_decode_v0_clean(below, 8, rows, 1, 17, 1, wide, 17);
    expect(answer.number == RAZVOLK_BAD_LENGTH && answer.row == 0 && wide[0] == 7, "a length of -1 is refused by 18");
    answer = razvolk_decode_v0_clean_map(down_up, 8, missing, 3, 2, 3, samples, 7, map, 7);
    expect(answer.number == RAZVOLK_MISSING_WORD && answer.row == 2 && answer.filler == 0, "a missing word is refused by 19");
    answer = razvolk_decode_v0_clean_map(down_up, 8, upward, 3, 2, 3, samples, 7, map, 5);
    expect(answer.number == RAZVOLK_SHORT_MAP && answer.row == 0, "4 comes before 17");
    expect(samples[0] == 7 && map[0] == 9, "and nothing is written");
}

static void v0(void) {
    razvolk_answer answer;
    before();
    done(razvolk_decode_v0(stream, 12, offsets, 3, 2, 3, samples, 7, scratch, 2), false, true, "decode_v0");
    answer = razvolk_decode_v0(stream, 8, offsets, 3, 2, 3, samples, 7, scratch, 2);
    expect(answer.number == 0 && answer.filler == 0, "decode_v0 tells of no missing words");
    expect(RAZVOLK_SCRATCH(2, 3) == 1 && RAZVOLK_SCRATCH(17, 5) == 6 && RAZVOLK_SCRATCH(17, 2) == 0, "RAZVOLK_SCRATCH");
    answer = razvolk_decode_v0(stream, 12, offsets, 3, 2, 3, samples, 7, scratch, 0);
    expect(answer.number == 4 && answer.row == 0 && answer.filler == 0, "no scratch for a frame of 3 rows is refused by 4");
}

static void v0_bands(void) {
    static const uint32_t steps[1] = {0};
    razvolk_answer answer;
    before();
    done(razvolk_decode_v0_bands(stream, 12, offsets, 3, 2, 3, samples, 7, scratch, 2, 1, 16, steps, 1), false, true,
         "decode_v0_bands");
    before();
    answer = razvolk_decode_v0_bands(stream, 12, offsets, 3, 2, 3, samples, 7, scratch, 2, 2, 16, steps, 1);
    expect(answer.number == 11 && answer.row == 0 && answer.filler == 0, "two bands of one row are refused by 11");
    answer = razvolk_decode_v0_bands(stream, 12, offsets, 3, 2, 3, samples, 7, scratch, 2, 1, 8, steps, 1);
    expect(answer.number == 11 && answer.row == 0 && answer.filler == 0, "blocks of 8 columns are refused by 11");
    answer = razvolk_decode_v0_bands(stream, 12, offsets, 3, 2, 3, samples, 7, scratch, 2, 1, 16, steps, 0);
    expect(answer.number == 12 && answer.row == 0 && answer.filler == 0, "no steps for a frame of 3 rows are refused by 12");
    expect(samples[4] == 11 && scratch[0] == 9, "and nothing is written");
    expect(RAZVOLK_MOST_BANDS(0) == 1 && RAZVOLK_MOST_BANDS(5) == 1 && RAZVOLK_MOST_BANDS(6) == 2 &&
               RAZVOLK_MOST_BANDS(129) == 63 && RAZVOLK_MOST_BANDS(130) == 64 && RAZVOLK_MOST_BANDS(16384) == 64,
           "RAZVOLK_MOST_BANDS");
    expect(RAZVOLK_STEPS(33, 9, 3, 16) == 9 && RAZVOLK_STEPS(32, 9, 3, SIZE_MAX - 15) == 3 && RAZVOLK_STEPS(0, 9, 1, 16) == 0 &&
               RAZVOLK_STEPS(33, 2, 1, 16) == 0,
           "RAZVOLK_STEPS");
}

static void v2(void) {
    const size_t n = 646 * 436;
    static const uint8_t zeros[16] = {0};
    /* Two frames of 32 by 1. The first length is too long, and has the last bits; every sample is the initial one, 5. */
    static const uint8_t long_length[20] = {0, 0, 0, 0, 0, 0, 0, 0, 0, 1, 0, 0, 0, 0, 0, 0, 0xff, 0xff, 0x01, 0xc0};
    static const uint8_t crop[20] = {0, 13, 0, 0, 0, 0, 0, 0, 0, 4, 0, 0, 5, 0, 0, 0, 0, 0, 0, 0xf0};
    uint16_t *out = (uint16_t *)calloc(n, sizeof(uint16_t));
    uint8_t *marked = (uint8_t *)calloc(n, 1);
    razvolk_answer answer;
    if (out == NULL || marked == NULL) {
        expect(false, "there is memory for a frame");
        return;
    }
    answer = razvolk_decode_v2(zeros, 0, 646, 436, out, n);
    expect(answer.number == 5 && answer.row == 0 && answer.filler == 5 && out[0] == 0, "decode_v2 refuses no bytes by 5");
    answer = razvolk_decode_v2_map(zeros, 16, 646, 436, out, n, marked, n);
    expect(answer.number == 8 && answer.row == 0 && answer.filler == 7, "decode_v2_map refuses sixteen zero bytes by 8");
    expect(out[639] == 1 && out[640] == 0 && marked[639] == 2 && marked[640] == 1, "and has written 640 samples");
    answer = razvolk_decode_v2(zeros, 16, 31, 1, out, n);
    expect(answer.number == 2 && answer.row == 0 && answer.filler == 0, "a width of 31 is refused by 2");
    answer = razvolk_decode_v2_map(zeros, 16, 32, 0, out, n, marked, n);
    expect(answer.number == 2 && answer.row == 0 && answer.filler == 0, "a height of 0 is refused by 2");
    answer = razvolk_decode_v2(long_length, sizeof long_length, 32, 1, out, n);
    expect(answer.number == 7 && answer.row == 0 && answer.filler == 0, "no length past one that is too long is read");
    answer = razvolk_decode_v2_map(crop, sizeof crop, 32, 1, out, n, marked, n);
    expect(answer.number == 0 && answer.row == 0 && answer.filler == 0, "32 by 1 is decoded");
    expect(out[0] == 5 && out[31] == 5 && out[32] == 1 && marked[31] == 0 && marked[32] == 2, "and all else is as it was");
    free(out);
    free(marked);
}

static void planes(void) {
    static const uint16_t frame[7] = {0, 1, 2, 10, 11, 12, 5}, apart[6] = {0, 2, 1, 10, 12, 11};
    uint16_t to[7] = {9, 9, 9, 9, 9, 9, 9}, back[7] = {8, 8, 8, 8, 8, 8, 8};
    razvolk_answer answer = razvolk_to_planes(frame, 7, 3, 2, to, 7);
    expect(answer.number == 0 && memcmp(to, apart, sizeof apart) == 0 && to[6] == 9, "to_planes");
    answer = razvolk_from_planes(to, 7, 3, 2, back, 7);
    expect(answer.number == 0 && memcmp(back, frame, 6 * sizeof *frame) == 0 && back[6] == 8, "from_planes");
    answer = razvolk_to_planes(frame, 7, 3, 2, to, 5);
    expect(answer.number == 3 && answer.row == 0 && answer.filler == 0, "5 samples for the planes of 6 are refused by 3");
    answer = razvolk_from_planes(to, 5, 16385, 1, back, 7);
    expect(answer.number == 1 && answer.row == 0 && answer.filler == 0, "a width of 16,385 is refused by 1");
}

/* A frame of 3 by 2 that is written, and read back. The seventh sample, the last two bytes of stream and the third offset lie
 * past it. */
static const uint16_t image[7] = {0, 16383, 127, 128, 5, 16000, 65535};
static const uint8_t coded[26] = {0x40, 0x00, 0xc0, 0x7f, 0x00, 0x00, 0x80, 0x7f, 0x3f, 0x40, 0xf8, 0x7f, 0x00,
                                  0x00, 0x7c, 0x7f, 0x28, 0x04, 0x00, 0x00, 0x00, 0x00, 0x00, 0x00, 0x09, 0x09};
static uint8_t bytes[26];
static uint32_t rows[3];

static void nothing_written(razvolk_written written, uint32_t number, const char *what) {
    expect(written.answer.number == number && written.answer.row == 0 && written.answer.filler == 0 && written.length == 0, what);
    for (size_t i = 0; i < sizeof bytes; i++)
        expect(bytes[i] == 9, "a refusal writes no byte");
    expect(rows[0] == 9 && rows[1] == 9 && rows[2] == 9, "a refusal writes no offset");
}

static void write_v0(void) {
    razvolk_written written;
    razvolk_answer answer;
    memset(bytes, 9, sizeof bytes);
    rows[0] = rows[1] = rows[2] = 9;
    nothing_written(razvolk_write_v0(image, 7, 16385, 0, bytes, 26, rows, 3), 1, "a width of 16,385 is refused by 1");
    nothing_written(razvolk_write_v0(image, 5, 3, 2, bytes, 26, rows, 3), 3, "5 samples for 6 are refused by 3");
    nothing_written(razvolk_write_v0(image, 7, 7, 1, bytes, 0, rows, 0), 9, "a sample above 16,383 is refused by 9");
    nothing_written(razvolk_write_v0(image, 7, 3, 2, bytes, 23, rows, 3), 10, "23 bytes for 24 are refused by 10");
    nothing_written(razvolk_write_v0(image, 7, 3, 2, bytes, 26, rows, 1), 10, "1 offset for 2 is refused by 10");
    written = razvolk_write_v0(image, 7, 3, 2, bytes, 26, rows, 3);
    expect(written.answer.number == 0 && written.answer.row == 0 && written.answer.filler == 0 && written.length == 24, "write_v0");
    expect(memcmp(bytes, coded, sizeof bytes) == 0, "the stream, and what lies past it as it was");
    expect(rows[0] == 0 && rows[1] == 8 && rows[2] == 9, "the offsets, and what lies past them as it was");
    before();
    answer = razvolk_decode_v0_reference_map(bytes, 26, rows, 3, 3, 2, samples, 7, map, 7);
    expect(answer.number == 0 && memcmp(samples, image, 6 * sizeof *image) == 0, "decoded, it is the frame again");
    expect(map[0] == 0 && map[5] == 0 && map[6] == 9 && samples[6] == 77, "with no map byte 1");
    expect(RAZVOLK_V0_MOST(3, 2) == 72 && RAZVOLK_V0_MOST(16384, 16384) == 555745280, "RAZVOLK_V0_MOST");
}

/* A frame of 3 by 2 with marks, blanked and exported. The seventh sample and the last number of the list lie past it. */
static void blank(void) {
    static const uint16_t old[7] = {5, 60000, 60001, 6, 60002, 7, 77};
    static const uint8_t marked[6] = {0, 1, 1, 0, 1, 0};
    static const uint32_t told[7] = {0, 1, 2, 1, 1, 1, 9};
    uint16_t frame[7], back[6];
    uint32_t list[7], table[2];
    uint8_t coded_frame[72];
    memcpy(frame, old, sizeof frame);
    for (int i = 0; i < 7; i++)
        list[i] = 9;
    razvolk_blanked blanked = razvolk_blank(frame, 7, marked, 6, 3, 2, list, 5);
    expect(blanked.answer.number == 13 && blanked.answer.row == 0 && blanked.count == 0 && blanked.runs == 0,
           "5 numbers for two runs are refused by 13");
    expect(memcmp(frame, old, sizeof frame) == 0 && list[0] == 9, "and nothing is written");
    blanked = razvolk_blank_with(frame, 7, marked, 6, 3, 2, 513, list, 7);
    expect(blanked.answer.number == 0 && blanked.answer.row == 0 && blanked.count == 3 && blanked.runs == 2, "blank_with");
    expect(frame[0] == 5 && frame[1] == 513 && frame[2] == 513 && frame[4] == 513 && frame[5] == 7 && frame[6] == 77,
           "the marked samples are the fill");
    expect(memcmp(list, told, sizeof list) == 0, "the runs, and what lies past them as it was");
    blanked = razvolk_blank(frame, 7, marked, 6, 3, 2, list, 6);
    expect(blanked.answer.number == 0 && blanked.count == 3 && frame[1] == 0 && frame[2] == 5 && frame[4] == 0 && frame[3] == 6,
           "blank takes what lies two to the left, or 0");
    blanked = razvolk_blank(frame, 7, (const uint8_t *)"\0\1\0\0\0\4", 6, 3, 2, list, 0);
    expect(blanked.answer.number == RAZVOLK_BAD_MAP, "a map byte 4 is refused by 14, before 13");
    memcpy(frame, old, sizeof frame);
    razvolk_exported exported = razvolk_export_v0(frame, 7, marked, 6, 3, 2, list, 7, coded_frame, 0, table, 2);
    expect(exported.answer.number == 10 && exported.count == 3 && exported.runs == 2 && exported.length == 0 && frame[1] == 0,
           "an export that can't be written is blanked");
    memcpy(frame, old, sizeof frame);
    exported = razvolk_export_v0(frame, 7, marked, 6, 3, 2, list, 7, coded_frame, sizeof coded_frame, table, 2);
    expect(exported.answer.number == 0 && exported.count == 3 && exported.runs == 2 && exported.length > 0, "export_v0");
    razvolk_answer answer = razvolk_decode_v0_reference(coded_frame, (size_t)exported.length, table, 2, 3, 2, back, 6);
    expect(answer.number == 0 && memcmp(back, frame, sizeof back) == 0, "decoded, it is the blanked frame");
}

static void v0_to_v2(void) {
    enum { WIDTH = 48, HEIGHT = 5, N = WIDTH * HEIGHT };
    static uint16_t frame[N], back[N];
    static uint8_t v0[RAZVOLK_V0_MOST(WIDTH, HEIGHT)], v2[RAZVOLK_V2_MOST(WIDTH, HEIGHT)], marks[N];
    static uint32_t table[HEIGHT];
    for (size_t i = 0; i < N; i++)
        frame[i] = (uint16_t)(i * 7 % 16384);
    razvolk_written written = razvolk_write_v0(frame, N, WIDTH, HEIGHT, v0, sizeof v0, table, HEIGHT);
    size_t length = (size_t)written.length;
    memset(v2, 9, sizeof v2);
    memset(marks, 9, sizeof marks);
    written = razvolk_v0_to_v2(v0, length, table, HEIGHT, 16, HEIGHT, back, N, marks, N, v2, sizeof v2);
    expect(written.answer.number == RAZVOLK_TOO_SMALL && written.length == 0, "16 columns are refused by 2");
    written = razvolk_v0_to_v2(v0, length, table, HEIGHT, WIDTH, 0, back, N, marks, N, v2, sizeof v2);
    expect(written.answer.number == RAZVOLK_TOO_SMALL && written.length == 0, "no rows are refused by 2");
    written = razvolk_v0_to_v2(v0, length, table, HEIGHT, 47, HEIGHT, back, N, marks, N, v2, sizeof v2);
    expect(written.answer.number == RAZVOLK_BAD_WIDTH && marks[0] == 9, "47 columns are refused by 15");
    written = razvolk_v0_to_v2(v0, length, table, HEIGHT, WIDTH, HEIGHT, back, N, marks, N, v2, 15);
    expect(written.answer.number == RAZVOLK_SHORT_OUTPUT && v2[0] == 9, "15 bytes are refused by 10");
    expect(memcmp(back, frame, sizeof frame) == 0 && marks[0] == 0, "the frame is decoded under 10");
    written = razvolk_v0_to_v2(v0, length, table, HEIGHT, WIDTH, HEIGHT, back, N, marks, N, v2, sizeof v2);
    expect(written.answer.number == RAZVOLK_DONE && v2[1] == 13 && v2[9] == 7, "v0_to_v2");
    expect(written.length < sizeof v2 && v2[written.length] == 9, "what lies past the stream is as it was");
    memset(back, 9, sizeof back);
    razvolk_answer answer = razvolk_decode_v2_map(v2, (size_t)written.length, WIDTH, HEIGHT, back, N, marks, N);
    expect(answer.number == RAZVOLK_DONE && memcmp(back, frame, sizeof frame) == 0, "decoded, it is the frame again");
    v0[3] |= 0x80; /* The first block predicts from the row above. */
    memset(v2, 9, sizeof v2);
    written = razvolk_v0_to_v2(v0, length, table, HEIGHT, WIDTH, HEIGHT, back, N, marks, N, v2, sizeof v2);
    expect(written.answer.number == RAZVOLK_MARKED && v2[0] == 9, "a marked sample is refused by 16");
    expect(RAZVOLK_V2_MOST(16, 1) == 64 && RAZVOLK_V2_MOST(16384, 16384) == 555745296, "RAZVOLK_V2_MOST");
}

/* What another program packed: row 2 looks up, and takes 4 bytes where the writer's takes 8. */
static void check_packed(void) {
    static const uint8_t upward[20] = {36, 0, 192, 127, 0, 0, 0, 0, 43, 0, 200, 127, 0, 0, 0, 0, 0, 0, 128, 255};
    static const uint8_t longer[5] = {0x00, 0x00, 0x80, 0x7f, 0};
    static const uint32_t rows[3] = {0, 8, 16}, early[3] = {0, 16, 16};
    uint16_t meant[3] = {200, 300, 300}, other[3] = {200, 300, 301}, bright[3] = {200, 300, 16384}, grey[1] = {128};
    uint16_t left[4] = {7, 7, 7, 7};
    razvolk_answer answer = razvolk_check_packed(upward, 20, early, 3, 1, 3, bright, 3, left, 2);
    expect(answer.number == RAZVOLK_TOO_BRIGHT && answer.row == 0, "9 comes before 3 of the scratch and 17");
    answer = razvolk_check_packed(upward, 20, early, 3, 1, 3, meant, 3, left, 2);
    expect(answer.number == RAZVOLK_SHORT_SAMPLES && answer.row == 0, "2 scratch samples are refused by 3");
    answer = razvolk_check_packed(upward, 20, early, 3, 1, 3, meant, 3, left, 4);
    expect(answer.number == RAZVOLK_EARLY_UPWARD && answer.row == 1 && answer.filler == 0, "row 1 looks up");
    answer = razvolk_check_packed(longer, 5, rows, 3, 1, 1, grey, 1, left, 4);
    expect(answer.number == RAZVOLK_LONG_STREAM && left[0] == 7, "a byte more than the writer's is refused by 21");
    answer = razvolk_check_packed(upward, 20, rows, 3, 1, 3, meant, 3, left, 4);
    expect(answer.number == RAZVOLK_DONE && answer.row == 0 && answer.filler == 0, "check_packed");
    expect(memcmp(left, meant, sizeof meant) == 0 && left[3] == 7, "the scratch holds the frame, and what lies past it");
    left[2] = 7;
    answer = razvolk_check_packed(upward, 20, rows, 3, 1, 3, other, 3, left, 4);
    expect(answer.number == RAZVOLK_OTHER_SAMPLE && left[2] == 300, "another sample is refused by 20, and the scratch holds it");
}

/* NULL with length 0, wherever a slice may have no elements. */
static void null(void) {
    static const uint32_t one[1] = {0};
    uint16_t sample[1] = {7};
    razvolk_bits state = {0, 0, 0, 0};
    razvolk_answer answer = razvolk_decode_v0_reference(NULL, 0, NULL, 0, 5, 0, NULL, 0);
    expect(answer.number == RAZVOLK_DONE, "decode_v0_reference of NULL");
    answer = razvolk_decode_v0_reference_map(NULL, 0, NULL, 0, 0, 0, NULL, 0, NULL, 0);
    expect(answer.number == RAZVOLK_DONE, "decode_v0_reference_map of NULL");
    answer = razvolk_decode_v0_clean(NULL, 0, one, 1, 1, 1, sample, 1);
    expect(answer.number == RAZVOLK_EARLY_UPWARD && sample[0] == 7, "decode_v0_clean of NULL");
    answer = razvolk_decode_v0_clean_map(NULL, 0, NULL, 0, 5, 0, NULL, 0, NULL, 0);
    expect(answer.number == RAZVOLK_DONE, "decode_v0_clean_map of NULL");
    answer = razvolk_decode_v0(NULL, 0, one, 1, 1, 1, sample, 1, NULL, 0);
    expect(answer.number == RAZVOLK_DONE && sample[0] == 7, "decode_v0 of NULL");
    answer = razvolk_decode_v0_bands(NULL, 0, NULL, 0, 0, 0, NULL, 0, NULL, 0, 1, 16, NULL, 0);
    expect(answer.number == RAZVOLK_DONE, "decode_v0_bands of NULL");
    answer = razvolk_decode_v2(NULL, 0, 646, 436, NULL, 0);
    expect(answer.number == RAZVOLK_SHORT_SAMPLES, "decode_v2 of NULL");
    answer = razvolk_decode_v2_map(NULL, 0, 32, 0, NULL, 0, NULL, 0);
    expect(answer.number == RAZVOLK_TOO_SMALL, "decode_v2_map of NULL");
    answer = razvolk_to_planes(NULL, 0, 0, 9, NULL, 0);
    expect(answer.number == RAZVOLK_DONE, "to_planes of NULL");
    answer = razvolk_from_planes(NULL, 0, 3, 1, NULL, 0);
    expect(answer.number == RAZVOLK_SHORT_SAMPLES, "from_planes of NULL");
    razvolk_written written = razvolk_write_v0(NULL, 0, 9, 0, NULL, 0, NULL, 0);
    expect(written.answer.number == RAZVOLK_DONE && written.length == 0, "write_v0 of NULL");
    razvolk_blanked blanked = razvolk_blank(NULL, 0, NULL, 0, 9, 0, NULL, 0);
    expect(blanked.answer.number == RAZVOLK_DONE && blanked.count == 0, "blank of NULL");
    blanked = razvolk_blank_with(sample, 1, NULL, 0, 1, 1, 9, NULL, 0);
    expect(blanked.answer.number == RAZVOLK_SHORT_MAP && sample[0] == 7, "blank_with of NULL");
    razvolk_exported exported = razvolk_export_v0(NULL, 0, NULL, 0, 0, 0, NULL, 0, NULL, 0, NULL, 0);
    expect(exported.answer.number == RAZVOLK_DONE && exported.length == 0, "export_v0 of NULL");
    written = razvolk_v0_to_v2(NULL, 0, NULL, 0, 16, 1, NULL, 0, NULL, 0, NULL, 0);
    expect(written.answer.number == RAZVOLK_TOO_SMALL && written.length == 0, "v0_to_v2 of NULL");
    answer = razvolk_check_packed(NULL, 0, NULL, 0, 5, 0, NULL, 0, NULL, 0);
    expect(answer.number == RAZVOLK_DONE, "check_packed of NULL");
    razvolk_got got = razvolk_get(NULL, 0, state, 8);
    expect(got.value == 255 && got.bits.filler == 1, "get of NULL");
}

static void named(void) {
    char version[32];
    snprintf(version, sizeof version, "%d.%d.%d", RAZVOLK_VERSION_MAJOR, RAZVOLK_VERSION_MINOR, RAZVOLK_VERSION_PATCH);
    expect(strcmp(version, RAZVOLK_VERSION) == 0, "the version is its three numbers");
    razvolk_answer answer = razvolk_decode_v2(NULL, 0, RAZVOLK_MOST_SIDE + 1, 0, NULL, 0);
    expect(answer.number == RAZVOLK_TOO_LARGE, "RAZVOLK_MOST_SIDE");
    answer = razvolk_decode_v2(NULL, 0, RAZVOLK_MOST_SIDE, RAZVOLK_V2_LEAST_HEIGHT - 1, NULL, 0);
    expect(answer.number == RAZVOLK_TOO_SMALL, "RAZVOLK_V2_LEAST_HEIGHT");
    answer = razvolk_decode_v2(NULL, 0, RAZVOLK_V2_LEAST_WIDTH, RAZVOLK_V2_LEAST_HEIGHT, NULL, 0);
    expect(answer.number == RAZVOLK_SHORT_SAMPLES, "RAZVOLK_V2_LEAST_WIDTH");
    for (unsigned more = 0; more < 2; more++) {
        uint16_t sample = (uint16_t)(RAZVOLK_V0_MOST_SAMPLE + more);
        razvolk_written written = razvolk_write_v0(&sample, 1, 1, 1, NULL, 0, NULL, 0);
        expect(written.answer.number == (more == 0 ? RAZVOLK_SHORT_OUTPUT : RAZVOLK_TOO_BRIGHT), "RAZVOLK_V0_MOST_SAMPLE");
    }
}

int main(void) {
    reader();
    v0_reference();
    v0_clean();
    v0();
    v0_bands();
    v2();
    planes();
    write_v0();
    blank();
    v0_to_v2();
    check_packed();
    null();
    named();
    puts(failed ? "header: FAILED" : "header: ok");
    return failed;
}
