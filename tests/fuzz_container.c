/* What libFuzzer calls: the functions of include/razvolk_srw.h on any file, held to what the header says of each answer, and the
 * decoders on the frame that is found, if it is small. `make fuzz-container` builds this with the address and undefined sanitizers,
 * and the library with counters of the edges that a file reaches. */
#include "razvolk.h"
#include "razvolk_srw.h"

#include <stdio.h>
#include <stdlib.h>
#include <string.h>

/* What is lent to be written holds this at first. */
#define OLD 0x5a

/* The most samples of a frame that is decoded. */
#define MOST_SAMPLES 65536

static void expect(int holds, const char *what) {
    if (!holds) {
        fprintf(stderr, "container: %s\n", what);
        abort();
    }
}

static void *memory(size_t bytes) {
    void *room = malloc(bytes);
    expect(room != NULL || bytes == 0, "there is memory");
    if (bytes > 0)
        memset(room, OLD, bytes);
    return room;
}

static int within(const void *part, size_t len, const uint8_t *file, size_t file_len) {
    const uint8_t *start = (const uint8_t *)part;
    return part == NULL ? len == 0 : start >= file && len <= file_len && (size_t)(start - file) <= file_len - len;
}

static int untouched(const void *lent, size_t bytes) {
    const uint8_t *data = (const uint8_t *)lent;
    for (size_t i = 0; i < bytes; i++)
        if (data[i] != OLD)
            return 0;
    return 1;
}

/* Words, into no bytes, one byte, some and all: cut where they don't fit, and always ended by a zero. */
static size_t words(const uint8_t *file, size_t len) {
    size_t whole = razvolk_srw_text(file, len, NULL, 0);
    for (size_t lent = 1; lent <= whole + 2; lent += lent == 1 ? whole / 2 + 1 : whole / 2 + 2) {
        char *text = memory(lent);
        size_t held = lent - 1 < whole ? lent - 1 : whole;
        expect(razvolk_srw_text(file, len, text, lent) == whole, "the words are as long for any buffer");
        expect(text[held] == 0 && memchr(text, 0, held) == NULL, "a zero ends the words, and is not in them");
        expect(untouched(text + held + 1, lent - held - 1), "bytes past the words stay");
        free(text);
    }
    return whole;
}

static void decode(const razvolk_srw_frame *frame, const uint32_t *offsets) {
    if (frame->width > MOST_SAMPLES || frame->height > MOST_SAMPLES || frame->width * frame->height > MOST_SAMPLES)
        return;
    size_t n = frame->width * frame->height;
    uint16_t *samples = memory(2 * n);
    uint8_t *map = memory(n);
    razvolk_answer answer =
        frame->version == 0
            ? razvolk_decode_v0_reference_map(frame->stream, frame->stream_len, offsets, frame->offsets, frame->width, frame->height,
                                              samples, n, map, n)
            : razvolk_decode_v2_map(frame->stream, frame->stream_len, frame->width, frame->height, samples, n, map, n);
    expect(answer.number <= RAZVOLK_OVERRUN && answer.number != RAZVOLK_SHORT_MAP, "the decoder's answer");
    free(samples);
    free(map);
}

/* What is written of a frame is found again. A V0 frame too high to be decoded comes without offsets, and makes no file. */
static void write_again(const razvolk_srw_frame *frame, const uint32_t *offsets) {
    size_t room = frame->stream_len + 4 * frame->offsets + frame->model_len + 1024;
    uint8_t *file = memory(room);
    uint32_t *rows = memory(4 * frame->offsets);
    razvolk_srw_frame found;
    size_t len = razvolk_srw_write(frame, offsets, file, room);
    expect((len > 0) == (frame->version == 2 || frame->offsets == frame->height), "a frame with its offsets makes a file");
    expect(len <= room && untouched(file + len, room - len), "bytes past the file stay");
    if (len > 0) {
        razvolk_srw_answer answer = razvolk_srw_find(file, len, &found, rows, frame->offsets);
        expect(answer.number == RAZVOLK_SRW_FOUND && found.offsets == frame->offsets, "what is written is found");
        expect(memcmp(rows, offsets, 4 * frame->offsets) == 0, "with its offsets");
        expect(found.width == frame->width && found.height == frame->height && found.orientation == frame->orientation &&
                   memcmp(found.colours, frame->colours, sizeof found.colours) == 0,
               "with its size, colours and orientation");
        expect(found.stream_len == frame->stream_len && (frame->stream_len == 0 || memcmp(found.stream, frame->stream, frame->stream_len) == 0),
               "and with its stream");
    }
    free(file);
    free(rows);
}

static void find(const uint8_t *file, size_t len, size_t lent) {
    razvolk_srw_frame *frame = memory(sizeof *frame), again;
    uint32_t *offsets = memory(4 * lent);
    razvolk_srw_answer answer = razvolk_srw_find(file, len, frame, offsets, lent);
    memset(&again, OLD, sizeof again);
    expect(answer.number <= RAZVOLK_SRW_SHORT_OFFSETS, "the answer is one of the list");
    expect((words(file, len) == 0) == (answer.number == RAZVOLK_SRW_FOUND || answer.number == RAZVOLK_SRW_SHORT_OFFSETS),
           "there are words where there is no frame");
    if (answer.number != RAZVOLK_SRW_FOUND)
        expect(untouched(offsets, 4 * lent), "offsets stay unless the frame is found");
    if (answer.number == RAZVOLK_SRW_SHORT_OFFSETS)
        expect(frame->offsets > lent && answer.value == frame->offsets, "how many offsets there are");
    if (answer.number == RAZVOLK_SRW_FOUND || answer.number == RAZVOLK_SRW_SHORT_OFFSETS) {
        expect(frame->version == 0 || frame->version == 2, "the version");
        expect(within(frame->stream, frame->stream_len, file, len) && within(frame->model, frame->model_len, file, len),
               "stream and model lie in the file");
        expect(frame->offsets == (frame->version == 0 && frame->height <= RAZVOLK_SRW_MOST_OFFSETS ? frame->height : 0),
               "V0 has an offset for each row");
        expect(frame->orientation <= 8, "the orientation");
    } else {
        expect(frame->width == 0 && frame->height == 0 && frame->stream == NULL && frame->stream_len == 0 && frame->missing == 0 &&
                   frame->offsets == 0 && frame->model == NULL && frame->model_len == 0,
               "no frame is all 0");
    }
    if (answer.number == RAZVOLK_SRW_FOUND) {
        expect(untouched(offsets + frame->offsets, 4 * (lent - frame->offsets)), "offsets past the rows stay");
        decode(frame, offsets);
        write_again(frame, offsets);
    }
    razvolk_srw_answer second = razvolk_srw_find(file, len, &again, NULL, 0);
    expect(second.number == answer.number || second.number == RAZVOLK_SRW_SHORT_OFFSETS, "the same file answers the same");
    expect(again.width == frame->width && again.stream == frame->stream && again.missing == frame->missing, "the same frame");
    free(frame);
    free(offsets);
}

int LLVMFuzzerTestOneInput(const uint8_t *data, size_t len) {
    uint8_t *file = memory(len);
    if (len > 0)
        memcpy(file, data, len);
    find(file, len, len % 3 == 0 ? RAZVOLK_SRW_MOST_OFFSETS : len % 64);
    free(file);
    return 0;
}
