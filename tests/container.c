/* Calls every function of include/razvolk_srw.h from C, and from C++: that header and library agree on how the structures are laid
 * out, and that any bytes are answered. Each file touches a page that can't be read, so that a read past its end ends the program. */
#define _DEFAULT_SOURCE
#include "razvolk_srw.h"

#include <stdbool.h>
#include <stdio.h>
#include <stdlib.h>
#include <string.h>
#include <sys/mman.h>
#include <unistd.h>

static int failed = 0;

static void expect(bool holds, const char *what) {
    if (!holds) {
        printf("not so: %s\n", what);
        failed = 1;
    }
}

/* ---- A file, its end beside a page that can't be touched. */

static uint8_t *edge;

static void open_pages(void) {
    size_t page = (size_t)sysconf(_SC_PAGESIZE);
    uint8_t *base = (uint8_t *)mmap(NULL, 2 * page, PROT_READ | PROT_WRITE, MAP_PRIVATE | MAP_ANONYMOUS, -1, 0);
    if (base == MAP_FAILED || mprotect(base + page, page, PROT_NONE) != 0) {
        puts("container: there is no memory");
        exit(1);
    }
    edge = base + page;
}

static const uint8_t *at_edge(const uint8_t *file, size_t len) {
    if (len > 0)
        memcpy(edge - len, file, len);
    return edge - len;
}

/* ---- A V0 frame of 2 by 2: a directory with the model behind it, the table, the stream. */

enum { ENTRIES = 12, MODEL = 8 + 2 + 12 * ENTRIES + 4, TABLE = MODEL + 6, STREAM = TABLE + 8, END = STREAM + 12 };

static uint8_t file[END];

static void number(size_t at, size_t bytes, uint32_t value) {
    for (size_t i = 0; i < bytes; i++)
        file[at + i] = (uint8_t)(value >> 8 * i);
}

static void entry(size_t i, uint32_t tag, uint32_t type, uint32_t count, uint32_t value) {
    size_t at = 10 + 12 * i;
    number(at, 2, tag);
    number(at + 2, 2, type);
    number(at + 4, 4, count);
    number(at + 8, 4, value);
}

static void make_file(void) {
    static const uint8_t stream[12] = {0x00, 0x00, 0x00, 0x80, 0x18, 0x20, 0xa0, 0x7f, 0x00, 0x00, 0x70, 0x00};
    memcpy(file, "II*\0\10\0\0\0", 8);
    number(8, 2, ENTRIES);
    entry(0, 256, 4, 1, 2);
    entry(1, 257, 3, 1, 2);
    entry(2, 258, 3, 1, 12);
    entry(3, 259, 3, 1, 32770);
    entry(4, 272, 2, 6, MODEL);
    entry(5, 273, 4, 1, STREAM);
    entry(6, 274, 3, 1, 6);
    entry(7, 279, 4, 1, 12);
    entry(8, 33421, 3, 2, 0x00020002);
    entry(9, 33422, 1, 4, 0x01000201);
    entry(10, 40976, 4, 1, TABLE);
    entry(11, 40977, 4, 1, 8);
    memcpy(file + MODEL, "NX300\0", 6);
    number(TABLE, 4, 0);
    number(TABLE + 4, 4, 4);
    memcpy(file + STREAM, stream, sizeof stream);
}

/* ---- What must hold of every answer. */

static razvolk_srw_frame frame;
static uint32_t offsets[3];

static razvolk_srw_answer find(const uint8_t *bytes, size_t len, size_t rows) {
    static const razvolk_srw_frame none = {0, 0, 0, 0, NULL, 0, 0, 0, NULL, 0, {255, 255, 255, 255}, 0};
    const uint8_t *lent = at_edge(bytes, len);
    char text[200] = "before";
    memset(&frame, 0xa5, sizeof frame);
    offsets[0] = offsets[1] = offsets[2] = 9;
    razvolk_srw_answer answer = razvolk_srw_find(lent, len, &frame, offsets, rows);
    expect(answer.number <= 9, "the numbers are 0 to 9");
    bool found = answer.number == RAZVOLK_SRW_FOUND || answer.number == RAZVOLK_SRW_SHORT_OFFSETS;
    if (!found)
        expect(frame.width == none.width && frame.stream == NULL && frame.stream_len == 0 && frame.offsets == 0 &&
                   frame.version == 0 && frame.height == 0 && frame.bits == 0 && frame.missing == 0 && frame.model == NULL &&
                   frame.model_len == 0 && memcmp(frame.colours, none.colours, 4) == 0 && frame.orientation == 0,
               "a fault leaves no frame");
    expect(frame.stream_len == 0 ? frame.stream == NULL : frame.stream >= lent && frame.stream_len <= (size_t)(edge - frame.stream),
           "the stream lies in the file");
    const uint8_t *model = (const uint8_t *)frame.model;
    expect(frame.model_len == 0 ? model == NULL : model >= lent && frame.model_len <= (size_t)(edge - model), "and so does the model");
    expect(frame.offsets <= RAZVOLK_SRW_MOST_OFFSETS && frame.orientation <= 8, "offsets and orientation");
    expect(answer.number != RAZVOLK_SRW_FOUND || frame.offsets <= rows, "offsets fit");
    for (size_t i = answer.number == RAZVOLK_SRW_FOUND ? frame.offsets : 0; i < 3; i++)
        expect(offsets[i] == 9, "offsets past those of the frame are as they were");
    size_t words = razvolk_srw_text(lent, len, text, sizeof text);
    expect(found ? words == 0 && text[0] == 0 : words > 0 && strlen(text) == (words < 199 ? words : 199), "the words");
    return answer;
}

static void whole(void) {
    razvolk_srw_answer answer = find(file, END, 3);
    expect(answer.number == RAZVOLK_SRW_FOUND && answer.value == 0, "the frame is found");
    expect(frame.version == 0 && frame.bits == 12 && frame.width == 2 && frame.height == 2, "version, bits and size");
    expect(frame.stream == edge - 12 && frame.stream_len == 12 && frame.missing == 0, "the stream");
    expect(frame.offsets == 2 && offsets[0] == 0 && offsets[1] == 4, "the offsets");
    expect(frame.model_len == 5 && memcmp(frame.model, "NX300", 5) == 0, "the model");
    expect(frame.colours[0] == RAZVOLK_SRW_GREEN && frame.colours[1] == RAZVOLK_SRW_BLUE &&
               frame.colours[2] == RAZVOLK_SRW_RED && frame.colours[3] == RAZVOLK_SRW_GREEN && frame.orientation == 6,
           "the colours and the orientation");
    answer = find(file, END - 3, 3);
    expect(answer.number == RAZVOLK_SRW_FOUND && frame.stream_len == 9 && frame.missing == 3, "three bytes are missing");
    answer = find(file, END, 1);
    expect(answer.number == RAZVOLK_SRW_SHORT_OFFSETS && answer.value == 2 && frame.offsets == 2, "2 offsets do not fit 1");
    answer = find(file, TABLE + 4, 3);
    expect(answer.number == RAZVOLK_SRW_SHORT_TABLE && answer.value == 1, "one row is left of the table");
}

static void faults(void) {
    char text[8] = "before";
    expect(find(NULL, 0, 0).number == RAZVOLK_SRW_NOT_TIFF, "no bytes");
    expect(razvolk_srw_find(NULL, 0, &frame, NULL, 0).number == RAZVOLK_SRW_NOT_TIFF, "NULL");
    expect(razvolk_srw_text(NULL, 0, NULL, 0) == 15, "not a TIFF file has 15 letters, though none is written");
    expect(razvolk_srw_text(NULL, 0, text, 4) == 15 && strcmp(text, "not") == 0, "and only three fit four bytes");
    expect(text[4] == 'r', "what lies behind them is as it was");
    expect(razvolk_srw_refusal_text(0, 0, text, 8) == 0 && text[0] == 0, "done has no words");
    for (uint32_t refusal = 1; refusal < 23; refusal++) {
        char told[100], again[100];
        size_t words = razvolk_srw_refusal_text(refusal, 435, told, sizeof told);
        expect(words > 0 && words < sizeof told && strlen(told) == words, "each refusal has words");
        razvolk_srw_refusal_text(refusal - 1, 435, again, sizeof again);
        expect(strcmp(told, again) != 0, "and its own");
    }
    const struct {
        size_t i;
        uint32_t tag, value, number, told;
    } cases[] = {
        {3, 259, 1, RAZVOLK_SRW_NO_FRAME, 0},      {3, 259, 32772, RAZVOLK_SRW_V1, 0},
        {3, 259, 32773, RAZVOLK_SRW_FOUND, 0},     {0, 254, 2, RAZVOLK_SRW_MISSING_TAG, 256},
        {10, 40978, 2, RAZVOLK_SRW_UNCOMPRESSED, 0},
    };
    for (size_t i = 0; i < sizeof cases / sizeof *cases; i++) {
        make_file();
        entry(cases[i].i, cases[i].tag, 4, 1, cases[i].value);
        razvolk_srw_answer answer = find(file, END, 3);
        expect(answer.number == cases[i].number && answer.value == cases[i].told, "a directory with a fault");
    }
    make_file();
    entry(3, 259, 4, 1, 32773);
    entry(10, 40978, 4, 1, 2);
    expect(find(file, END, 3).number == RAZVOLK_SRW_PACKBITS, "PackBits");
    make_file();
    entry(5, 273, 4, 2, TABLE);
    razvolk_srw_answer answer = find(file, END, 3);
    expect(answer.number == RAZVOLK_SRW_STRIPS && answer.value == 2, "two strips");
    make_file();
    entry(0, 256, 4, 1, UINT32_MAX);
    entry(1, 257, 4, 1, UINT32_MAX);
    answer = find(file, END, 3);
    expect(answer.number == RAZVOLK_SRW_FOUND && frame.width == UINT32_MAX && frame.height == UINT32_MAX && frame.offsets == 0,
           "any size costs nothing");
    make_file();
}

static void written(void) {
    static uint8_t made[END + 1024];
    find(file, END, 3);
    const razvolk_srw_frame whole = frame;
    size_t len = razvolk_srw_write(&whole, offsets, NULL, 0);
    expect(len > 12 && len <= sizeof made, "a file has a length");
    memset(made, 9, sizeof made);
    expect(razvolk_srw_write(&whole, offsets, made, len - 1) == len && made[0] == 9, "one that doesn't fit is not written");
    expect(razvolk_srw_write(&whole, offsets, made, sizeof made) == len && made[len] == 9, "the file, and what lies past it");
    expect(find(made, len, 3).number == RAZVOLK_SRW_FOUND, "it is read again");
    expect(frame.version == 0 && frame.bits == 12 && frame.width == 2 && frame.height == 2 && frame.orientation == 6 &&
               offsets[1] == 4 && frame.stream_len == 12 && memcmp(frame.stream, file + STREAM, 12) == 0 &&
               frame.model_len == 5 && memcmp(frame.model, "NX300", 5) == 0 && frame.colours[1] == RAZVOLK_SRW_BLUE,
           "with all that it told");
    for (int fault = 0; fault < 8; fault++) {
        razvolk_srw_frame wrong = whole;
        switch (fault) {
        case 0: wrong.version = 1; break;
        case 1: wrong.offsets = 1; break;
        case 2: wrong.version = 2; break;
        case 3: wrong.orientation = 9; break;
        case 4: wrong.colours[2] = 3; break;
        case 5: wrong.colours[2] = RAZVOLK_SRW_NO_COLOUR; break;
        case 6: wrong.model = "NX\n"; wrong.model_len = 3; break;
        default: wrong.width = (size_t)UINT32_MAX + 1;
        }
        memset(made, 9, sizeof made);
        expect(razvolk_srw_write(&wrong, offsets, made, sizeof made) == 0 && made[0] == 9, "a frame that no file can hold");
    }
}

/* Broken off at each byte, with each byte changed, and damaged at random. */
static unsigned long damaged(void) {
    static uint8_t bytes[END];
    uint64_t state = 88172645463325252ULL;
    unsigned long files = 0, numbers[10] = {0};
    for (size_t len = 0; len <= END; len++, files++)
        find(file, len, 3);
    for (size_t i = 0; i < END; i++)
        for (unsigned value = 0; value < 256; value++, files++) {
            memcpy(bytes, file, END);
            bytes[i] = (uint8_t)value;
            numbers[find(bytes, END, 3).number % 10]++;
        }
    for (unsigned round = 0; round < 100000; round++, files++) {
        memcpy(bytes, file, END);
        for (unsigned change = 0; change < 1 + round % 8; change++) {
            state ^= state << 13;
            state ^= state >> 7;
            state ^= state << 17;
            bytes[state % END] = (uint8_t)(state >> 32);
        }
        find(bytes, END - (size_t)(state >> 40) % (round % 2 == 0 ? 1 : END), 3);
    }
    for (unsigned i = 0; i < 10; i++)
        expect(numbers[i] > 0 || i == RAZVOLK_SRW_PACKBITS, "one byte changed gives each answer but PackBits, which takes two");
    return files;
}

int main(void) {
    open_pages();
    make_file();
    whole();
    faults();
    written();
    unsigned long files = damaged();
    printf(failed ? "container: FAILED\n" : "container: %lu files answered\n", files);
    return failed;
}
