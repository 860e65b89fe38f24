/* Decodes a V0 frame of 2 by 2 over an old buffer, and prints its rows, with a star at each sample that rests on what the
 * buffer held before, or on words that the stream lacks.
 *
 *     cc examples/decode.c $(pkg-config --cflags --libs razvolk) -o decode && ./decode */
#include "razvolk.h"

#include <stdio.h>

#define WIDTH 2
#define HEIGHT 2

int main(void) {
    static const uint8_t stream[] = {0x00, 0x00, 0x00, 0x80, 0x18, 0x20, 0xa0, 0x7f, 0x00, 0x00, 0x70, 0x00};
    static const uint32_t offsets[HEIGHT] = {0, 4};
    uint16_t samples[WIDTH * HEIGHT] = {0}; /* what a worker decoded before */
    uint8_t map[WIDTH * HEIGHT];

    razvolk_answer answer = razvolk_decode_v0_reference_map(stream, sizeof stream, offsets, HEIGHT, WIDTH, HEIGHT, samples,
                                                            WIDTH * HEIGHT, map, WIDTH * HEIGHT);
    if (answer.number != RAZVOLK_DONE) {
        printf("refused %u\n", (unsigned)answer.number);
        return 1;
    }
    printf("done, %u words missing\n", (unsigned)answer.filler);
    for (size_t row = 0; row < HEIGHT; row++) {
        printf("%zu:", row);
        for (size_t i = row * WIDTH; i < (row + 1) * WIDTH; i++)
            printf(" %u%s", (unsigned)samples[i], map[i] != 0 ? "*" : "");
        puts("");
    }
    return 0;
}
