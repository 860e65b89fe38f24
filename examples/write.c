/* Writes a frame of 3 by 2 as V0, prints its rows as they are coded, and decodes it again.
 *
 *     cc examples/write.c $(pkg-config --cflags --libs razvolk) -o write && ./write */
#include "razvolk.h"

#include <stdio.h>
#include <string.h>

#define WIDTH 3
#define HEIGHT 2

int main(void) {
    static const uint16_t samples[WIDTH * HEIGHT] = {0, 16383, 127, 128, 5, 16000};
    uint8_t stream[RAZVOLK_V0_MOST(WIDTH, HEIGHT)]; /* always long enough */
    uint32_t offsets[HEIGHT];
    uint16_t again[WIDTH * HEIGHT] = {0};

    razvolk_written written =
        razvolk_write_v0(samples, WIDTH * HEIGHT, WIDTH, HEIGHT, stream, sizeof stream, offsets, HEIGHT);
    if (written.answer.number != RAZVOLK_DONE) {
        printf("refused %u\n", (unsigned)written.answer.number);
        return 1;
    }
    printf("done, %u bytes\n", (unsigned)written.length);
    for (size_t row = 0; row < HEIGHT; row++) {
        size_t end = row + 1 < HEIGHT ? offsets[row + 1] : (size_t)written.length;
        printf("row %zu from byte %u:", row, (unsigned)offsets[row]);
        for (size_t i = offsets[row]; i < end; i++)
            printf(" %02x", stream[i]);
        puts("");
    }
    razvolk_answer answer = razvolk_decode_v0_reference(stream, (size_t)written.length, offsets, HEIGHT, WIDTH, HEIGHT, again,
                                                        WIDTH * HEIGHT);
    puts(answer.number == RAZVOLK_DONE && memcmp(again, samples, sizeof samples) == 0 ? "decoded, it is the frame again" : "WRONG");
    return 0;
}
