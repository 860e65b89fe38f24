/* Prints the samples of a raw file as LibRaw reads them, margins included: a PGM file of 16 bits, highest byte first.
 *
 *     cc tests/libraw.c $(pkg-config --cflags --libs libraw) -o libraw && ./libraw FILE > FILE.pgm */
#include <libraw/libraw.h>

#include <stdio.h>

int main(int argc, char **argv) {
    libraw_data_t *raw = libraw_init(0);
    if (argc != 2 || raw == NULL)
        return 2;
    int status = libraw_open_file(raw, argv[1]);
    if (status == LIBRAW_SUCCESS)
        status = libraw_unpack(raw);
    if (status != LIBRAW_SUCCESS || raw->rawdata.raw_image == NULL) {
        fprintf(stderr, "LibRaw: %s: %s\n", argv[1], libraw_strerror(status));
        return 1;
    }
    unsigned width = raw->sizes.raw_width, height = raw->sizes.raw_height;
    printf("P5\n%u %u\n65535\n", width, height);
    for (unsigned row = 0; row < height; row++) {
        const unsigned short *samples = raw->rawdata.raw_image + (size_t)row * (raw->sizes.raw_pitch / 2);
        for (unsigned col = 0; col < width; col++) {
            putchar(samples[col] >> 8);
            putchar(samples[col] & 255);
        }
    }
    libraw_close(raw);
    return 0;
}
