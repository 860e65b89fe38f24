/* call STREAM OFFSETS WIDTH HEIGHT COUNT: prints the seconds of the fastest of COUNT calls of razvolk_decode_v0_reference_map. A call
 * that takes less than a microsecond is made a thousand times, and the mean is taken. */
#include "razvolk.h"

#include <stdio.h>
#include <stdlib.h>
#include <time.h>

static void *load(const char *path, size_t *bytes) {
    FILE *file = fopen(path, "rb");
    if (file == NULL || fseek(file, 0, SEEK_END) != 0)
        exit(1);
    *bytes = (size_t)ftell(file);
    rewind(file);
    void *read = malloc(*bytes + 1);
    if (read == NULL || fread(read, 1, *bytes, file) != *bytes)
        exit(1);
    fclose(file);
    return read;
}

static double now(void) {
    struct timespec time;
    clock_gettime(CLOCK_MONOTONIC, &time);
    return (double)time.tv_sec + 1e-9 * (double)time.tv_nsec;
}

int main(int count, char **words) {
    if (count != 6)
        return 1;
    size_t stream_len, table_len, width = strtoul(words[3], NULL, 10), height = strtoul(words[4], NULL, 10);
    const uint8_t *stream = (const uint8_t *)load(words[1], &stream_len);
    const uint32_t *offsets = (const uint32_t *)load(words[2], &table_len);
    uint16_t *samples = (uint16_t *)calloc(width * height, 2);
    uint8_t *map = (uint8_t *)calloc(width * height, 1);
    unsigned repeat = width * height < 100 ? 1000 : 1;
    double best = 1e9;
    for (long i = 0; i < strtol(words[5], NULL, 10); i++) {
        double began = now();
        for (unsigned j = 0; j < repeat; j++)
            if (razvolk_decode_v0_reference_map(stream, stream_len, offsets, table_len / 4, width, height, samples, width * height,
                                                map, width * height)
                    .number != 0)
                return 1;
        double taken = (now() - began) / repeat;
        best = taken < best ? taken : best;
    }
    printf("%.9f\n", best);
    return 0;
}
