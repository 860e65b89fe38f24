/* Razvolk: Samsung raw decoders and a writer in Rattle, for C and C++ on x86-64 Linux. Link librazvolk.a or
 * librazvolk.so.0.
 *
 * Every function is proved to return on every input. A slice is a pointer and a length in elements: the pointer must be good
 * for that many elements, and may be NULL where the length is 0. Slices that are written must overlap no other slice of the
 * call.
 *
 * There is no state at all: nothing is kept from call to call, allocated or locked. Any number of threads may call at once, as
 * long as no thread writes a slice that another one reads or writes.
 *
 * No call uses more than 8,192 bytes of stack, beside what the C library's memset and memcpy use. */
#ifndef RAZVOLK_H
#define RAZVOLK_H

#include <stddef.h>
#include <stdint.h>

#ifdef __cplusplus
extern "C" {
#endif

#define RAZVOLK_VERSION "0.1.0"
#define RAZVOLK_VERSION_MAJOR 0
#define RAZVOLK_VERSION_MINOR 1
#define RAZVOLK_VERSION_PATCH 0

/* What a decoder or a writer answers. N below is width times height; scratch needs RAZVOLK_SCRATCH bytes.
 *
 *   number                                                                left behind
 *   0  done                                                               the frame, in the first N samples
 *   1  width or height is above 16,384                                    every buffer as it was
 *   2  V2: width is below 32 or height below 1                            every buffer as it was
 *   3  fewer than N samples are lent, or in V0 fewer offsets than rows    every buffer as it was
 *   4  the map is shorter than N bytes, or the scratch is too short       every buffer as it was
 *   5  V2: a block of row 0 or 1 predicts from the rows above             the blocks before it are written
 *   6  V2: a block predicts from outside the frame                        the blocks before it are written
 *   7  V2: a difference is longer than the depth allows                   the blocks before it are written
 *   8  V2: the stream ended                                               that row and those before it are written
 *   9  a sample to be written is above 16,383                             all as it was, but for a frame blanked or decoded before
 *  10  the stream or the offsets to be written do not fit their buffer    all as it was, but for a frame blanked or decoded before
 *  11  in bands: the band count or the block width is none that the frame can be cut by             every buffer as it was
 *  12  in bands: the list is too short or too long, or a step is no block's number or is not ready  every buffer as it was
 *  13  blanking: the list is too short for all runs                      every buffer as it was
 *  14  blanking: one of the first N map bytes is above 3                 every buffer as it was
 *  15  V0 into V2: the width is not a multiple of 16                      every buffer as it was
 *  16  V0 into V2: a sample of the decoded frame is marked                the frame is decoded, the stream as it was
 *  17  for clean frames: a block of row 0 or 1 has direction 1                      every buffer as it was
 *  18  for clean frames: a length is outside 0 to 16 after its block's operations   every buffer as it was
 *  19  for clean frames: a word was missing by the end of a block                   every buffer as it was
 *  20  packed by others: a sample of the decoded frame is not the one meant         the frame is decoded, in the scratch
 *  21  packed by others: the stream is longer than what the writer makes            every buffer as it was
 *
 * 1 to 4 are tested in this order, then in bands 11 and 12, for clean frames 17 to 19; then the stream decides. 9 and 10 are a
 * writer's, which tests 1, 3, 9 and 10 before it writes. Blanking tests 1, 3, 4, 14 and 13; the export goes on to 9 and 10, which
 * leave the frame blanked. V0 into V2 tests 1 to 4 and 15, and when the frame is decoded 16, 9 and 10, which leave it decoded. What
 * others packed is tested by 1, 3, 9, 3, 17 to 19 and 21, and when the frame is decoded by 20. `row` is the row at fault of 5 to 8
 * and of 17 to 19, else 0. Samples and map bytes from N on never change.
 *
 * `filler` is how many words of 4 bytes were missing: fetched where fewer than 4 bytes of the stream remained, and read as ones.
 * The direct V0 decoder tells it when it is done, as the sum over its rows, and V2 with 5 to 8, up to the refusal and from the
 * header on (where it is done, none was missing). Otherwise it is 0. It stops at 2^64 - 1. */
typedef struct {
    uint32_t number;
    uint32_t row;
    uint64_t filler;
} razvolk_answer;

/* The numbers by name. */
#define RAZVOLK_DONE            0u
#define RAZVOLK_TOO_LARGE       1u
#define RAZVOLK_TOO_SMALL       2u
#define RAZVOLK_SHORT_SAMPLES   3u
#define RAZVOLK_SHORT_MAP       4u
#define RAZVOLK_EARLY_MOTION    5u
#define RAZVOLK_OUTSIDE         6u
#define RAZVOLK_LONG_DIFFERENCE 7u
#define RAZVOLK_OVERRUN         8u
#define RAZVOLK_TOO_BRIGHT      9u
#define RAZVOLK_SHORT_OUTPUT    10u
#define RAZVOLK_BAD_CUT         11u
#define RAZVOLK_BAD_STEPS       12u
#define RAZVOLK_SHORT_RUNS      13u
#define RAZVOLK_BAD_MAP         14u
#define RAZVOLK_BAD_WIDTH       15u
#define RAZVOLK_MARKED          16u
#define RAZVOLK_EARLY_UPWARD    17u
#define RAZVOLK_BAD_LENGTH      18u
#define RAZVOLK_MISSING_WORD    19u
#define RAZVOLK_OTHER_SAMPLE    20u
#define RAZVOLK_LONG_STREAM     21u

/* The limits that they speak of. */
#define RAZVOLK_MOST_SIDE 16384u       /* 1 */
#define RAZVOLK_V2_LEAST_WIDTH 32u     /* 2 */
#define RAZVOLK_V2_LEAST_HEIGHT 1u     /* 2 */
#define RAZVOLK_V0_MOST_SAMPLE 16383u  /* 9 */

/* The parts of a map byte: 0 to 3, the sum of those that hold. */
#define RAZVOLK_OLD    1u /* the sample is what the buffer held before, or rests on it */
#define RAZVOLK_FILLER 2u /* its block was read past the stream's end, or it rests on a sample of which that holds */

/* The bytes of scratch that a two-phase frame within the limits needs: one for each block of 16 columns of rows 2 on. */
#define RAZVOLK_SCRATCH(width, height) ((height) > 2 ? ((size_t)(width) + 15) / 16 * ((size_t)(height) - 2) : (size_t)0)

/* V0, decoded directly. Row r is read from byte offsets[r] of src on, wherever that lies; missing bits are ones. A sample that
 * the stream skips keeps what the buffer held, and later samples build on it.
 * 0     the first N samples are the frame's
 * 1, 3  nothing is written */
razvolk_answer razvolk_decode_v0_reference(const uint8_t *src, size_t src_len, const uint32_t *offsets, size_t offsets_len,
                                           size_t width, size_t height, uint16_t *samples, size_t samples_len);

/* The same samples, and in the first N bytes of the map what each rests on: the sum of RAZVOLK_OLD if on what the buffer held, and
 * RAZVOLK_FILLER if on words that are missing; 0 if on bytes of the stream only. RAZVOLK_FILLER is set where the row's reader had
 * fetched a missing word by the end of the sample's block, or where a sample that it is predicted from has it. So a sample of a
 * stream that is cut has byte 0 only if it is final: with more bytes it is the same. What the map holds before does not matter.
 * 0        the first N samples and map bytes are the frame's
 * 1, 3, 4  nothing is written, neither samples nor map */
razvolk_answer razvolk_decode_v0_reference_map(const uint8_t *src, size_t src_len, const uint32_t *offsets,
                                               size_t offsets_len, size_t width, size_t height, uint16_t *samples,
                                               size_t samples_len, uint8_t *map, size_t map_len);

/* V0, decoded directly if the frame is clean: nothing in it rests on what the buffer held or on missing words, as far as the
 * stream's blocks show. No block in rows 0 and 1 has direction 1, all four lengths of every block are 0 to 16, and no word is
 * missing. The whole stream is checked before a sample is written, so that a frame that isn't clean changes nothing; the first
 * fault in row order, then in block order, then of 17, 18 and 19 is told, with its row.
 * 0                the first N samples are those of razvolk_decode_v0_reference; `filler` is 0
 * 1, 3, 17 to 19   nothing is written */
razvolk_answer razvolk_decode_v0_clean(const uint8_t *src, size_t src_len, const uint32_t *offsets, size_t offsets_len,
                                       size_t width, size_t height, uint16_t *samples, size_t samples_len);

/* The same with a map, which is that of razvolk_decode_v0_reference_map.
 * 0                   samples as of razvolk_decode_v0_clean; the first N map bytes are 0
 * 1, 3, 4, 17 to 19   nothing is written, neither samples nor map */
razvolk_answer razvolk_decode_v0_clean_map(const uint8_t *src, size_t src_len, const uint32_t *offsets, size_t offsets_len,
                                           size_t width, size_t height, uint16_t *samples, size_t samples_len, uint8_t *map,
                                           size_t map_len);

/* V0 in two phases, residuals and then predictions: the same samples. What the scratch holds before does not matter.
 * 0        the first N samples are the frame's; the first RAZVOLK_SCRATCH(width, height) bytes of scratch are the directions
 *          of the blocks of rows 2 on, 0 or 1, and its further bytes are as before
 * 1, 3, 4  nothing is written, neither samples nor scratch */
razvolk_answer razvolk_decode_v0(const uint8_t *src, size_t src_len, const uint32_t *offsets, size_t offsets_len,
                                 size_t width, size_t height, uint16_t *samples, size_t samples_len, uint8_t *scratch,
                                 size_t scratch_len);

/* V0 in two phases, the second in bands: the same samples and scratch, whatever the sequence of the steps. There is no map.
 *
 * Rows 2 on are cut into 1 to RAZVOLK_MOST_BANDS(height) bands. With R rows from row 2 on, band k has those from k times R
 * divided by bands up to but not (k + 1) times R divided by bands, rounded down. Columns are cut into blocks of block_width, a
 * multiple of 16 and not 0; it may be above the width. A step is band times blocks in a band plus block, and is ready if it is
 * not done, and the block to its left and the same block in the band above are. The list of RAZVOLK_STEPS(..) steps does each
 * block once, each when it is ready; while blocks remain, one is.
 * 0                samples and scratch as of razvolk_decode_v0
 * 1, 3, 4, 11, 12  nothing is written, neither samples nor scratch */
razvolk_answer razvolk_decode_v0_bands(const uint8_t *src, size_t src_len, const uint32_t *offsets, size_t offsets_len,
                                       size_t width, size_t height, uint16_t *samples, size_t samples_len, uint8_t *scratch,
                                       size_t scratch_len, size_t bands, size_t block_width, const uint32_t *steps,
                                       size_t steps_len);

/* The most bands that a frame of so many rows can be cut into, and how many steps a frame has that is cut so. */
#define RAZVOLK_MOST_BANDS(height) ((height) < 6 ? (size_t)1 : (height) > 130 ? (size_t)64 : ((size_t)(height) - 2) / 2)
#define RAZVOLK_STEPS(width, height, bands, block_width) \
    ((width) > 0 && (height) > 2 ? (((size_t)(width) - 1) / (size_t)(block_width) + 1) * (size_t)(bands) : (size_t)0)

/* V2, a camera's frame or a crop of 32 by 1 or more. The last (width modulo 16) samples of a row are not written: they keep what
 * the buffer held, and later rows may build on them.
 * 0        the first N samples are the frame's
 * 1, 2, 3  nothing is written
 * 5, 6, 7  the rows before `row` are written, and the blocks of that row that come before the one at fault; the rest of the
 *          samples are as they were
 * 8        `row` and the rows before it are written, with ones in place of the missing bits; the rest are as they were */
razvolk_answer razvolk_decode_v2(const uint8_t *src, size_t src_len, size_t width, size_t height, uint16_t *samples,
                                 size_t samples_len);

/* The same samples, and a map.
 * 0           the first N samples and map bytes are the frame's
 * 1, 2, 3, 4  nothing is written, neither samples nor map
 * 5, 6, 7, 8  samples as of razvolk_decode_v2; the first N map bytes tell of them as they are left: RAZVOLK_OLD wherever a
 *             sample is as it was, or rests on one; RAZVOLK_FILLER in blocks by whose end a word was missing */
razvolk_answer razvolk_decode_v2_map(const uint8_t *src, size_t src_len, size_t width, size_t height, uint16_t *samples,
                                     size_t samples_len, uint8_t *map, size_t map_len);

/* Colour planes, for storage: a frame's samples out of one buffer into another, first all of even rows and even columns, then
 * even and odd, odd and even, odd and odd, each in reading order and without gaps; and the way back. Each undoes the other.
 * 0     the first N of the buffer written are the planes, or the frame's samples; what lies past them is as it was
 * 1, 3  nothing is written; 3 if either buffer has fewer than N samples */
razvolk_answer razvolk_to_planes(const uint16_t *samples, size_t samples_len, size_t width, size_t height, uint16_t *planes,
                                 size_t planes_len);
razvolk_answer razvolk_from_planes(const uint16_t *planes, size_t planes_len, size_t width, size_t height,
                                   uint16_t *samples, size_t samples_len);
/* What a writer answers, and how many bytes of stream it has written: 0 unless it is done. */
typedef struct {
    razvolk_answer answer;
    uint64_t length;
} razvolk_written;

/* The most bytes of stream that a V0 frame within the limits can take: of each row, 265 bits a block of 16 columns, in whole
 * words. A buffer of so many bytes is always long enough. */
#define RAZVOLK_V0_MOST(width, height) ((((size_t)(width) + 15) / 16 * 265 + 31) / 32 * 4 * (size_t)(height))

/* Writes the first N samples as V0: rows in order, from byte 0 of the stream on and without gaps, and in offsets[r] where row r
 * starts. Each razvolk_decode_v0.. gives the samples back, over any buffer, with every map byte 0, whatever lies past the stream
 * and the offsets. The samples are only read; those from N on do not matter.
 * 0            the first `length` bytes of stream and the first `height` offsets are the frame's; those past them are as before
 * 1, 3, 9, 10  nothing is written, neither stream nor offsets, and `length` is 0. 3 is of the samples alone */
razvolk_written razvolk_write_v0(const uint16_t *samples, size_t samples_len, size_t width, size_t height, uint8_t *stream,
                                 size_t stream_len, uint32_t *offsets, size_t offsets_len);

/* What a call that blanks answers: how many samples were set, and how many runs they make; 0 and 0 unless it is done. */
typedef struct {
    razvolk_answer answer;
    uint64_t count;
    uint64_t runs;
} razvolk_blanked;

/* What the export answers: the same, and how many bytes of stream are written, 0 unless it is done. */
typedef struct {
    razvolk_answer answer;
    uint64_t count;
    uint64_t runs;
    uint64_t length;
} razvolk_exported;

/* Blanking: of a decoded frame and its map, every sample whose byte isn't 0 is set to a fill that is stated, or else to the nearest
 * sample to its left in the row, at a column of the same parity, that isn't marked, or to 0 if there is none. After that nothing of
 * an earlier frame is left in the frame, and nothing made of missing words. The list gets the runs of such samples, each as long as
 * can be within its row, in reading order: row, first column and length, three numbers each. The map is only read.
 * 0                the marked ones of the first N samples are set, `count` of them, those that held the fill among them; the
 *                  first 3 times `runs` numbers of the list are the runs, and those past them are as before
 * 1, 3, 4, 14, 13  nothing is written, neither samples nor list */
razvolk_blanked razvolk_blank(uint16_t *samples, size_t samples_len, const uint8_t *map, size_t map_len, size_t width,
                              size_t height, uint32_t *runs, size_t runs_len);
razvolk_blanked razvolk_blank_with(uint16_t *samples, size_t samples_len, const uint8_t *map, size_t map_len, size_t width,
                                   size_t height, uint16_t fill, uint32_t *runs, size_t runs_len);

/* The archive export: a frame is blanked as by razvolk_blank_with with fill 0, and then written as by razvolk_write_v0.
 * 0                samples, list and both counts as of that; stream, offsets and `length` as of razvolk_write_v0
 * 1, 3, 4, 14, 13  nothing is written
 * 9, 10            samples, list and both counts as of that; nothing is written to stream and offsets, `length` is 0 */
razvolk_exported razvolk_export_v0(uint16_t *samples, size_t samples_len, const uint8_t *map, size_t map_len, size_t width,
                                   size_t height, uint32_t *runs, size_t runs_len, uint8_t *stream, size_t stream_len,
                                   uint32_t *offsets, size_t offsets_len);

/* The most bytes of stream that a V2 frame within the limits can take: 16 of header, and of each row 265 bits a block of 16
 * columns, in whole lines of 16 bytes. A buffer of so many bytes is always long enough. */
#define RAZVOLK_V2_MOST(width, height) (16 + (((size_t)(width) + 15) / 16 * 265 + 127) / 128 * 16 * (size_t)(height))

/* V0 into V2: decodes a V0 frame as razvolk_decode_v0_reference_map does, and writes it as V2, from byte 0 of the stream on.
 * razvolk_decode_v2 gives the samples back, over any buffer, and razvolk_decode_v2_map no map byte other than 0, whatever lies
 * past the stream. 2 is V2's; width must be a multiple of 16.
 * 0                  the first N samples and map bytes are the frame's, and the first `length` bytes of stream its V2; those past
 *                    them are as before
 * 1, 2, 3, 4, 15     nothing is written, and `length` is 0
 * 16, 9, 10          samples and map as of 0; the stream is as before, and `length` is 0. 16 if one of the first N map bytes
 *                    is not 0, then 9, then 10 */
razvolk_written razvolk_v0_to_v2(const uint8_t *src, size_t src_len, const uint32_t *offsets, size_t offsets_len, size_t width,
                                 size_t height, uint16_t *samples, size_t samples_len, uint8_t *map, size_t map_len,
                                 uint8_t *stream, size_t stream_len);

/* Packed by an outside optimiser: whether a V0 stream and its offsets, found by whatever means, hold the samples meant, and are
 * taken. They are, exactly if the frame is clean, as razvolk_decode_v0_clean has it, decodes to the first N samples of meant, none
 * of which is above 16,383, and the stream has no more bytes than razvolk_write_v0 makes of them: src_len is the stream's length.
 * What razvolk_write_v0 makes is taken, and so every V0 decoder gives the samples of what is taken back, over any buffer.
 * 0                       taken; the first N samples of scratch are the frame
 * 1, 3, 9, 3, 17..19, 21  nothing is written. 3 if meant has fewer than N samples; after 9, if scratch has, or if there are fewer
 *                         offsets than rows
 * 20                      a sample differs; the first N samples of scratch are the frame that was decoded */
razvolk_answer razvolk_check_packed(const uint8_t *src, size_t src_len, const uint32_t *offsets, size_t offsets_len, size_t width,
                                    size_t height, const uint16_t *meant, size_t meant_len, uint16_t *scratch,
                                    size_t scratch_len);

/* A bit reader's state. The stream is words of 4 bytes, lowest byte first, and a word's highest bit is read first. A reader
 * that starts at a byte position is { position, 0, 0, 0 }. */
typedef struct {
    uint64_t pos;    /* byte position of the next word */
    uint32_t word;   /* the word fetched last; its low `count` bits are still unread */
    uint32_t count;  /* 0 to 31; a state with more counts as having none */
    uint64_t filler; /* how many words were missing */
} razvolk_bits;

/* A value read, and the state after it. */
typedef struct {
    uint32_t value;
    razvolk_bits bits;
} razvolk_got;

/* Reads n bits; n above 32 counts as 32. One word is fetched if fewer than n bits are unread, so n = 0 fetches none. Where
 * fewer than 4 bytes remain, the word is FFFFFFFF (hexadecimal) and filler grows by 1, up to 2^64 - 1. The position grows by 4
 * for each word, modulo 2^64, also for a missing one. Nothing is refused, and nothing is written: the state comes back by
 * value. */
razvolk_got razvolk_get(const uint8_t *src, size_t src_len, razvolk_bits state, uint32_t n);

/* Drops the unread bits and goes on at byte position pos. The count of missing words stays. Nothing is refused. */
razvolk_bits razvolk_reset_at(razvolk_bits state, uint64_t pos);

#ifdef __cplusplus
}
#endif

#endif
