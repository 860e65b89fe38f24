/* Finds the frame in a Samsung camera's .srw file, for C and C++ on x86-64 Linux. Link librazvolk_srw.so.0.
 *
 * This library is written in Rust. It is tested and fuzzed, and not proved; librazvolk, which decodes what it finds, is.
 *
 * Every byte string is answered. Nothing that a file says is believed beyond the file's own end. Nothing is kept from call to
 * call, and any number of threads may call at once. A pointer must be good for the length that stands beside it, and may be NULL
 * where that is 0; what is written must overlap nothing else of the call. */
#ifndef RAZVOLK_SRW_H
#define RAZVOLK_SRW_H

#include <stddef.h>
#include <stdint.h>

#ifdef __cplusplus
extern "C" {
#endif

/* What razvolk_srw_find answers, and what `value` is then, 0 where nothing is said.
 *
 *   0  the frame is found
 *   1  not a TIFF file
 *   2  no directory has compression 32770 (V0) or 32773 (V2)
 *   3  compression 32770 without a table of row offsets (tag 40976): the samples are not compressed
 *   4  compression 32772 (V1), which is not decoded
 *   5  compression 32773, which is PackBits elsewhere, and neither maker nor tag 40976 says Samsung
 *   6  the frame's directory lacks a tag that is needed                            the tag
 *   7  the frame is in several strips                                              how many
 *   8  the table of row offsets ends before the frame's last row                   the rows that it has
 *   9  the row offsets do not fit the buffer; all else is told as with 0           how many there are
 *
 * More numbers may come. */
typedef struct {
    uint32_t number;
    uint32_t value;
} razvolk_srw_answer;

#define RAZVOLK_SRW_FOUND         0u
#define RAZVOLK_SRW_NOT_TIFF      1u
#define RAZVOLK_SRW_NO_FRAME      2u
#define RAZVOLK_SRW_UNCOMPRESSED  3u
#define RAZVOLK_SRW_V1            4u
#define RAZVOLK_SRW_PACKBITS      5u
#define RAZVOLK_SRW_MISSING_TAG   6u
#define RAZVOLK_SRW_STRIPS        7u
#define RAZVOLK_SRW_SHORT_TABLE   8u
#define RAZVOLK_SRW_SHORT_OFFSETS 9u

/* So many offsets are always enough. */
#define RAZVOLK_SRW_MOST_OFFSETS 16384u

/* A colour of the filter that lies over the sensor. */
#define RAZVOLK_SRW_RED    0u
#define RAZVOLK_SRW_GREEN  1u
#define RAZVOLK_SRW_BLUE   2u
#define RAZVOLK_SRW_NO_COLOUR 255u

/* A frame. Stream and model lie in the file that was lent, and are good as long as it is. Width and height come from the file, and
 * a few bytes can claim any up to 2^32 - 1: look at them before you ask for memory. */
typedef struct {
    uint32_t version;      /* 0: V0; 2: V2 */
    uint32_t bits;         /* the bits of a sample, or 0 if the file doesn't tell them */
    size_t width;          /* margins included */
    size_t height;         /* margins included */
    const uint8_t *stream; /* as far as the file has it; NULL if it has nothing of it */
    size_t stream_len;
    size_t missing;        /* how many bytes of the stream the file says to have and has not: an upload that broke off */
    size_t offsets;        /* V0: the height, or 0 if that is above 16,384, which every decoder refuses. V2: 0 */
    const char *model;     /* the camera's model, plain text that no zero ends; NULL if the file doesn't tell it */
    size_t model_len;
    uint8_t colours[4];    /* rows 0 and 1 at columns 0 and 1, row by row; RAZVOLK_SRW_NO_COLOUR if the file tells none of 2 by 2 */
    uint32_t orientation;  /* 1 to 8 as TIFF counts, or 0 if the file doesn't tell it */
} razvolk_srw_frame;

/* Finds the frame of a file: of the first directory that has one. `frame` must be good for one frame.
 * 0       frame is the file's, and the first frame->offsets numbers of offsets are where each row of V0 starts in the stream
 * 1 to 8  frame is all 0, without a colour; offsets are as they were
 * 9       frame is the file's; offsets are as they were */
razvolk_srw_answer razvolk_srw_find(const uint8_t *file, size_t file_len, razvolk_srw_frame *frame, uint32_t *offsets,
                                    size_t offsets_len);

/* Writes a camera's file of a frame, which razvolk_srw_find reads again, and other readers too. Of V0 there are frame->height offsets,
 * and frame->offsets says so; V2 has none. The bits are 14 and the model is Razvolk where they aren't told; frame->missing doesn't
 * matter. Returns how many bytes the file has, and writes it if file_len is as much or more: the lengths of stream, offsets (4 bytes
 * each) and model, and 1,024, are always enough. Returns 0, and writes nothing, if no file can hold the frame: another version, other
 * offsets, a colour or an orientation that there isn't, a model that is no plain text, or more than 2^32 - 1 bytes in all. */
size_t razvolk_srw_write(const razvolk_srw_frame *frame, const uint32_t *offsets, uint8_t *file, size_t file_len);

/* Why a file has no frame, in words: 1 to 8 above. As much as fits is written to text, and a zero after it. Returns how many bytes
 * the words have without the zero: 0 if the file has a frame. */
size_t razvolk_srw_text(const uint8_t *file, size_t file_len, char *text, size_t text_len);

/* Why a function of razvolk.h refused, in words: of the number and the row that it answered. As much as fits is written to text, and
 * a zero after it. Returns how many bytes the words have without the zero: 0 for number 0, which is done. */
size_t razvolk_srw_refusal_text(uint32_t number, uint32_t row, char *text, size_t text_len);

#ifdef __cplusplus
}
#endif

#endif
