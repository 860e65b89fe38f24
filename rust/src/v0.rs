//! V0, in which each row has its own place in the stream: the direct decoder and the one in two phases.

use crate::{Refusal, ffi};

/// Decodes a V0 frame directly. Row r is read from byte `row_offsets[r]` of `src` on; wherever that lies, the frame is done
/// unless it is refused by 1 or 3, and bits that are missing read as ones.
///
/// The first `width * height` samples of `out` are the frame's afterwards. A sample that the stream skips keeps what `out`
/// held, and later samples build on it: [`decode_v0_reference_map`] tells which.
///
/// On done it tells how many words of 4 bytes were missing, over all rows: 0 if the stream has all that was read.
///
/// # Errors
///
/// Refusals 1 and 3, in this order; `out` is unchanged then.
///
/// ```
/// let stream = [0x18, 0x20, 0xa0, 0x7f, 0, 0, 0x70, 0, 0x08, 0, 0xa0, 0xff, 0, 0, 0, 0];
/// let mut samples = [0; 4];
/// assert_eq!(razvolk::decode_v0_reference(&stream, &[0, 8], 2, 2, &mut samples)?, 0);
/// assert_eq!(samples, [131, 132, 126, 128]);
///
/// // Cut after 15 bytes: the second word of row 1 is missing.
/// assert_eq!(razvolk::decode_v0_reference(&stream[..15], &[0, 8], 2, 2, &mut samples)?, 1);
/// # Ok::<(), razvolk::Refusal>(())
/// ```
pub fn decode_v0_reference(
    src: &[u8],
    row_offsets: &[u32],
    width: usize,
    height: usize,
    out: &mut [u16],
) -> Result<u64, Refusal> {
    ffi::razvolk_decode_v0_reference(src, row_offsets, width, height, out).counted()
}

/// Decodes as [`decode_v0_reference`] does, and tells in the first `width * height` bytes of `map` what each sample rests
/// on: [`Marks::OLD`](crate::Marks::OLD) if on what `out` held before, plus [`Marks::FILLER`](crate::Marks::FILLER) if on words
/// that are missing; 0 if on bytes of the stream only. What `map` holds before does not matter.
///
/// On done it tells how many words were missing, as [`decode_v0_reference`] does.
///
/// # Errors
///
/// Refusals 1, 3 and 4, in this order; `out` and `map` are unchanged then.
///
/// ```
/// let stream = [0x00, 0x00, 0x00, 0x80, 0x18, 0x20, 0xa0, 0x7f, 0x00, 0x00, 0x70, 0x00];
/// let (mut samples, mut map) = ([7, 8, 9, 10], [0; 4]);
/// razvolk::decode_v0_reference_map(&stream, &[0, 4], 2, 2, &mut samples, &mut map)?;
/// assert_eq!(samples, [7, 131, 8, 126]);
/// assert_eq!(map, [1, 0, 1, 0]);
/// # Ok::<(), razvolk::Refusal>(())
/// ```
pub fn decode_v0_reference_map(
    src: &[u8],
    row_offsets: &[u32],
    width: usize,
    height: usize,
    out: &mut [u16],
    map: &mut [u8],
) -> Result<u64, Refusal> {
    ffi::razvolk_decode_v0_reference_map(src, row_offsets, width, height, out, map).counted()
}

/// Decodes in two phases, first residuals, then predictions: the same samples as [`decode_v0_reference`]'s. `scratch` needs
/// [`scratch_len`] bytes, which then hold the directions of the blocks of rows 2 on, 0 or 1 each; what it holds before does
/// not matter.
///
/// # Errors
///
/// Refusals 1, 3 and 4, in this order; `out` and `scratch` are unchanged then.
///
/// ```
/// let (width, height) = (3, 4);
/// let mut samples = vec![7; width * height];
/// let mut scratch = vec![0; razvolk::scratch_len(width, height)];
/// // No bytes: every block is upward, and each residual is -1.
/// razvolk::decode_v0(&[], &[0; 4], width, height, &mut samples, &mut scratch)?;
/// assert_eq!(scratch, [1, 1]);
/// # Ok::<(), razvolk::Refusal>(())
/// ```
pub fn decode_v0(
    src: &[u8],
    row_offsets: &[u32],
    width: usize,
    height: usize,
    out: &mut [u16],
    scratch: &mut [u8],
) -> Result<(), Refusal> {
    ffi::razvolk_decode_v0(src, row_offsets, width, height, out, scratch).result()
}

/// How many bytes of scratch [`decode_v0`] needs: one for each block of 16 columns of rows 2 on. (`usize::MAX` where that is
/// no `usize`; such a size is refused in any case.)
///
/// ```
/// assert_eq!(razvolk::scratch_len(17, 5), 6);
/// assert_eq!(razvolk::scratch_len(5_546, 2), 0);
/// ```
pub const fn scratch_len(width: usize, height: usize) -> usize {
    width.div_ceil(16).saturating_mul(height.saturating_sub(2))
}

#[cfg(test)]
mod tests {
    use super::*;

    /// The document's frame whose first row is skipped, and the one with spill: stream and offsets.
    const SKIPPED: ([u8; 12], [u32; 2]) = ([0, 0, 0, 0x80, 0x18, 0x20, 0xa0, 0x7f, 0, 0, 0x70, 0], [0, 4]);
    const SPILL: ([u8; 16], [u32; 2]) =
        ([0x18, 0x20, 0xa0, 0x7f, 0, 0, 0x70, 0, 0x08, 0, 0xa0, 0xff, 0, 0, 0, 0], [0, 8]);

    /// The number of the refusal, and what is left of 7, 8, 9, 10 and of map bytes 9; scratch is left as 9.
    fn decoded(entry: Entry, src: &[u8], offsets: &[u32], size: (usize, usize)) -> (u32, [u16; 4], [u8; 4]) {
        let (mut out, mut map, mut scratch) = ([7, 8, 9, 10], [9; 4], [9; 4]);
        let answer = entry(src, offsets, size.0, size.1, &mut out, &mut map, &mut scratch);
        if size.1 < 3 {
            assert_eq!(scratch, [9; 4], "no row has directions");
        }
        (answer.err().map_or(0, Refusal::number), out, map)
    }

    type Entry = fn(&[u8], &[u32], usize, usize, &mut [u16], &mut [u8], &mut [u8]) -> Result<(), Refusal>;

    /// The entries without a map, and the one with one.
    const PLAIN: [Entry; 2] = [
        |s, o, w, h, out, _, _| decode_v0_reference(s, o, w, h, out).map(drop),
        |s, o, w, h, out, _, scratch| decode_v0(s, o, w, h, out, scratch),
    ];
    const MARKED: Entry = |s, o, w, h, out, map, _| decode_v0_reference_map(s, o, w, h, out, map).map(drop);

    #[test]
    fn frames_of_the_document() {
        for entry in PLAIN {
            assert_eq!(decoded(entry, &SKIPPED.0, &SKIPPED.1, (2, 2)), (0, [7, 131, 8, 126], [9; 4]));
            assert_eq!(decoded(entry, &SPILL.0, &SPILL.1, (2, 2)), (0, [131, 132, 126, 128], [9; 4]));
            assert_eq!(decoded(entry, &[], &[0], (1, 1)), (0, [7, 8, 9, 10], [9; 4]));
        }
        assert_eq!(decoded(MARKED, &SKIPPED.0, &SKIPPED.1, (2, 2)), (0, [7, 131, 8, 126], [1, 0, 1, 0]));
        assert_eq!(decoded(MARKED, &SPILL.0, &SPILL.1, (2, 2)), (0, [131, 132, 126, 128], [0; 4]));
        assert_eq!(decoded(MARKED, &[], &[0], (1, 1)), (0, [7, 8, 9, 10], [3, 9, 9, 9]));
    }

    #[test]
    fn missing_words_are_marked_in_their_blocks() {
        // Row 0 starts at the stream's end, and its block reaches over the whole frame; row 1 has all its words.
        let mut stream = [0; 12];
        stream[3] = 0x80;
        let (_, _, map) = decoded(MARKED, &stream, &[12, 0], (2, 2));
        assert_eq!(map, [3; 4]);
        // Row 1 alone lacks a word: the exchange takes one of its samples into row 0.
        let (_, _, map) = decoded(MARKED, &SPILL.0[..15], &SPILL.1, (2, 2));
        assert_eq!(map, [0, 2, 0, 2]);
    }

    #[test]
    fn sizes_of_the_document() {
        for entry in PLAIN.into_iter().chain([MARKED]) {
            assert_eq!(decoded(entry, &[], &[], (16_385, 0)), (1, [7, 8, 9, 10], [9; 4]));
            assert_eq!(decoded(entry, &[], &[0; 16_384], (0, 16_384)), (0, [7, 8, 9, 10], [9; 4]));
            assert_eq!(decoded(entry, &[], &[0; 16_383], (0, 16_384)), (3, [7, 8, 9, 10], [9; 4]));
            assert_eq!(decoded(entry, &[], &[0; 9], (usize::MAX, usize::MAX)), (1, [7, 8, 9, 10], [9; 4]));
            assert_eq!(decoded(entry, &[], &[0; 9], (5, 1)), (3, [7, 8, 9, 10], [9; 4]));
        }
    }

    #[test]
    fn missing_words_are_counted_over_all_rows() {
        let (mut out, mut map) = ([7; 4], [9; 4]);
        // Both rows of the frame with spill have two words. A row of ones reads 25 bits, and row 1 then 8 residuals of 15.
        for (bytes, missing) in (0..=16).zip([6, 6, 6, 6, 6, 6, 6, 6, 5, 5, 5, 5, 1, 1, 1, 1, 0]) {
            let (src, offsets) = (&SPILL.0[..bytes], &SPILL.1);
            assert_eq!(decode_v0_reference(src, offsets, 2, 2, &mut out), Ok(missing), "{bytes} bytes");
            assert_eq!(decode_v0_reference_map(src, offsets, 2, 2, &mut out, &mut map), Ok(missing), "{bytes} bytes");
        }
    }

    #[test]
    fn a_short_map_or_scratch_is_refused() {
        let mut out = [7; 4];
        let short = decode_v0_reference_map(&[], &[0; 4], 1, 4, &mut out, &mut [9; 3]);
        assert_eq!(short, Err(Refusal::ShortMap));
        let short = decode_v0(&[], &[0; 4], 1, 4, &mut out, &mut [9; 1]);
        assert_eq!(short, Err(Refusal::ShortMap));
        assert_eq!(out, [7; 4]);
    }

    #[test]
    fn scratch_is_a_byte_for_each_block_of_rows_2_on() {
        assert_eq!(scratch_len(5_000, 3_500), 313 * 3_498);
        assert_eq!([scratch_len(16, 3), scratch_len(17, 3), scratch_len(17, 5)], [1, 2, 6]);
        assert_eq!([scratch_len(0, 9), scratch_len(9, 0), scratch_len(9, 2)], [0; 3]);
        assert_eq!(scratch_len(usize::MAX, usize::MAX), usize::MAX);
    }
}
