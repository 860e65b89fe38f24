//! V0 frames with nothing inherited: what a paying job takes.

use crate::{Refusal, ffi};

/// Decodes a V0 frame directly if it is clean: no block in rows 0 and 1 has direction 1, all four lengths of every block lie in
/// 0 to 16 after its operations, and no word is missing. Then every sample rests on the stream alone.
///
/// The whole stream is checked before a sample is written. On done the first `width * height` samples of `out` are those of
/// [`decode_v0_reference`](crate::decode_v0_reference), which would tell of no missing word.
///
/// # Errors
///
/// Refusals 1 and 3, in this order; then the first fault in row order, in block order, and of 17, 18 and 19, with its row. `out`
/// is unchanged then.
///
/// ```
/// use razvolk::Refusal;
///
/// // One sample, all lengths 0: it is the constant.
/// let mut samples = [7];
/// razvolk::decode_v0_clean(&[0x00, 0x00, 0x80, 0x7f], &[0], 1, 1, &mut samples)?;
/// assert_eq!(samples, [128]);
///
/// // The same with direction 1: the sample would be what the buffer held.
/// let refused = razvolk::decode_v0_clean(&[0x00, 0x00, 0x80, 0xff], &[0], 1, 1, &mut samples).unwrap_err();
/// assert_eq!(refused, Refusal::EarlyUpward { row: 0 });
/// # Ok::<(), Refusal>(())
/// ```
pub fn decode_v0_clean(
    src: &[u8],
    row_offsets: &[u32],
    width: usize,
    height: usize,
    out: &mut [u16],
) -> Result<(), Refusal> {
    ffi::razvolk_decode_v0_clean(src, row_offsets, width, height, out).result()
}

/// Decodes as [`decode_v0_clean`] does, and sets the first `width * height` bytes of `map` to 0: the map of
/// [`decode_v0_reference_map`](crate::decode_v0_reference_map). What `map` holds before does not matter.
///
/// # Errors
///
/// Refusals 1, 3 and 4, in this order; then 17 to 19 as of [`decode_v0_clean`]. `out` and `map` are unchanged then.
///
/// ```
/// let (mut samples, mut map) = ([7], [9, 9]);
/// razvolk::decode_v0_clean_map(&[0x00, 0x00, 0x80, 0x7f], &[0], 1, 1, &mut samples, &mut map)?;
/// assert_eq!(map, [0, 9]);
/// # Ok::<(), razvolk::Refusal>(())
/// ```
pub fn decode_v0_clean_map(
    src: &[u8],
    row_offsets: &[u32],
    width: usize,
    height: usize,
    out: &mut [u16],
    map: &mut [u8],
) -> Result<(), Refusal> {
    ffi::razvolk_decode_v0_clean_map(src, row_offsets, width, height, out, map).result()
}

#[cfg(test)]
mod tests {
    use super::*;

    /// A row of one block with all lengths 0, of direction 0 and of direction 1.
    const DOWN: [u8; 4] = [0x00, 0x00, 0x80, 0x7f];
    const UP: [u8; 4] = [0x00, 0x00, 0x80, 0xff];

    /// What a call answers for a frame, and that without done nothing changes.
    fn checked(src: &[u8], offsets: &[u32], width: usize, height: usize) -> Result<(), Refusal> {
        let n = width * height;
        let (mut samples, mut map) = (vec![7; n + 1], vec![9; n + 1]);
        let answer = decode_v0_clean_map(src, offsets, width, height, &mut samples, &mut map);
        assert_eq!(decode_v0_clean(src, offsets, width, height, &mut vec![7; n]), answer);
        let (sample, byte) = if answer.is_ok() { (128, 0) } else { (7, 9) };
        assert!(samples[..n].iter().all(|&s| s == sample) && samples[n] == 7, "{samples:?}");
        assert!(map[..n].iter().all(|&m| m == byte) && map[n] == 9, "{map:?}");
        answer
    }

    #[test]
    fn a_clean_frame_is_taken() {
        assert_eq!(checked(&DOWN, &[0], 1, 1), Ok(()));
        assert_eq!(checked(&[DOWN, UP].concat(), &[0, 0, 4], 16, 3), Ok(()), "row 2 may look up");
        assert_eq!(checked(&[], &[], 1, 0), Ok(()));
    }

    #[test]
    fn the_first_fault_is_told_with_its_row() {
        let both = [DOWN, UP].concat();
        assert_eq!(checked(&both, &[0, 4], 2, 2), Err(Refusal::EarlyUpward { row: 1 }));
        let below = [0x2a, 0x00, 0x80, 0x7f, 0x00, 0x00, 0x00, 0x80];
        assert_eq!(checked(&below, &[0], 17, 1), Err(Refusal::BadLength { row: 0 }));
        assert_eq!(checked(&both, &[0, 0, 8], 2, 3), Err(Refusal::MissingWord { row: 2 }));
        assert_eq!(checked(&both, &[8, 4], 2, 2), Err(Refusal::EarlyUpward { row: 0 }), "17 before 19");
    }

    #[test]
    fn the_plain_refusals_come_first() {
        let (mut samples, mut map) = ([7; 2], [9; 2]);
        let refused = |width, samples: &mut [u16], map: &mut [u8]| {
            decode_v0_clean_map(&UP, &[0], width, 1, samples, map).unwrap_err().number()
        };
        assert_eq!(refused(16_385, &mut samples, &mut map), 1);
        assert_eq!(refused(3, &mut samples, &mut map), 3);
        assert_eq!(refused(2, &mut samples, &mut map[..1]), 4);
        assert_eq!(refused(2, &mut samples, &mut map), 17);
    }
}
