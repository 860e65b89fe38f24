//! V2, one stream of rows that predict from the rows above.

use crate::{Refusal, ffi};

/// Decodes a V2 frame, a camera's or a crop of 32 by 1 or more. The last `width % 16` samples of each row are not written, and may
/// be built on by later rows: they keep what `out` held, and [`decode_v2_map`] tells what rests on it.
///
/// # Errors
///
/// Refusals 1 to 3, in this order; `out` is unchanged then. Refusals 5 to 8, the first that the stream meets; the blocks
/// before it are written then, and [`Refusal::filler_words`] tells how many words were missing so far, from the header on.
/// Where the frame is done, none was.
///
/// ```
/// let mut samples = vec![7; 646 * 436];
/// let refused = razvolk::decode_v2(&[0; 16], 646, 436, &mut samples).unwrap_err();
/// assert_eq!(refused.to_string(), "the stream ends in row 0");
/// assert_eq!(refused.filler_words(), 7);
/// assert_eq!([samples[639], samples[640]], [1, 7], "that row is written, but for its last 6 samples");
/// ```
pub fn decode_v2(src: &[u8], width: usize, height: usize, out: &mut [u16]) -> Result<(), Refusal> {
    ffi::razvolk_decode_v2(src, width, height, out).result()
}

/// Decodes as [`decode_v2`] does, and tells in the first `width * height` bytes of `map` what each sample rests on:
/// [`Marks::OLD`](crate::Marks::OLD) if on what `out` held before, plus [`Marks::FILLER`](crate::Marks::FILLER) if on words
/// that are missing; 0 if on bytes of the stream only. What `map` holds before does not matter. After refusals 5 to 8 it tells
/// so of `out` as it is left.
///
/// # Errors
///
/// Refusals 1 to 4, in this order; `out` and `map` are unchanged then. Refusals 5 to 8 as of [`decode_v2`].
///
/// ```
/// let (mut samples, mut map) = (vec![7; 646 * 436], vec![0; 646 * 436]);
/// let refused = razvolk::decode_v2_map(&[0; 16], 646, 436, &mut samples, &mut map).unwrap_err();
/// assert!(refused.has_begun());
/// assert_eq!([map[639], map[640]], [2, 1], "the row is made of missing words; its last 6 samples are the buffer's");
/// ```
pub fn decode_v2_map(src: &[u8], width: usize, height: usize, out: &mut [u16], map: &mut [u8]) -> Result<(), Refusal> {
    ffi::razvolk_decode_v2_map(src, width, height, out, map).result()
}

#[cfg(test)]
mod tests {
    use super::*;

    /// The refusal of both entries, and the samples and marks that they leave of samples 7 and map bytes 9.
    fn decoded(src: &[u8], width: usize, height: usize) -> (Refusal, Vec<u16>, Vec<u8>) {
        let n = 646 * 436;
        let (mut out, mut with_map, mut map) = (vec![7; n], vec![7; n], vec![9; n]);
        let refusal = decode_v2(src, width, height, &mut out).expect_err("the frame is refused");
        assert_eq!(decode_v2_map(src, width, height, &mut with_map, &mut map), Err(refusal));
        assert!(out == with_map);
        (refusal, out, map)
    }

    #[test]
    fn frames_of_the_document() {
        let (refusal, out, map) = decoded(&[], 646, 436);
        assert_eq!(refusal, Refusal::EarlyMotion { row: 0, filler: 5 });
        assert!(out.iter().all(|&s| s == 7) && map.iter().all(|&m| m == 1));
        let (refusal, out, map) = decoded(&[0; 16], 646, 436);
        assert_eq!(refusal, Refusal::Overrun { row: 0, filler: 7 });
        assert!(out[..640].iter().all(|&s| s == 1) && out[640..].iter().all(|&s| s == 7));
        assert!(map[..640].iter().all(|&m| m == 2) && map[640..].iter().all(|&m| m == 1));
    }

    #[test]
    fn lengths_are_read_one_by_one() {
        // The first length of row 0 is too long, and has the last bits of the stream: no word is missing up to it.
        let stream = [0, 0, 0, 0, 0, 0, 0, 0, 0, 1, 0, 0, 0, 0, 0, 0, 0xff, 0xff, 0x01, 0xc0];
        for (width, height) in [(32, 1), (646, 436)] {
            let (refusal, out, map) = decoded(&stream, width, height);
            assert_eq!(refusal, Refusal::LongDifference { row: 0, filler: 0 }, "{width} by {height}");
            assert!(out.iter().all(|&s| s == 7) && map[..width * height].iter().all(|&m| m == 1));
        }
    }

    #[test]
    fn a_crop_of_the_least_size() {
        // Depth 14, options 4, initial sample 5; both blocks repeat it, and have no lengths.
        let stream = [0, 13, 0, 0, 0, 0, 0, 0, 0, 4, 0, 0, 5, 0, 0, 0, 0, 0, 0, 0xf0];
        let (mut out, mut map) = ([7; 33], [9; 33]);
        assert_eq!(decode_v2(&stream, 32, 1, &mut out), Ok(()));
        assert_eq!((out[0], out[31], out[32]), (5, 5, 7));
        assert_eq!(decode_v2_map(&stream, 32, 1, &mut out, &mut map), Ok(()));
        assert!(map[..32].iter().all(|&m| m == 0) && map[32] == 9);
        let refused = decode_v2(&stream[..16], 32, 1, &mut out);
        assert_eq!(refused, Err(Refusal::Overrun { row: 0, filler: 1 }));
    }

    #[test]
    fn sizes_of_the_document() {
        for (width, height, number) in [(31, 1, 2), (32, 0, 2), (16_385, 0, 1), (0, 16_385, 1), (647, 436, 3)] {
            let (refusal, out, map) = decoded(&[0; 16], width, height);
            assert_eq!(Some(refusal), Refusal::of(number, 0, 0), "{width} by {height}");
            assert!(out.iter().all(|&s| s == 7) && map.iter().all(|&m| m == 9));
        }
        let mut out = vec![7; 646 * 436];
        let refused = decode_v2_map(&[0; 16], 646, 436, &mut out, &mut vec![9; 646 * 436 - 1]);
        assert_eq!(refused, Err(Refusal::ShortMap));
        assert!(out.iter().all(|&s| s == 7));
    }
}
