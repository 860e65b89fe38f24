//! V0, written: samples become a stream that every V0 decoder reads back.

use crate::{MAX_SIDE, Refusal, ffi};

/// Writes the first `width * height` samples as V0: rows in order, from byte 0 of `stream` on and without gaps, and in
/// `offsets[r]` where row r starts. Returns how many bytes the stream has; what lies past them, and past the last row's offset,
/// stays as it was.
///
/// Each V0 decoder gives the samples back, over any buffer, with no sample marked. A buffer of [`most_v0_bytes`] is always
/// long enough; [`write_v0_to_vecs`] lends such a one.
///
/// # Errors
///
/// Refusals 1, 3 (fewer than `width * height` samples), 9 (one of these is above 16,383) and 10 (`stream` or `offsets` is too
/// short for all that would be written), in this order; `stream` and `offsets` are unchanged then.
///
/// ```
/// let samples = [0, 16_383, 127, 128, 5, 16_000];
/// let (mut stream, mut offsets) = ([9; 26], [9; 3]);
/// let len = razvolk::write_v0(&samples, 3, 2, &mut stream, &mut offsets)?;
/// assert_eq!((len, offsets), (24, [0, 8, 9]));
/// assert_eq!(stream[..8], [0x40, 0, 0xc0, 0x7f, 0, 0, 0x80, 0x7f]);
/// assert_eq!(stream[24..], [9, 9]);
///
/// let mut back = [7; 6];
/// razvolk::decode_v0_reference(&stream, &offsets, 3, 2, &mut back)?;
/// assert_eq!(back, samples);
/// # Ok::<(), razvolk::Refusal>(())
/// ```
pub fn write_v0(
    samples: &[u16],
    width: usize,
    height: usize,
    stream: &mut [u8],
    offsets: &mut [u32],
) -> Result<usize, Refusal> {
    ffi::razvolk_write_v0(samples, width, height, stream, offsets).result().map_err(Refusal::unbegun)
}

/// Writes as [`write_v0`] does, and hands out the stream and the offset of each row.
///
/// How long the stream gets is known only when it is written. So memory is asked for once, [`most_v0_bytes`] of it, and what is
/// not needed is given back: for a moment up to about 2.1 bytes are held for each sample of a wide frame. Sizes that are refused
/// by 1 or 3 cost nothing.
///
/// # Errors
///
/// Refusals 1, 3 and 9, in this order.
///
/// ```
/// let samples = [0, 16_383, 127, 128, 5, 16_000];
/// let (stream, offsets) = razvolk::write_v0_to_vecs(&samples, 3, 2)?;
/// assert_eq!((stream.len(), &offsets[..]), (24, &[0, 8][..]));
///
/// let mut back = [7; 6];
/// let mut decoder = razvolk::Decoder::new();
/// assert!(decoder.decode_v0_direct(&stream, &offsets, 3, 2, &mut back)?.is_clean());
/// assert_eq!(back, samples);
///
/// let refused = razvolk::write_v0_to_vecs(&[16_384], 1, 1).unwrap_err();
/// assert_eq!(refused, razvolk::Refusal::TooBright { begun: false });
/// # Ok::<(), razvolk::Refusal>(())
/// ```
pub fn write_v0_to_vecs(samples: &[u16], width: usize, height: usize) -> Result<(Vec<u8>, Vec<u32>), Refusal> {
    // A size that is refused by 1 or 3 gets no memory: those are tested before 10.
    let fits = width <= MAX_SIDE && height <= MAX_SIDE && width * height <= samples.len();
    let (bytes, rows) = if fits { (most_v0_bytes(width, height), height) } else { (0, 0) };
    let (mut stream, mut offsets) = (vec![0; bytes], vec![0; rows]);
    let len = write_v0(samples, width, height, &mut stream, &mut offsets)?;
    stream.truncate(len);
    stream.shrink_to_fit();
    Ok((stream, offsets))
}

/// The most bytes of stream that [`write_v0`] makes of a frame of this size: of each row, 265 bits for each block of 16 columns
/// (9 that open it, four lengths of 4, sixteen residuals of 15), in whole words of 4 bytes. (`usize::MAX` of a side above
/// [`MAX_SIDE`], which is refused in any case.)
///
/// ```
/// assert_eq!(razvolk::most_v0_bytes(16, 1), 36);
/// assert_eq!(razvolk::most_v0_bytes(16_384, 16_384), 555_745_280);
/// ```
pub const fn most_v0_bytes(width: usize, height: usize) -> usize {
    if width > MAX_SIDE || height > MAX_SIDE {
        return usize::MAX;
    }
    (width.div_ceil(16) * 265).div_ceil(32) * 4 * height
}

#[cfg(test)]
mod tests {
    use super::*;

    /// A frame of blocks that are white and black in turn: each residual takes 15 bits.
    fn widest(width: usize, height: usize) -> Vec<u16> {
        (0..width * height).map(|i| if i % width / 16 % 2 == 1 { 0 } else { 16_383 }).collect()
    }

    #[test]
    fn the_most_bytes_are_just_enough() {
        for (width, height) in [(16, 1), (32, 2), (48, 3), (512, 5), (16_384, 2)] {
            let (stream, offsets) = write_v0_to_vecs(&widest(width, height), width, height).expect("within the limits");
            assert_eq!(stream.len(), most_v0_bytes(width, height), "{width} by {height}");
            assert_eq!(offsets, (0..height).map(|row| (row * stream.len() / height) as u32).collect::<Vec<_>>());
        }
        assert_eq!([most_v0_bytes(0, 9), most_v0_bytes(9, 0), most_v0_bytes(16_385, 0)], [0, 0, usize::MAX]);
    }

    #[test]
    fn refusals_in_order_leave_the_buffers_as_they_were() {
        // Samples, size, bytes and offsets lent; a black frame of 2 by 2 takes 12 bytes a row.
        let cases: [(&[u16], _, _, _, _); 9] = [
            (&[], (16_385, 0), 0, 0, 1),
            (&[], (usize::MAX, usize::MAX), 0, 0, 1),
            (&[16_384; 3], (2, 2), 0, 0, 3),
            (&[0, 0, 0, 16_384], (2, 2), 0, 0, 9),
            (&[65_535, 0, 0, 0], (2, 2), 99, 99, 9),
            (&[0; 4], (2, 2), 23, 2, 10),
            (&[0; 4], (2, 2), 24, 1, 10),
            (&[], (0, 2), 0, 1, 10),
            (&[], (2, 16_385), 0, 0, 1),
        ];
        for (samples, (width, height), bytes, rows, number) in cases {
            let (mut stream, mut offsets) = (vec![9; bytes], vec![9; rows]);
            let answer = write_v0(samples, width, height, &mut stream, &mut offsets);
            assert_eq!(answer.map_err(|e| (e.number(), e.has_begun())), Err((number, false)), "{width} by {height}");
            assert_eq!((stream, offsets), (vec![9; bytes], vec![9; rows]));
        }
        let more = [0, 0, 0, 0, 16_384];
        let (mut stream, mut offsets) = ([9; 25], [9; 3]);
        assert_eq!(
            write_v0(&more, 2, 2, &mut stream, &mut offsets),
            Ok(24),
            "what lies past the frame is not looked at"
        );
        assert_eq!((stream[24], offsets), (9, [0, 12, 9]));
    }

    #[test]
    fn vectors_are_as_long_as_what_is_written() {
        for (width, height) in [(0, 0), (5, 0), (0, 5), (1, 1), (17, 3)] {
            let samples: Vec<u16> = (0..width * height).map(|i| (i * 977 % 16_384) as u16).collect();
            let (stream, offsets) = write_v0_to_vecs(&samples, width, height).expect("within the limits");
            assert_eq!(offsets.len(), height);
            let (mut back, mut map) = (vec![7; samples.len()], vec![9; samples.len()]);
            crate::decode_v0_reference_map(&stream, &offsets, width, height, &mut back, &mut map).expect("done");
            assert!(back == samples && map.iter().all(|&mark| mark == 0));
            let mut exact = vec![0; stream.len()];
            assert_eq!(write_v0(&samples, width, height, &mut exact, &mut vec![0; height]), Ok(stream.len()));
        }
        let refused =
            |samples: &[u16], width, height| write_v0_to_vecs(samples, width, height).map_err(Refusal::number);
        assert_eq!(refused(&[], usize::MAX, usize::MAX), Err(1));
        assert_eq!(refused(&[], 16_384, 16_384), Err(3));
        assert_eq!(refused(&[0, 16_384], 1, 2), Err(9));
    }
}
