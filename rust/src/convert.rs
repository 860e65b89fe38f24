//! V0 into V2, for programs that read V2 alone.

use crate::{MAX_SIDE, Refusal, ffi};

/// Decodes a V0 frame into `samples` and `map`, as [`crate::decode_v0_reference_map`] does, and writes it as V2 from byte 0 of
/// `stream` on. Returns how many bytes the stream has; what lies past them stays as it was.
///
/// [`crate::decode_v2`] gives the samples back, over any buffer, with no sample marked. A buffer of [`most_v2_bytes`] is always
/// long enough. The width must be a multiple of 16, and 32 at least, and there must be a row.
///
/// # Errors
///
/// Refusals 1 to 4 (2 as V2 has it) and 15 (the width is no multiple of 16), in this order, change nothing. Then the frame is
/// decoded, and stays in `samples` and `map`; 16 (one of the first `width * height` map bytes is not 0), 9 (a sample is above
/// 16,383) and 10 (`stream` is too short for all that would be written), in this order, leave `stream` as it was.
///
/// ```
/// let (width, height) = (320, 200);
/// let samples: Vec<u16> = (0..width * height).map(|i| (i * 7 % 16_384) as u16).collect();
/// let (v0, offsets) = razvolk::write_v0_to_vecs(&samples, width, height)?;
///
/// let (mut decoded, mut map) = (vec![0; samples.len()], vec![0; samples.len()]);
/// let mut v2 = vec![0; razvolk::most_v2_bytes(width, height)];
/// let len = razvolk::v0_to_v2(&v0, &offsets, width, height, &mut decoded, &mut map, &mut v2)?;
/// assert_eq!(v2[..16], [0, 13, 0, 0, 0, 0, 0, 0, 0, 7, 0, 0, 0, 0, 0, 0]);
///
/// let mut back = vec![7; samples.len()];
/// razvolk::decode_v2(&v2[..len], width, height, &mut back)?;
/// assert!(back == samples && decoded == samples);
/// # Ok::<(), razvolk::Refusal>(())
/// ```
pub fn v0_to_v2(
    src: &[u8],
    offsets: &[u32],
    width: usize,
    height: usize,
    samples: &mut [u16],
    map: &mut [u8],
    stream: &mut [u8],
) -> Result<usize, Refusal> {
    ffi::razvolk_v0_to_v2(src, offsets, width, height, samples, map, stream).result()
}

/// The most bytes of stream that [`v0_to_v2`] makes of a frame of this size: 16 of header, and of each row 265 bits for each block
/// of 16 columns, in whole lines of 16 bytes. (`usize::MAX` of a side above [`MAX_SIDE`], which is refused in any case.)
///
/// ```
/// assert_eq!(razvolk::most_v2_bytes(16, 1), 64);
/// assert_eq!(razvolk::most_v2_bytes(16_384, 16_384), 555_745_296);
/// ```
pub const fn most_v2_bytes(width: usize, height: usize) -> usize {
    if width > MAX_SIDE || height > MAX_SIDE {
        return usize::MAX;
    }
    16 + (width.div_ceil(16) * 265).div_ceil(128) * 16 * height
}

#[cfg(test)]
mod tests {
    use super::*;
    use crate::write_v0_to_vecs;

    /// A call over buffers of these lengths that hold 9, and the buffers after it.
    fn called(
        (src, offsets): (&[u8], &[u32]),
        (width, height): (usize, usize),
        (n, map, bytes): (usize, usize, usize),
    ) -> (Result<usize, Refusal>, Vec<u16>, Vec<u8>, Vec<u8>) {
        let (mut samples, mut map, mut stream) = (vec![9; n], vec![9; map], vec![9; bytes]);
        let answer = v0_to_v2(src, offsets, width, height, &mut samples, &mut map, &mut stream);
        (answer, samples, map, stream)
    }

    #[test]
    fn refusals_before_decoding_leave_all_as_it_was() {
        let n = 48 * 5;
        let rows = [0; 5];
        let cases = [
            ((16_385, 0), (n, n, 99), 5, 1),
            ((usize::MAX, usize::MAX), (0, 0, 0), 0, 1),
            ((16, 5), (0, 0, 0), 0, 2),
            ((31, 1), (n, n, 99), 5, 2),
            ((32, 0), (n, n, 99), 5, 2),
            ((48, 5), (n - 1, n - 1, 99), 5, 3),
            ((48, 5), (n, n, 99), 4, 3),
            ((48, 5), (n, n - 1, 99), 5, 4),
            ((47, 5), (n, n - 1, 99), 5, 15),
        ];
        for ((width, height), lens, offsets, number) in cases {
            let (answer, samples, map, stream) = called((&[], &rows[..offsets]), (width, height), lens);
            assert_eq!(answer.map_err(|e| (e.number(), e.row())), Err((number, 0)), "{width} by {height}");
            assert!(samples.iter().all(|&s| s == 9) && map.iter().chain(&stream).all(|&b| b == 9), "{number}");
        }
    }

    #[test]
    fn refusals_after_decoding_leave_the_stream_as_it_was() {
        for (width, height) in [(32, 2), (48, 5), (656, 436)] {
            refused_after_decoding(width, height);
        }
    }

    fn refused_after_decoding(width: usize, height: usize) {
        let n = width * height;
        let dim: Vec<u16> = (0..n).map(|i| (i * 7 % 16_384) as u16).collect();
        let (v0, offsets) = write_v0_to_vecs(&dim, width, height).expect("within the limits");
        let size = (width, height);
        let (done, samples, map, stream) = called((&v0, &offsets), size, (n + 1, n + 1, most_v2_bytes(width, height)));
        let length = done.expect("done");
        assert!(samples[..n] == dim && samples[n] == 9 && map[..n].iter().all(|&b| b == 0) && map[n] == 9);
        assert!(stream[length..].iter().all(|&b| b == 9), "what lies past the stream is unchanged");

        let (short, samples, _, stream) = called((&v0, &offsets), size, (n, n, length - 1));
        assert_eq!(short, Err(Refusal::ShortOutput { begun: true }));
        assert!(samples == dim && stream.iter().all(|&b| b == 9));
        assert_eq!(called((&v0, &offsets), size, (n, n, length)).0, Ok(length));

        // A first block that reads from above has old samples.
        let mut marked = v0.clone();
        marked[3] |= 0x80;
        let (answer, samples, map, stream) = called((&marked, &offsets), size, (n, n, length));
        assert_eq!(answer, Err(Refusal::Marked));
        assert!(samples != vec![9; n] && map.iter().any(|&b| b != 0) && stream.iter().all(|&b| b == 9));
    }
}
