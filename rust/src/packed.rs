//! V0 streams that an outside optimiser packed.

use crate::{Refusal, ffi};

/// Takes a V0 stream with its offsets that another program packed, or refuses it, by what it is and not by how it was found. It
/// is taken exactly if the frame is clean, as [`decode_v0_clean`](crate::decode_v0_clean) has it, decodes to the first
/// `width * height` samples of `meant`, none of which is above 16,383, and the stream has no more bytes than
/// [`write_v0`](crate::write_v0) makes of them.
///
/// What [`write_v0`](crate::write_v0) makes is taken. What is taken, every V0 decoder decodes to the samples meant, over any
/// buffer, and none of them is marked. Once decoding began, the first `width * height` samples of `scratch` are the frame that
/// was decoded; what `scratch` holds before does not matter.
///
/// # Errors
///
/// Refusals 1, 3 (fewer samples are meant than the frame has), 9, 3 again (of `scratch` or the offsets), 17 to 19 with their row,
/// and 21 (the stream is longer than the writer's), in this order; `scratch` is unchanged then. Last 20, if a sample differs.
///
/// ```
/// use razvolk::Refusal;
///
/// let meant = [200, 300, 300];
/// let (mut stream, mut offsets) = razvolk::write_v0_to_vecs(&meant, 1, 3)?;
/// let mut scratch = [7; 3];
/// razvolk::check_packed(&stream, &offsets, 1, 3, &meant, &mut scratch)?;
/// assert_eq!((stream.len(), scratch), (24, meant));
///
/// // In row 2 a block may look up: 4 bytes in place of 8.
/// stream.splice(16.., [0x00, 0x00, 0x80, 0xff]);
/// razvolk::check_packed(&stream, &offsets, 1, 3, &meant, &mut scratch)?;
/// assert_eq!(stream.len(), 20);
///
/// // In row 1 it may not, since row 1 looks up to what isn't there.
/// offsets[1] = 16;
/// let refused = razvolk::check_packed(&stream, &offsets, 1, 3, &meant, &mut scratch).unwrap_err();
/// assert_eq!(refused, Refusal::EarlyUpward { row: 1 });
/// # Ok::<(), Refusal>(())
/// ```
pub fn check_packed(
    src: &[u8],
    row_offsets: &[u32],
    width: usize,
    height: usize,
    meant: &[u16],
    scratch: &mut [u16],
) -> Result<(), Refusal> {
    ffi::razvolk_check_packed(src, row_offsets, width, height, meant, scratch).result().map_err(Refusal::unbegun)
}

#[cfg(test)]
mod tests {
    use super::*;

    /// A row of one block with all lengths 0, of direction 0 and of direction 1.
    const DOWN: [u8; 4] = [0x00, 0x00, 0x80, 0x7f];
    const UP: [u8; 4] = [0x00, 0x00, 0x80, 0xff];

    /// What a call answers, and what it leaves in scratch samples that held 7.
    fn checked(
        src: &[u8],
        offsets: &[u32],
        (width, height): (usize, usize),
        meant: &[u16],
        scratch: usize,
    ) -> (Result<(), Refusal>, Vec<u16>) {
        let mut scratch = vec![7; scratch];
        (check_packed(src, offsets, width, height, meant, &mut scratch), scratch)
    }

    /// A refusal with its row, and nothing changed.
    fn unchanged(number: u32, row: u32, scratch: usize) -> (Result<(), Refusal>, Vec<u16>) {
        (Err(Refusal::of(number, row, 0).expect("not done").unbegun()), vec![7; scratch])
    }

    #[test]
    fn refusals_in_order_leave_the_scratch_as_it_was() {
        let longer = [UP.as_slice(), &[0]].concat();
        assert_eq!(checked(&[], &[], (16_385, 0), &[], 0), unchanged(1, 0, 0));
        assert_eq!(checked(&[], &[], (usize::MAX, usize::MAX), &[], 0), unchanged(1, 0, 0));
        assert_eq!(checked(&UP, &[], (2, 1), &[16_384], 0), unchanged(3, 0, 0));
        assert_eq!(checked(&UP, &[], (2, 1), &[128, 16_384], 0), unchanged(9, 0, 0));
        assert_eq!(checked(&UP, &[0], (2, 1), &[128; 2], 1), unchanged(3, 0, 1));
        assert_eq!(checked(&UP, &[], (2, 1), &[128; 2], 2), unchanged(3, 0, 2));
        assert_eq!(checked(&longer, &[0], (1, 1), &[128], 1), unchanged(17, 0, 1));
        assert_eq!(checked(&DOWN, &[0, 0, 4], (1, 3), &[128; 3], 3), unchanged(19, 2, 3));
        let longer = [DOWN.as_slice(), &[0]].concat();
        assert_eq!(checked(&longer, &[0], (1, 1), &[128], 2), unchanged(21, 0, 2));
        // A sample of 0 takes the writer 12 bytes, so that 5 are not too many; but it is another.
        assert_eq!(checked(&longer, &[0], (1, 1), &[0], 2), (Err(Refusal::OtherSample), vec![128, 7]));
    }

    #[test]
    fn what_is_taken_is_in_the_scratch() {
        assert_eq!(checked(&[], &[], (5, 0), &[], 1), (Ok(()), vec![7]));
        assert_eq!(checked(&DOWN, &[0; 9], (1, 3), &[128, 128, 128, 9], 5), (Ok(()), vec![128, 128, 128, 7, 7]));
        assert_eq!(
            checked(&DOWN, &[0; 3], (1, 3), &[128, 128, 129], 4),
            (Err(Refusal::OtherSample), vec![128, 128, 128, 7])
        );
    }
}
