//! A decoder for a worker: the map is kept from frame to frame.

use crate::{Marks, Refusal, Run};
use std::fmt;

/// The largest width and height; more is refusal 1.
pub const MAX_SIDE: usize = 16_384;

/// A decoder that keeps its map from frame to frame, so that a worker allocates once. The samples are the caller's: nothing
/// clears them or paints over them, and each frame finds them as the one before left them.
///
/// ```
/// use razvolk::Decoder;
///
/// // A frame of 2 by 2 whose first row is skipped, decoded over what another frame has left.
/// let stream = [0x00, 0x00, 0x00, 0x80, 0x18, 0x20, 0xa0, 0x7f, 0x00, 0x00, 0x70, 0x00];
/// let mut samples = [7, 8, 9, 10];
/// let mut decoder = Decoder::with_capacity(2, 2);
///
/// let marks = decoder.decode_v0_direct(&stream, &[0, 4], 2, 2, &mut samples)?;
/// if marks.count_old() > 0 {
///     println!("hold back: {} samples of another frame, in {} rows", marks.count_old(), marks.rows().count());
/// }
/// assert_eq!(marks.bytes(), [1, 0, 1, 0]);
/// assert_eq!(samples, [7, 131, 8, 126]);
/// # Ok::<(), razvolk::Refusal>(())
/// ```
///
/// Memory is asked for only where a frame is larger than every one before and its samples are lent: a size that is refused
/// costs nothing. The map is a byte a sample.
#[derive(Default)]
pub struct Decoder {
    map: Vec<u8>,
    /// Width and samples of the frame that the map tells of, and how many words were missing.
    frame: Option<(usize, usize, u64)>,
}

impl Decoder {
    /// A decoder that holds no memory yet.
    ///
    /// ```
    /// let decoder = razvolk::Decoder::new();
    /// assert!(decoder.marks().is_none(), "nothing is decoded yet");
    /// ```
    pub const fn new() -> Decoder {
        Decoder { map: Vec::new(), frame: None }
    }

    /// A decoder with memory for every frame up to this width and height, so that none is asked for later. Sides above
    /// [`MAX_SIDE`] count as that.
    ///
    /// ```
    /// let mut decoder = razvolk::Decoder::with_capacity(5_546, 3_714);
    /// # let mut samples = vec![0; 16];
    /// # assert!(decoder.decode_v0_direct(&[], &[0], 16, 1, &mut samples).is_ok());
    /// ```
    pub fn with_capacity(width: usize, height: usize) -> Decoder {
        Decoder { map: vec![0; width.min(MAX_SIDE) * height.min(MAX_SIDE)], frame: None }
    }

    /// Decodes a V0 frame into the first `width * height` samples of `out`, and tells what they rest on. It takes the direct
    /// decoder ([`crate::decode_v0_reference_map`]); the one in two phases gives the same samples, and makes no map.
    ///
    /// # Errors
    ///
    /// Refusals 1 and 3, in this order; `out` is unchanged then.
    ///
    /// ```
    /// let mut decoder = razvolk::Decoder::new();
    /// // An empty stream: missing bits are ones, the block is upward, and row 0 has no row above it.
    /// let marks = decoder.decode_v0_direct(&[], &[0], 3, 1, &mut [7, 8, 9])?;
    /// assert_eq!((marks.bytes(), marks.filler_words()), (&[3, 3, 3][..], 1));
    ///
    /// let refused = decoder.decode_v0_direct(&[], &[], 3, 1, &mut [7, 8, 9]).unwrap_err();
    /// assert_eq!(refused, razvolk::Refusal::ShortSamples, "a row has no offset");
    /// # Ok::<(), razvolk::Refusal>(())
    /// ```
    pub fn decode_v0_direct(
        &mut self,
        src: &[u8],
        row_offsets: &[u32],
        width: usize,
        height: usize,
        out: &mut [u16],
    ) -> Result<Marks<'_>, Refusal> {
        self.make_room(width, height, out.len());
        let answer = crate::decode_v0_reference_map(src, row_offsets, width, height, out, &mut self.map);
        self.answered(answer, width, height)
    }

    /// Decodes a V0 frame as [`Decoder::decode_v0_direct`] does if it is clean ([`crate::decode_v0_clean_map`]); its marks are then all
    /// 0, and no word was missing.
    ///
    /// # Errors
    ///
    /// Refusals 1 and 3, in this order; then 17 to 19, the first fault with its row. `out` is unchanged then.
    ///
    /// ```
    /// let mut decoder = razvolk::Decoder::new();
    /// let refused = decoder.decode_v0_clean(&[], &[0], 3, 1, &mut [7, 8, 9]).unwrap_err();
    /// assert_eq!(refused.to_string(), "row 0 isn't clean: a block looks up to rows that do not exist");
    /// ```
    pub fn decode_v0_clean(
        &mut self,
        src: &[u8],
        row_offsets: &[u32],
        width: usize,
        height: usize,
        out: &mut [u16],
    ) -> Result<Marks<'_>, Refusal> {
        self.make_room(width, height, out.len());
        let answer = crate::decode_v0_clean_map(src, row_offsets, width, height, out, &mut self.map);
        self.answered(answer.map(|()| 0), width, height)
    }

    /// Decodes a V2 frame ([`crate::decode_v2_map`]) into the first `width * height` samples of `out`, and tells what they
    /// rest on. After refusals 5 to 8, [`Decoder::marks`] tells it of the samples as they are left.
    ///
    /// # Errors
    ///
    /// Refusals 1 to 3, in this order; `out` is unchanged then. Refusals 5 to 8, the first that the stream meets; the blocks
    /// before it are written then.
    ///
    /// ```
    /// let mut decoder = razvolk::Decoder::new();
    /// let mut samples = vec![7; 646 * 436];
    /// // A header, and no more: the first row is made of ones in place of the missing bits.
    /// let refused = decoder.decode_v2(&[0; 16], 646, 436, &mut samples).unwrap_err();
    /// assert_eq!(refused, razvolk::Refusal::Overrun { row: 0, filler: 7 });
    /// let marks = decoder.marks().expect("the stream was begun");
    /// assert_eq!((marks.count_old(), marks.count_filler()), (646 * 436 - 640, 640));
    /// ```
    pub fn decode_v2(
        &mut self,
        src: &[u8],
        width: usize,
        height: usize,
        out: &mut [u16],
    ) -> Result<Marks<'_>, Refusal> {
        self.make_room(width, height, out.len());
        let answer = crate::decode_v2_map(src, width, height, out, &mut self.map);
        self.answered(answer.map(|()| 0), width, height)
    }

    /// The marks of the last frame, as its samples were left: after done, and after refusals 5 to 8. None if there was no
    /// call, or if the last was refused by 1 to 3 or 17 to 19 and left the samples as they were, or by a number that this crate
    /// doesn't know ([`Refusal::Other`]).
    ///
    /// ```
    /// let mut decoder = razvolk::Decoder::new();
    /// decoder.decode_v0_direct(&[], &[0], 3, 1, &mut [7, 8, 9])?;
    /// assert_eq!(decoder.marks().map(|marks| marks.count()), Some(3));
    /// assert!(decoder.decode_v0_direct(&[], &[0], 16_385, 1, &mut [7, 8, 9]).is_err());
    /// assert_eq!(decoder.marks(), None);
    /// # Ok::<(), razvolk::Refusal>(())
    /// ```
    pub fn marks(&self) -> Option<Marks<'_>> {
        self.frame.map(|(width, n, filler)| Marks::new(&self.map[..n], width).with_filler_words(filler))
    }

    /// Sets the samples of the last frame that are marked, as [`Decoder::marks`] tells them, to what lies to their left, as
    /// [`crate::blank`] does, and tells their runs. After that nothing of an earlier frame is left in the frame, and nothing made
    /// of missing words. `out` is the buffer that the frame was decoded into; where there was no frame, nothing is set.
    ///
    /// # Errors
    ///
    /// Refusal 3, of fewer samples than the frame has; `out` is unchanged then.
    ///
    /// ```
    /// use razvolk::{Decoder, Run};
    ///
    /// let stream = [0x00, 0x00, 0x00, 0x80, 0x18, 0x20, 0xa0, 0x7f, 0x00, 0x00, 0x70, 0x00];
    /// let mut samples = [7, 8, 9, 10];
    /// let mut decoder = Decoder::new();
    /// decoder.decode_v0_direct(&stream, &[0, 4], 2, 2, &mut samples)?;
    /// assert_eq!(samples, [7, 131, 8, 126]);
    /// let runs = decoder.blank(&mut samples)?;
    /// assert_eq!(samples, [0, 131, 0, 126]);
    /// assert_eq!(runs, [Run { row: 0, first: 0, length: 1 }, Run { row: 1, first: 0, length: 1 }]);
    /// # Ok::<(), razvolk::Refusal>(())
    /// ```
    pub fn blank(&self, out: &mut [u16]) -> Result<Vec<Run>, Refusal> {
        self.blank_by(|map, width, height, list| crate::blank(out, map, width, height, list))
    }

    /// The same with a fill of one's own.
    ///
    /// # Errors
    ///
    /// Refusal 3, as of [`Decoder::blank`].
    ///
    /// ```
    /// let mut decoder = razvolk::Decoder::new();
    /// let mut samples = [7, 8, 9];
    /// decoder.decode_v0_direct(&[], &[0], 3, 1, &mut samples)?;
    /// assert_eq!(decoder.blank_with(512, &mut samples)?.len(), 1);
    /// assert_eq!(samples, [512; 3]);
    /// # Ok::<(), razvolk::Refusal>(())
    /// ```
    pub fn blank_with(&self, fill: u16, out: &mut [u16]) -> Result<Vec<Run>, Refusal> {
        self.blank_by(|map, width, height, list| crate::blank_with(out, map, width, height, fill, list))
    }

    fn blank_by(
        &self,
        blank: impl FnOnce(&[u8], usize, usize, &mut [u32]) -> Result<crate::Blanked, Refusal>,
    ) -> Result<Vec<Run>, Refusal> {
        let Some(marks) = self.marks() else {
            return Ok(Vec::new());
        };
        let runs: Vec<Run> = marks.runs().collect();
        let height = marks.bytes().len().checked_div(marks.width()).unwrap_or(0);
        blank(marks.bytes(), marks.width(), height, &mut vec![0; 3 * runs.len()])?;
        Ok(runs)
    }

    /// Makes the map long enough. A size that will be refused by 1 to 3 gets nothing: those are tested before 4.
    fn make_room(&mut self, width: usize, height: usize, lent: usize) {
        let fits = width <= MAX_SIDE && height <= MAX_SIDE && width * height <= lent;
        if fits && self.map.len() < width * height {
            self.map.resize(width * height, 0);
        }
    }

    /// Keeps what a call tells: the count of missing words, or the refusal.
    fn answered(&mut self, answer: Result<u64, Refusal>, width: usize, height: usize) -> Result<Marks<'_>, Refusal> {
        // Of a refusal that the crate doesn't know, nobody can say what the map tells.
        let begun = answer.map_or_else(|refusal| matches!(refusal.number(), 5..=8), |_| true);
        let filler = answer.unwrap_or_else(Refusal::filler_words);
        self.frame = begun.then(|| (width, width * height, filler));
        answer.map(|_| self.marks().expect("the frame is done"))
    }
}

impl fmt::Debug for Decoder {
    fn fmt(&self, f: &mut fmt::Formatter<'_>) -> fmt::Result {
        f.debug_struct("Decoder").field("map", &self.map.len()).finish_non_exhaustive()
    }
}

#[cfg(test)]
mod tests {
    use super::*;

    #[test]
    fn a_size_that_is_refused_costs_no_memory() {
        let mut decoder = Decoder::new();
        let mut out = [7; 9];
        for (width, height, refusal) in [
            (usize::MAX, usize::MAX, Refusal::TooLarge),
            (16_385, 0, Refusal::TooLarge),
            (16_384, 16_384, Refusal::ShortSamples),
            (10, 1, Refusal::ShortSamples),
        ] {
            assert_eq!(decoder.decode_v0_direct(&[], &[0; 16_384], width, height, &mut out), Err(refusal));
            assert!(decoder.marks().is_none());
        }
        for (width, height, refusal) in
            [(16_385, 436, Refusal::TooLarge), (31, 436, Refusal::TooSmall), (16_384, 16_384, Refusal::ShortSamples)]
        {
            assert_eq!(decoder.decode_v2(&[], width, height, &mut out), Err(refusal));
            assert!(decoder.marks().is_none());
        }
        assert_eq!((decoder.map.len(), out), (0, [7; 9]));
    }

    #[test]
    fn memory_is_kept_and_a_smaller_frame_is_told_of_alone() {
        let mut decoder = Decoder::with_capacity(40, 5);
        let room = decoder.map.len();
        assert_eq!(room, 200);
        let mut out = [7; 300];
        let mut marked = |width, height, out: &mut [u16]| {
            let marks = decoder.decode_v0_direct(&[], &[0; 5], width, height, out).map(|marks| marks.bytes().len());
            (marks, decoder.map.len())
        };
        assert_eq!(marked(40, 5, &mut out), (Ok(200), room));
        assert_eq!(marked(3, 2, &mut out), (Ok(6), room));
        assert_eq!(marked(0, 5, &mut out), (Ok(0), room), "nothing was asked for");
        assert_eq!(marked(60, 5, &mut out), (Ok(300), 300));
    }

    #[test]
    fn a_decoder_can_be_handed_to_a_worker() {
        let mut decoder = Decoder::with_capacity(3, 1);
        let worker = std::thread::spawn(move || {
            decoder.decode_v0_direct(&[], &[0], 3, 1, &mut [7; 3]).map(|marks| marks.count())
        });
        assert_eq!(worker.join().expect("the worker ends"), Ok(3));
    }

    #[test]
    fn capacity_stops_at_the_largest_side() {
        assert_eq!(Decoder::with_capacity(usize::MAX, 0).map.len(), 0);
        assert_eq!(Decoder::with_capacity(1, usize::MAX).map.len(), 16_384);
    }
}
