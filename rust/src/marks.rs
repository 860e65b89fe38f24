//! What the samples of a frame rest on.

use std::{fmt, iter};

/// Marked samples of one row that follow each other, with nothing marked beside them.
#[derive(Clone, Copy, Debug, PartialEq, Eq, Hash)]
pub struct Run {
    /// The row.
    pub row: usize,
    /// The column of the first sample.
    pub first: usize,
    /// How many samples there are.
    pub length: usize,
}

/// What each sample of a frame rests on, one byte a sample, row by row. A byte has two parts: [`Marks::OLD`], on what the buffer
/// held before the call, and [`Marks::FILLER`], on words that the stream lacks. Byte 0: on bytes of the stream only.
///
/// No earlier frame reaches a sample without the old part. A sample with byte 0 is final: whatever is appended to the stream, it
/// stays as it is, so that the good part of an upload that broke off can be shown.
///
/// ```
/// use razvolk::Decoder;
///
/// // 2 by 2; the first row is skipped, and the exchange of places puts one of its samples into the second.
/// let stream = [0x00, 0x00, 0x00, 0x80, 0x18, 0x20, 0xa0, 0x7f, 0x00, 0x00, 0x70, 0x00];
/// let mut decoder = Decoder::new();
/// let marks = decoder.decode_v0_direct(&stream, &[0, 4], 2, 2, &mut [7, 8, 9, 10])?;
/// assert_eq!(marks.bytes(), [1, 0, 1, 0]);
/// assert_eq!((marks.count(), marks.is_clean()), (2, false));
/// assert_eq!((marks.row(1), marks.get(1, 0)), (Some(&[1, 0][..]), Some(1)));
/// assert_eq!(marks.rows().collect::<Vec<_>>(), [(0, 1), (1, 1)]);
/// assert_eq!(marks.runs().next(), Some(razvolk::Run { row: 0, first: 0, length: 1 }));
///
/// // The same, broken off: the samples of row 1 rest on a word that is missing, one of them in row 0 by the exchange.
/// let marks = decoder.decode_v0_direct(&stream[..8], &[0, 4], 2, 2, &mut [7, 8, 9, 10])?;
/// assert_eq!(marks.bytes(), [1, 2, 1, 2]);
/// assert_eq!((marks.count_old(), marks.count_filler(), marks.filler_words()), (2, 2, 1));
/// # Ok::<(), razvolk::Refusal>(())
/// ```
///
/// [`Marks::is_clean`] and the counts look at each byte once, many at a time: a millisecond or two for 17.5 megapixels.
#[derive(Clone, Copy, PartialEq, Eq)]
pub struct Marks<'a> {
    bytes: &'a [u8],
    width: usize,
    filler: u64,
}

impl<'a> Marks<'a> {
    /// The part of a byte that tells of old values: the sample is what the buffer held, or rests on it.
    pub const OLD: u8 = 1;

    /// The part of a byte that tells of missing words: the sample's block, or one that it rests on, was read past the stream's
    /// end.
    pub const FILLER: u8 = 2;

    pub(crate) fn new(bytes: &'a [u8], width: usize) -> Marks<'a> {
        Marks { bytes, width, filler: 0 }
    }

    pub(crate) fn with_filler_words(self, filler: u64) -> Marks<'a> {
        Marks { filler, ..self }
    }

    /// The bytes, as many as the frame has samples.
    pub const fn bytes(self) -> &'a [u8] {
        self.bytes
    }

    /// The frame's width.
    pub const fn width(self) -> usize {
        self.width
    }

    /// How many words of 4 bytes were read past the stream's end, as ones, over the whole frame: 0 if it had all that was read.
    /// After refusals 5 to 8, those up to the refusal. A stream that was cut may have lost more or less: ones code other lengths
    /// than what was there.
    ///
    /// ```
    /// let mut decoder = razvolk::Decoder::new();
    /// // Row 0 has a word, and row 1 would start behind it.
    /// let marks = decoder.decode_v0_direct(&[0, 0, 0, 0x80], &[0, 4], 2, 2, &mut [7, 8, 9, 10])?;
    /// assert_eq!(marks.filler_words(), 5);
    /// # Ok::<(), razvolk::Refusal>(())
    /// ```
    pub const fn filler_words(self) -> u64 {
        self.filler
    }

    /// A row's bytes; none where the frame has no such row, or no columns.
    pub fn row(self, row: usize) -> Option<&'a [u8]> {
        self.bytes.chunks_exact(self.width.max(1)).nth(row)
    }

    /// A sample's byte; none outside of the frame.
    pub fn get(self, row: usize, column: usize) -> Option<u8> {
        self.row(row)?.get(column).copied()
    }

    /// Whether all samples rest on bytes of the stream only.
    pub fn is_clean(self) -> bool {
        // A part without a way out is looked at in wide loads.
        self.bytes.chunks(4_096).all(|part| part.iter().fold(0, |all, mark| all | mark) == 0)
    }

    /// How many samples don't rest on bytes of the stream only.
    pub fn count(self) -> usize {
        having(Marks::OLD | Marks::FILLER, self.bytes)
    }

    /// How many samples rest on what the buffer held, whatever else they rest on.
    pub fn count_old(self) -> usize {
        having(Marks::OLD, self.bytes)
    }

    /// How many samples rest on missing words, whatever else they rest on.
    pub fn count_filler(self) -> usize {
        having(Marks::FILLER, self.bytes)
    }

    /// The rows that have samples with one part or both, from the top: the row's number, and how many.
    pub fn rows(self) -> impl Iterator<Item = (usize, usize)> + 'a {
        self.rows_having(Marks::OLD | Marks::FILLER)
    }

    /// The rows that have samples that rest on what the buffer held.
    pub fn rows_old(self) -> impl Iterator<Item = (usize, usize)> + 'a {
        self.rows_having(Marks::OLD)
    }

    /// The rows that have samples that rest on missing words.
    ///
    /// ```
    /// # let mut decoder = razvolk::Decoder::new();
    /// // Row 1 starts where the stream ends. The exchange at the end puts one of its two samples into row 0.
    /// let stream = [0x18, 0x20, 0xa0, 0x7f, 0, 0, 0x70, 0];
    /// let marks = decoder.decode_v0_direct(&stream, &[0, 8], 2, 2, &mut [7, 8, 9, 10])?;
    /// assert!(marks.rows_filler().eq([(0, 1), (1, 1)]));
    /// # Ok::<(), razvolk::Refusal>(())
    /// ```
    pub fn rows_filler(self) -> impl Iterator<Item = (usize, usize)> + 'a {
        self.rows_having(Marks::FILLER)
    }

    fn rows_having(self, parts: u8) -> impl Iterator<Item = (usize, usize)> + 'a {
        // A frame of width 0 has no bytes, and so no rows here.
        let rows = self.bytes.chunks(self.width.max(1)).enumerate();
        rows.map(move |(row, bytes)| (row, having(parts, bytes))).filter(|&(_, count)| count > 0)
    }

    /// The runs of such samples, in reading order: what [`crate::blank`] lists.
    pub fn runs(self) -> impl Iterator<Item = Run> + 'a {
        let rows = self.bytes.chunks(self.width.max(1)).enumerate();
        // Most rows have none, which wide loads tell.
        let rows = rows.filter(|(_, bytes)| bytes.iter().fold(0, |all, mark| all | mark) != 0);
        rows.flat_map(|(row, bytes)| runs_of(bytes).map(move |(first, length)| Run { row, first, length }))
    }
}

/// The first column and the length of each run of a row.
fn runs_of(bytes: &[u8]) -> impl Iterator<Item = (usize, usize)> + '_ {
    let mut at = 0;
    iter::from_fn(move || {
        let first = at + bytes[at..].iter().position(|&mark| mark != 0)?;
        let length = bytes[first..].iter().position(|&mark| mark == 0).unwrap_or(bytes.len() - first);
        at = first + length;
        Some((first, length))
    })
}

/// How many bytes have one of the parts. The counts of a chunk fit a byte each, so that it is added up in wide registers.
fn having(parts: u8, bytes: &[u8]) -> usize {
    let of_chunk = |chunk: &[u8]| chunk.iter().map(|&mark| u8::from(mark & parts != 0)).sum::<u8>();
    bytes.chunks(240).map(|chunk| usize::from(of_chunk(chunk))).sum()
}

impl fmt::Debug for Marks<'_> {
    fn fmt(&self, f: &mut fmt::Formatter<'_>) -> fmt::Result {
        let mut fields = f.debug_struct("Marks");
        fields.field("samples", &self.bytes.len());
        fields.field("old", &self.count_old()).field("filler", &self.count_filler()).finish_non_exhaustive()
    }
}

#[cfg(test)]
mod tests {
    use super::*;

    #[test]
    fn rows_and_counts() {
        let marks = Marks::new(&[0, 1, 1, 0, 0, 0, 0, 0, 1], 3);
        assert_eq!((marks.count(), marks.is_clean(), marks.width()), (3, false, 3));
        assert_eq!(marks.rows().collect::<Vec<_>>(), [(0, 2), (2, 1)]);
        let run = |row, first, length| Run { row, first, length };
        assert_eq!(marks.runs().collect::<Vec<_>>(), [run(0, 1, 2), run(2, 2, 1)]);
        // A run ends with its row, though the next row goes on.
        let marks = Marks::new(&[1, 0, 1, 1, 1, 1, 1, 0, 0], 3);
        assert_eq!(marks.runs().collect::<Vec<_>>(), [run(0, 0, 1), run(0, 2, 1), run(1, 0, 3), run(2, 0, 1)]);
        let marks = Marks::new(&[0, 1, 1, 0, 0, 0, 0, 0, 1], 3);
        assert_eq!([marks.row(0), marks.row(2), marks.row(3)], [Some(&[0, 1, 1][..]), Some(&[0, 0, 1][..]), None]);
        assert_eq!(
            [marks.get(2, 2), marks.get(2, 1), marks.get(2, 3), marks.get(3, 0)],
            [Some(1), Some(0), None, None]
        );
        assert_eq!(marks.row(usize::MAX), None);
        assert_eq!(format!("{marks:?}"), "Marks { samples: 9, old: 3, filler: 0, .. }");
    }

    #[test]
    fn both_parts_are_told_apart() {
        let marks = Marks::new(&[0, 1, 2, 3, 3, 0], 3);
        assert_eq!((marks.count(), marks.count_old(), marks.count_filler()), (4, 3, 3));
        assert_eq!(marks.rows().collect::<Vec<_>>(), [(0, 2), (1, 2)]);
        let apart = Marks::new(&[0, 1, 2, 2], 2);
        assert!(apart.rows_old().eq([(0, 1)]) && apart.rows_filler().eq([(1, 2)]));
        assert!(!marks.is_clean() && !Marks::new(&[0, 2], 2).is_clean());
        assert_eq!(format!("{marks:?}"), "Marks { samples: 6, old: 3, filler: 3, .. }");
    }

    #[test]
    fn a_frame_of_no_samples_is_clean() {
        for width in [0, 5] {
            let marks = Marks::new(&[], width);
            assert_eq!((marks.count(), marks.is_clean(), marks.rows().count(), marks.runs().count()), (0, true, 0, 0));
            assert_eq!((marks.row(0), marks.get(0, 0)), (None, None));
        }
    }

    /// Lengths about the edges of the wide parts, all marked, none, and one at each end of them.
    #[test]
    fn every_byte_counts_once() {
        for len in [1, 15, 16, 17, 239, 240, 241, 480, 4_095, 4_096, 4_097, 8_191, 8_192, 10_000] {
            let mut bytes = vec![1; len];
            assert_eq!((Marks::new(&bytes, 1).count(), Marks::new(&bytes, 1).is_clean()), (len, false));
            bytes.fill(0);
            assert_eq!((Marks::new(&bytes, 1).count(), Marks::new(&bytes, 1).is_clean()), (0, true));
            for at in [0, len / 2, len - 1] {
                bytes[at] = 255;
                assert_eq!(
                    (Marks::new(&bytes, 1).count(), Marks::new(&bytes, 1).is_clean()),
                    (1, false),
                    "{at} of {len}"
                );
                bytes[at] = 0;
            }
        }
    }
}
