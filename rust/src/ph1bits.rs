//! The reader that borrows its stream.

use crate::bits::{self, Bits};

/// A reader that borrows a stream and steps through it: the same calls as of `Ph1Bits` in samsung.rs. The stream is words of
/// 4 bytes, lowest byte first, whose highest bit is read first. [`crate::bits`] has the same by value.
///
/// ```
/// use razvolk::Ph1Bits;
///
/// let mut bits = Ph1Bits::new(&[0x78, 0x56, 0x34, 0x12, 0xff, 0xff, 0xff], 0);
/// assert_eq!([bits.get(4), bits.get(4), bits.get(4)], [1, 2, 3]);
/// assert_eq!((bits.pos(), bits.overrun()), (4, false));
///
/// // Three bytes are left: no word. It reads as ones, and the count of such words stays.
/// assert_eq!(bits.get(32), 0x4567_8fff);
/// assert_eq!((bits.pos(), bits.overrun(), bits.filler_words()), (8, true, 1));
/// bits.reset_at(0);
/// assert_eq!(bits.get(32), 0x1234_5678);
/// assert_eq!(bits.filler_words(), 1);
/// ```
#[derive(Clone, Debug)]
pub struct Ph1Bits<'a> {
    data: &'a [u8],
    state: Bits,
}

impl<'a> Ph1Bits<'a> {
    /// A reader at a byte position, which may lie past the stream's end.
    ///
    /// ```
    /// let mut bits = razvolk::Ph1Bits::new(&[0, 0, 0, 0, 1, 0, 0, 0x80], 4);
    /// assert_eq!(bits.get(32), 0x8000_0001);
    /// ```
    pub const fn new(data: &'a [u8], pos: usize) -> Ph1Bits<'a> {
        Ph1Bits { data, state: Bits::new(pos as u64) }
    }

    /// Reads `n` bits; `n` above 32 counts as 32. A word is fetched only if fewer than `n` bits are unread.
    ///
    /// ```
    /// let mut bits = razvolk::Ph1Bits::new(&[0, 0, 0, 0xa0], 0);
    /// assert_eq!([bits.get(0), bits.get(3), bits.get(1)], [0, 0b101, 0]);
    /// ```
    pub fn get(&mut self, n: u32) -> u32 {
        let got = bits::get(self.data, self.state, n);
        self.state = got.bits;
        got.value
    }

    /// The byte position of the next word to fetch. It grows by 4 for each word, modulo 2^64, also for a missing one.
    ///
    /// ```
    /// let mut bits = razvolk::Ph1Bits::new(&[0; 8], 0);
    /// assert_eq!((bits.pos(), bits.get(1), bits.pos()), (0, 0, 4));
    /// ```
    pub const fn pos(&self) -> usize {
        // The archive is for x86-64 alone.
        self.state.pos as usize
    }

    /// Drops the unread bits and goes on at byte position `pos`. The count of missing words stays.
    ///
    /// ```
    /// let mut bits = razvolk::Ph1Bits::new(&[0, 0, 0, 0xa0], 0);
    /// assert_eq!(bits.get(2), 0b10);
    /// bits.reset_at(0);
    /// assert_eq!(bits.get(3), 0b101);
    /// ```
    pub fn reset_at(&mut self, pos: usize) {
        self.state = bits::reset_at(self.state, pos as u64);
    }

    /// How many words were missing so far, and read as ones; the count stops at 2^64 - 1.
    ///
    /// ```
    /// let mut bits = razvolk::Ph1Bits::new(&[0, 0, 0, 0xa0, 1, 2, 3], 0);
    /// assert_eq!((bits.get(8), bits.filler_words()), (0xa0, 0));
    /// assert_eq!((bits.get(32), bits.get(32), bits.filler_words()), (0xff, u32::MAX, 2));
    /// ```
    pub const fn filler_words(&self) -> u64 {
        self.state.filler
    }

    /// Whether a word was missing: [`Ph1Bits::filler_words`] isn't 0.
    ///
    /// ```
    /// let mut bits = razvolk::Ph1Bits::new(&[], 0);
    /// assert!(!bits.overrun());
    /// assert_eq!(bits.get(8), 0xff);
    /// assert!(bits.overrun());
    /// ```
    pub const fn overrun(&self) -> bool {
        self.state.filler != 0
    }
}
