//! The bit reader: a stream of words of 4 bytes, lowest byte first, whose highest bit is read first.
//!
//! ```
//! use razvolk::bits::{self, Bits};
//!
//! let stream = [0x78, 0x56, 0x34, 0x12];
//! let first = bits::get(&stream, Bits::new(0), 4);
//! let second = bits::get(&stream, first.bits, 8);
//! assert_eq!((first.value, second.value), (0x1, 0x23));
//!
//! // The stream has one word; a second one is missing, and reads as ones.
//! let past = bits::get(&stream, second.bits, 32);
//! assert_eq!(past.value, 0x4567_8fff);
//! assert_eq!((past.bits.pos, past.bits.filler), (8, 1));
//!
//! let again = bits::reset_at(past.bits, 0);
//! assert_eq!(bits::get(&stream, again, 32).value, 0x1234_5678);
//! assert_eq!(again.filler, 1, "the count stays");
//! ```

use crate::ffi;

/// A reader's state. Every value of every field is a state that [`get`] and [`reset_at`] take.
#[repr(C)]
#[derive(Clone, Copy, Debug, Default, PartialEq, Eq)]
pub struct Bits {
    /// The byte position of the next word.
    pub pos: u64,
    /// The word fetched last: its low `count` bits are still unread.
    pub word: u32,
    /// How many bits are unread, 0 to 31; a state with more counts as having none.
    pub count: u32,
    /// How many words were missing; it stops at 2^64 - 1.
    pub filler: u64,
}

impl Bits {
    /// A reader at a byte position, with nothing unread and no word missing.
    pub const fn new(pos: u64) -> Bits {
        Bits { pos, word: 0, count: 0, filler: 0 }
    }
}

/// A value read, and the state after it.
#[repr(C)]
#[derive(Clone, Copy, Debug, PartialEq, Eq)]
pub struct Got {
    /// The bits read, as a number.
    pub value: u32,
    /// The state after the read.
    pub bits: Bits,
}

/// Reads `n` bits; `n` above 32 counts as 32.
///
/// One word is fetched if fewer than `n` bits are unread, so `n` = 0 fetches none. Where fewer than 4 bytes remain, the word
/// is all ones and `filler` grows by 1. The position grows by 4 for each word, modulo 2^64, also for a missing one.
///
/// ```
/// use razvolk::bits::{Bits, get};
/// let got = get(&[0, 0, 0, 0xa0], Bits::new(0), 3);
/// assert_eq!((got.value, got.bits.count), (0b101, 29));
/// ```
pub fn get(src: &[u8], state: Bits, n: u32) -> Got {
    ffi::razvolk_get(src, state, n)
}

/// Drops the unread bits and goes on at byte position `pos`. The count of missing words stays.
///
/// ```
/// use razvolk::bits::{Bits, reset_at};
/// let state = Bits { pos: 8, word: 5, count: 3, filler: 2 };
/// assert_eq!(reset_at(state, 16), Bits { pos: 16, word: 0, count: 0, filler: 2 });
/// ```
pub fn reset_at(state: Bits, pos: u64) -> Bits {
    ffi::razvolk_reset_at(state, pos)
}

#[cfg(test)]
mod tests {
    use super::*;

    #[test]
    fn leftover_bytes_are_not_read() {
        let got = get(&[0, 0, 0], Bits::new(0), 1);
        assert_eq!(got.value, 1);
        assert_eq!(got.bits, Bits { pos: 4, word: u32::MAX, count: 31, filler: 1 });
    }

    #[test]
    fn a_state_with_more_than_31_bits_has_none() {
        let stream = 0x1234_5678u32.to_le_bytes();
        for count in [32, 33, 64, u32::MAX] {
            let state = Bits { pos: 0, word: 0xdead_beef, count, filler: 0 };
            let got = get(&stream, state, 8);
            assert_eq!(got.value, 0x12);
            assert_eq!(got.bits, Bits { pos: 4, word: 0x1234_5678, count: 24, filler: 0 });
            let none = get(&stream, state, 0);
            assert_eq!(none.value, 0);
            assert_eq!(none.bits, Bits { count: 0, ..state });
        }
    }

    #[test]
    fn the_position_wraps() {
        let got = get(&[1; 16], Bits::new(u64::MAX - 1), 32);
        assert_eq!(got.value, u32::MAX);
        assert_eq!(got.bits, Bits { pos: 2, word: u32::MAX, count: 0, filler: 1 });
        let got = get(&[1; 16], got.bits, 32);
        assert_eq!(got.value, 0x0101_0101);
        assert_eq!(got.bits.pos, 6);
    }

    #[test]
    fn reset_at_drops_bits_and_keeps_the_count() {
        let state = Bits { pos: 9, word: 7, count: 3, filler: 5 };
        assert_eq!(reset_at(state, 16), Bits { filler: 5, ..Bits::new(16) });
        assert_eq!(reset_at(Bits { filler: 0, ..state }, 0), Bits::new(0));
        assert_eq!(reset_at(Bits { filler: u64::MAX, ..state }, 1).filler, u64::MAX);
    }

    #[test]
    fn the_count_stops_at_its_end() {
        for (before, after) in [(0, 1), (7, 8), (u64::MAX - 1, u64::MAX), (u64::MAX, u64::MAX)] {
            let state = Bits { filler: before, ..Bits::new(0) };
            assert_eq!(get(&[0; 3], state, 1).bits.filler, after);
            assert_eq!(get(&[0; 4], state, 32).bits.filler, before, "no word is missing");
            assert_eq!(get(&[], state, 0).bits.filler, before, "none is fetched");
        }
    }
}
