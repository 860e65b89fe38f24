//! The bit reader by value, at the C boundary, in any state: more unread bits than there can be, any position, any count of
//! missing words, mostly near its ends. samsung.rs has no such states; a reader by value of this module, written from the rules,
//! stands in for it.

use crate::call::Difference;
use crate::reader::{is_whole, position, stream, width};
use razvolk::bits::{self, Bits, Got};
use std::fmt;
use streams::random::Random;

/// A reader by value: a read, and a move.
#[derive(Clone, Copy)]
pub struct ByValue {
    pub get: fn(&[u8], Bits, u32) -> Got,
    pub reset_at: fn(Bits, u64) -> Bits,
}

/// Razvolk's.
pub const RAZVOLK: ByValue = ByValue { get: bits::get, reset_at: bits::reset_at };

/// Reads `n` bits, at most 32: those that are unread, and if they are too few, then the first of one word more. A word that is
/// not whole in the stream reads as ones and counts as missing.
pub fn get(src: &[u8], state: Bits, n: u32) -> Got {
    let n = n.min(32);
    let held = if state.count < 32 { state.count } else { 0 };
    let unread = u64::from(state.word) & ((1 << held) - 1);
    if n <= held {
        let value = (unread >> (held - n)) as u32;
        return Got { value, bits: Bits { count: held - n, ..state } };
    }
    let whole = is_whole(src, state.pos);
    let word = if whole { (0..4).map(|i| u32::from(src[state.pos as usize + i]) << (8 * i)).sum() } else { u32::MAX };
    let filler = if whole || state.filler == u64::MAX { state.filler } else { state.filler + 1 };
    let left = held + 32 - n;
    let value = (unread << (n - held) | u64::from(word) >> left) as u32;
    Got { value, bits: Bits { pos: state.pos.wrapping_add(4), word, count: left, filler } }
}

/// Goes on at a position, with nothing unread; the count of missing words stays.
pub fn reset_at(state: Bits, pos: u64) -> Bits {
    Bits { pos, word: 0, count: 0, filler: state.filler }
}

/// What was compared.
#[derive(Debug, Default)]
pub struct Seen {
    pub seed: u64,
    pub reads: u64,
    pub moves: u64,
    /// Reads in a state with more than 31 unread bits, reads of a missing word, and those among them that left the count at its
    /// end.
    pub overfull: u64,
    pub missing: u64,
    pub full: u64,
}

impl fmt::Display for Seen {
    fn fmt(&self, f: &mut fmt::Formatter<'_>) -> fmt::Result {
        let Seen { seed, reads, moves, overfull, missing, full } = self;
        writeln!(
            f,
            "states, seed {seed}: {overfull} with more than 31 unread bits, {missing} reads of a missing word"
        )?;
        writeln!(f, "states: {full} of them left the count at 2^64 - 1")?;
        write!(f, "states: {reads} reads and {moves} moves in any state, no difference from the rules")
    }
}

/// Any state; a count of missing words that is small, near 2^64, or anything.
fn state(random: &mut Random, len: usize) -> Bits {
    let count = if random.once_in(4) { random.number() as u32 } else { random.below(36) as u32 };
    let filler = match random.below(4) {
        0 => random.below(4),
        1 => random.number(),
        _ => u64::MAX - random.below(4),
    };
    Bits { pos: position(random, len), word: random.number() as u32, count, filler }
}

/// Takes a reader through a few reads and a move from each of many states, up to the first difference.
pub fn compare(one: ByValue, seed: u64, reads: u64) -> Result<Seen, Difference> {
    let mut random = Random::new(seed);
    let mut seen = Seen { seed, ..Seen::default() };
    while seen.reads < reads {
        let src = stream(&mut random);
        let mut at = state(&mut random, src.len());
        let to = position(&mut random, src.len());
        let differs = |what: &str| Difference(format!("states, seed {seed}: {what}, stream {src:02x?}"));
        if (one.reset_at)(at, to) != reset_at(at, to) {
            return Err(differs(&format!("{at:x?} moved to {to:#x} is {:x?}", (one.reset_at)(at, to))));
        }
        seen.moves += 1;
        for _ in 0..8 {
            let n = width(&mut random);
            let (found, expected) = ((one.get)(&src, at, n), get(&src, at, n));
            if found != expected {
                return Err(differs(&format!("{n} bits of {at:x?}: {found:x?}, expected {expected:x?}")));
            }
            let missing = expected.bits.pos != at.pos && !is_whole(&src, at.pos);
            seen.reads += 1;
            seen.overfull += u64::from(at.count > 31);
            seen.missing += u64::from(missing);
            seen.full += u64::from(missing && expected.bits.filler == u64::MAX);
            at = expected.bits;
        }
    }
    Ok(seen)
}
