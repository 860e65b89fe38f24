//! The bit reader: Razvolk's `Ph1Bits`, over `razvolk::bits`, against samsung.rs's, step by step. Value, position and overrun are
//! compared after each step; the unread bits, which samsung.rs keeps to itself, show in the reads that follow. The count of
//! missing words, which samsung.rs does not have, is held to the positions that samsung.rs fetches from. A state with more than 31
//! unread bits has no counterpart there, nor has one with a large count: [`crate::states`] tries them.

use crate::call::Difference;
use std::fmt;
use streams::random::Random;

/// What both readers offer.
pub trait Reader {
    fn get(&mut self, n: u32) -> u32;
    fn reset_at(&mut self, pos: u64);
    fn pos(&self) -> u64;
    fn overrun(&self) -> bool;
    /// How many words were missing, where the reader tells it.
    fn filler(&self) -> Option<u64>;
}

/// Starts a reader over a stream at a byte position.
pub type Start = for<'a> fn(&'a [u8], u64) -> Box<dyn Reader + 'a>;

/// Razvolk's reader.
pub fn razvolk<'a>(src: &'a [u8], pos: u64) -> Box<dyn Reader + 'a> {
    Box::new(razvolk::Ph1Bits::new(src, pos as usize))
}

/// samsung.rs's reader.
pub fn reference<'a>(src: &'a [u8], pos: u64) -> Box<dyn Reader + 'a> {
    Box::new(reference::Ph1Bits::new(src, pos as usize))
}

/// Both have the same calls, but for the count.
macro_rules! reads {
    ($reader:ty, $filler:expr) => {
        impl Reader for $reader {
            fn get(&mut self, n: u32) -> u32 {
                <$reader>::get(self, n)
            }

            fn reset_at(&mut self, pos: u64) {
                <$reader>::reset_at(self, pos as usize)
            }

            fn pos(&self) -> u64 {
                <$reader>::pos(self) as u64
            }

            fn overrun(&self) -> bool {
                <$reader>::overrun(self)
            }

            fn filler(&self) -> Option<u64> {
                $filler(self)
            }
        }
    };
}

reads!(razvolk::Ph1Bits<'_>, |reader: &razvolk::Ph1Bits| Some(reader.filler_words()));
reads!(reference::Ph1Bits<'_>, |_| None);

/// A step of both readers.
#[derive(Clone, Copy, Debug)]
pub enum Step {
    Get(u32),
    ResetAt(u64),
}

/// What a step shows: the value read, the position and the overrun after it.
pub type Shown = (u32, u64, bool);

fn shown(reader: &mut dyn Reader, step: Step) -> Shown {
    let mut value = 0;
    match step {
        Step::Get(n) => value = reader.get(n),
        Step::ResetAt(pos) => reader.reset_at(pos),
    }
    (value, reader.pos(), reader.overrun())
}

/// What was compared.
#[derive(Debug)]
pub struct Seen {
    pub seed: u64,
    pub reads: u64,
    /// How many reads were of 0 to 40 bits, and last of 2^32 - 1.
    pub widths: [u64; 42],
    pub streams: u64,
    pub resets: u64,
    /// After how many reads the overrun was set, how many words were missing, and how many reads took the position past 2^64.
    pub overrun: u64,
    pub missing: u64,
    pub wrapped: u64,
}

impl fmt::Display for Seen {
    fn fmt(&self, f: &mut fmt::Formatter<'_>) -> fmt::Result {
        let Seen { seed, reads, streams, resets, overrun, missing, wrapped, .. } = self;
        writeln!(f, "reader, seed {seed}: {streams} streams, {resets} resets")?;
        writeln!(f, "reader: the overrun was set after {overrun} reads, {missing} words were missing")?;
        writeln!(f, "reader: {wrapped} reads took the position past 2^64")?;
        write!(f, "reader: {reads} reads compared with samsung.rs, no difference")
    }
}

/// A stream of 0 to 200 bytes: random ones, or all 0, or all FF.
pub fn stream(random: &mut Random) -> Vec<u8> {
    let len = random.below(201) as usize;
    match random.below(16) {
        0 => vec![0; len],
        1 => vec![0xff; len],
        _ => random.bytes(len),
    }
}

/// A position in the stream or just past it, near 2^64, or anywhere.
pub fn position(random: &mut Random, len: usize) -> u64 {
    match random.below(8) {
        0 => 0u64.wrapping_sub(random.below(24)),
        1 => random.number(),
        _ => random.below(len as u64 + 9),
    }
}

/// A width of 0 to 40 bits, or of 2^32 - 1.
pub fn width(random: &mut Random) -> u32 {
    match random.below(42) as u32 {
        41 => u32::MAX,
        n => n,
    }
}

/// Takes two readers through the same steps until `reads` reads are compared, or up to the first difference.
pub fn compare(one: Start, other: Start, seed: u64, reads: u64) -> Result<Seen, Difference> {
    let mut random = Random::new(seed);
    let mut seen = Seen { seed, reads: 0, widths: [0; 42], streams: 0, resets: 0, overrun: 0, missing: 0, wrapped: 0 };
    while seen.reads < reads {
        over_a_stream(one, other, &mut random, &mut seen, reads).map_err(|what| {
            Difference(format!("reader, seed {seed}: a difference after {} reads\n{what}", seen.reads))
        })?;
    }
    Ok(seen)
}

fn over_a_stream(one: Start, other: Start, random: &mut Random, seen: &mut Seen, reads: u64) -> Result<(), String> {
    let src = stream(random);
    let start = position(random, src.len());
    let (mut one, mut other) = (one(&src, start), other(&src, start));
    let mut steps = Vec::new();
    let (mut before, mut missing) = (start, 0);
    seen.streams += 1;
    for _ in 0..=random.below(96) {
        let step = match random.below(16) {
            0 => Step::ResetAt(position(random, src.len())),
            _ => Step::Get(width(random)),
        };
        steps.push(step);
        let (found, expected) = (shown(&mut *one, step), shown(&mut *other, step));
        let (_, after, overrun) = expected;
        if let Step::Get(_) = step {
            missing += u64::from(after != before && !is_whole(&src, before));
        }
        if found != expected || one.filler().is_some_and(|count| count != missing) {
            let told = format!("value, position and overrun are {found:x?} and {expected:x?}");
            let counts = format!("{:?} words and {missing} were missing", one.filler());
            return Err(format!("stream {src:02x?}, from position {start:#x}: {steps:x?}\n{told}; {counts}"));
        }
        match step {
            Step::ResetAt(_) => seen.resets += 1,
            Step::Get(n) => {
                seen.reads += 1;
                seen.widths[n.min(41) as usize] += 1;
                seen.overrun += u64::from(overrun);
                seen.wrapped += u64::from(after < before);
            }
        }
        before = after;
        if seen.reads == reads {
            break;
        }
    }
    seen.missing += missing;
    Ok(())
}

/// Whether the four bytes from a position on all lie in the stream.
pub fn is_whole(src: &[u8], pos: u64) -> bool {
    u128::from(pos) + 4 <= src.len() as u128
}
