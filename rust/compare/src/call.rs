//! A call of a decoder, whichever it is: what is asked for, what is lent, and what is answered.

use crate::bands::Cut;
use std::fmt;
use streams::{Frame, Version};

/// How many numbers an answer may have: done, and refusals 1 to 12.
pub const NUMBERS: usize = 13;

/// The cut of a call that takes none.
static UNCUT: Cut = Cut::NONE;

/// What a call asks for. V2 has no offsets, and only the decoder in bands takes a cut.
#[derive(Clone, Copy, Debug)]
pub struct Ask<'a> {
    pub src: &'a [u8],
    pub offsets: &'a [u32],
    pub width: usize,
    pub height: usize,
    pub cut: &'a Cut,
}

impl<'a> Ask<'a> {
    /// A frame, not cut.
    pub fn of(frame: &'a Frame) -> Ask<'a> {
        let offsets = if frame.version == Version::V0 { &frame.offsets[..] } else { &[] };
        Ask { src: &frame.stream, offsets, width: frame.width, height: frame.height, cut: &UNCUT }
    }

    /// How many samples the frame has.
    pub fn n(&self) -> usize {
        self.width * self.height
    }
}

/// The buffers that a call is lent. An entry that takes no map or no scratch is handed them all the same here, and must leave
/// them alone.
#[derive(Debug)]
pub struct Lent<'a> {
    pub samples: &'a mut [u16],
    pub map: &'a mut [u8],
    pub scratch: &'a mut [u8],
}

/// Number 0 is done. samsung.rs tells of no missing words: what is held to it leaves the count out.
#[derive(Clone, Copy, Debug, PartialEq, Eq)]
pub struct Answer {
    pub number: u32,
    pub row: u32,
    pub filler: u64,
}

impl Answer {
    pub const DONE: Answer = Answer { number: 0, row: 0, filler: 0 };

    /// Refusals 1 to 4, 11 and 12, which name no row and tell of no missing words.
    pub fn refused(number: u32) -> Answer {
        Answer { number, row: 0, filler: 0 }
    }

    /// Done, and so many words were missing.
    pub fn done_with(filler: u64) -> Answer {
        Answer { filler, ..Answer::DONE }
    }

    /// Whether the stream was decoded, to its end or up to a refusal.
    pub fn is_decoded(self) -> bool {
        matches!(self.number, 0 | 5..=8)
    }
}

impl fmt::Display for Answer {
    fn fmt(&self, f: &mut fmt::Formatter<'_>) -> fmt::Result {
        write!(f, "{}, row {}, {} words missing", self.number, self.row, self.filler)
    }
}

/// Which decoder; its entries with and without a map are one decoder.
#[derive(Clone, Copy, Debug, PartialEq, Eq)]
pub enum Decoder {
    Direct,
    TwoPhase,
    Bands,
    V2,
}

impl Decoder {
    pub fn version(self) -> Version {
        if self == Decoder::V2 { Version::V2 } else { Version::V0 }
    }

    /// Whether it decodes in two phases, with scratch.
    pub fn in_phases(self) -> bool {
        matches!(self, Decoder::TwoPhase | Decoder::Bands)
    }
}

/// An entry under test.
pub struct Entry {
    pub name: &'static str,
    pub decoder: Decoder,
    pub map: bool,
    pub call: Box<Call>,
}

/// How an entry is called.
pub type Call = dyn Fn(&Ask, &mut Lent) -> Answer;

impl Entry {
    pub fn new(
        name: &'static str,
        decoder: Decoder,
        map: bool,
        call: impl Fn(&Ask, &mut Lent) -> Answer + 'static,
    ) -> Entry {
        Entry { name, decoder, map, call: Box::new(call) }
    }

    pub fn call(&self, ask: &Ask, lent: &mut Lent) -> Answer {
        (self.call)(ask, lent)
    }
}

fn answer(result: Result<(), razvolk::Refusal>) -> Answer {
    counted(result.map(|()| 0))
}

fn counted(result: Result<u64, razvolk::Refusal>) -> Answer {
    let refused = |refusal: razvolk::Refusal| Answer {
        number: refusal.number(),
        row: refusal.row(),
        filler: refusal.filler_words(),
    };
    result.map_or_else(refused, Answer::done_with)
}

/// Razvolk's entries: a new decoder is one more here.
pub fn razvolk() -> Vec<Entry> {
    vec![
        Entry::new("decode_v0_reference", Decoder::Direct, false, |a, l| {
            counted(razvolk::decode_v0_reference(a.src, a.offsets, a.width, a.height, l.samples))
        }),
        Entry::new("decode_v0_reference_map", Decoder::Direct, true, |a, l| {
            counted(razvolk::decode_v0_reference_map(a.src, a.offsets, a.width, a.height, l.samples, l.map))
        }),
        Entry::new("decode_v0", Decoder::TwoPhase, false, |a, l| {
            answer(razvolk::decode_v0(a.src, a.offsets, a.width, a.height, l.samples, l.scratch))
        }),
        Entry::new("decode_v0_bands", Decoder::Bands, false, |a, l| {
            let Cut { bands, block_width, steps } = a.cut;
            let (samples, scratch) = (&mut *l.samples, &mut *l.scratch);
            answer(razvolk::decode_v0_bands(
                a.src,
                a.offsets,
                a.width,
                a.height,
                samples,
                scratch,
                *bands,
                *block_width,
                steps,
            ))
        }),
        Entry::new("decode_v2", Decoder::V2, false, |a, l| {
            answer(razvolk::decode_v2(a.src, a.width, a.height, l.samples))
        }),
        Entry::new("decode_v2_map", Decoder::V2, true, |a, l| {
            answer(razvolk::decode_v2_map(a.src, a.width, a.height, l.samples, l.map))
        }),
    ]
}

/// Those for clean frames, which refuse others by 17 to 19.
pub fn razvolk_clean() -> Vec<Entry> {
    vec![
        Entry::new("decode_v0_clean", Decoder::Direct, false, |a, l| {
            answer(razvolk::decode_v0_clean(a.src, a.offsets, a.width, a.height, l.samples))
        }),
        Entry::new("decode_v0_clean_map", Decoder::Direct, true, |a, l| {
            answer(razvolk::decode_v0_clean_map(a.src, a.offsets, a.width, a.height, l.samples, l.map))
        }),
    ]
}

/// Those of V0, or those of V2.
pub fn razvolk_of(version: Version) -> Vec<Entry> {
    razvolk().into_iter().filter(|entry| entry.decoder.version() == version).collect()
}

/// Those that take a cut.
pub fn razvolk_in_bands() -> Vec<Entry> {
    razvolk().into_iter().filter(|entry| entry.decoder == Decoder::Bands).collect()
}

/// Those of some that are lent a map.
pub fn with_map(entries: Vec<Entry>) -> Vec<Entry> {
    entries.into_iter().filter(|entry| entry.map).collect()
}

/// A difference that a comparison found, with what is needed to have it again.
#[derive(Debug)]
pub struct Difference(pub String);

impl fmt::Display for Difference {
    fn fmt(&self, f: &mut fmt::Formatter<'_>) -> fmt::Result {
        f.write_str(&self.0)
    }
}

/// Where two lists first differ, in words.
pub fn first_difference<T: PartialEq + fmt::Debug>(found: &[T], expected: &[T]) -> Option<String> {
    if found == expected {
        return None;
    }
    Some(match found.iter().zip(expected).position(|(a, b)| a != b) {
        Some(i) => format!("at {i} there is {:?}, expected {:?}", found[i], expected[i]),
        None => format!("there are {}, expected {}", found.len(), expected.len()),
    })
}
