//! V0's entries against samsung.rs: samples over the whole buffer, the old part of marks against runs over two sets of old
//! values, its filler part against the decoder of its own, scratch and the count of missing words against the frame's blocks
//! read on their own.

use super::model::{self, Fault};
use super::parse::{self, Missing};
use crate::bands::Cut;
use crate::call::{Answer, Ask, Decoder, Difference, Entry, Lent, first_difference};
use std::fmt;
use streams::random::Random;
use streams::{Frame, v0};

/// What was compared, and what the frames made use of.
#[derive(Debug, Default)]
pub struct Seen {
    pub seed: u64,
    pub frames: u64,
    pub calls: u64,
    pub samples: u64,
    /// Blocks, those that are upward in rows 0 and 1, operations by number.
    pub blocks: u64,
    pub upward: u64,
    pub operations: [u64; 4],
    /// Lengths of 0 and below, and above 32.
    pub none: u64,
    pub long: u64,
    /// Rows in which the stream ended and words missing there, frames with spill, frames with old samples, samples with an old
    /// part and with a filler part.
    pub missing: Missing,
    pub spill: u64,
    pub old: u64,
    pub marked: u64,
    pub filled: u64,
}

impl fmt::Display for Seen {
    fn fmt(&self, f: &mut fmt::Formatter<'_>) -> fmt::Result {
        let Seen { seed, frames, calls, samples, blocks, upward, operations, none, long, .. } = self;
        let Seen { missing, spill, old, marked, filled, .. } = self;
        writeln!(f, "V0, seed {seed}: {frames} frames, {samples} samples, {calls} calls, {blocks} blocks")?;
        writeln!(f, "V0: {upward} upward blocks in rows 0 and 1, operations 0 to 3: {operations:?}")?;
        writeln!(f, "V0: {none} lengths of 0 or below, {long} above 32")?;
        writeln!(f, "V0: {} rows past the stream's end, {} words missing", missing.rows, missing.words)?;
        writeln!(f, "V0: {spill} frames with spill, {old} with old samples, {marked} samples old, {filled} of filler")?;
        write!(f, "V0: {frames} frames compared with samsung.rs, no difference")
    }
}

/// What samsung.rs leaves of a frame over old values.
pub fn rust(frame: &Frame, old: &[u16]) -> Vec<u16> {
    let mut out = old.to_vec();
    let &Frame { width, height, ref stream, ref offsets, .. } = frame;
    reference::decode_v0_reference(stream, offsets, width, height, &mut out).expect("the frame is within the limits");
    out
}

/// Each sample one higher, modulo 65,536.
pub fn one_higher(old: &[u16]) -> Vec<u16> {
    old.iter().map(|s| s.wrapping_add(1)).collect()
}

/// The old parts of the marks, found by runs of samsung.rs alone: samples over old values and over old values that are one higher differ by 1
/// where they rest on an old value, else not at all.
pub fn marks(n: usize, over_old: &[u16], over_higher: &[u16]) -> Result<Vec<u8>, String> {
    let rise = |(i, (a, b)): (usize, (&u16, &u16))| match b.wrapping_sub(*a) {
        rise @ 0..=1 => Ok(rise as u8),
        rise => Err(format!("sample {i} rises by {rise} where each old value rises by 1")),
    };
    over_old.iter().zip(over_higher).take(n).enumerate().map(rise).collect()
}

/// What a frame must come to, over two sets of old values.
struct Expected {
    old: [Vec<u16>; 2],
    samples: [Vec<u16>; 2],
    /// The map's bytes, both parts.
    marks: Vec<u8>,
    directions: Vec<u8>,
    missing: Missing,
}

/// The map's bytes by the decoder of its own, whose samples must be samsung.rs's and whose old parts those of runs of samsung.rs.
pub fn both_parts(frame: &Frame, old: &[u16], samples: &[u16], old_parts: &[u8]) -> Result<Vec<u8>, String> {
    let (mut own, mut map) = (old.to_vec(), vec![9; frame.samples()]);
    let mut lent = Lent { samples: &mut own, map: &mut map, scratch: &mut [] };
    model::decode(Fault::None, Decoder::Direct, true, &Ask::of(frame), &mut lent);
    if let Some(what) = first_difference(&own, samples) {
        return Err(format!("the decoder of its own, samples: {what}"));
    }
    let own_old: Vec<u8> = map.iter().map(|byte| byte & 1).collect();
    match first_difference(&own_old, old_parts) {
        Some(what) => Err(format!("the decoder of its own, old parts: {what}")),
        None => Ok(map),
    }
}

fn expected(frame: &Frame, old: Vec<u16>) -> Result<Expected, String> {
    let old = [one_higher(&old), old];
    let samples = [rust(frame, &old[0]), rust(frame, &old[1])];
    let mut other = old[1].clone();
    let &Frame { width, height, ref stream, ref offsets, .. } = frame;
    reference::decode_v0(stream, offsets, width, height, &mut other).expect("the frame is within the limits");
    if let Some(what) = first_difference(&other, &samples[1]) {
        return Err(format!("samsung.rs's decode_v0 and decode_v0_reference: {what}"));
    }
    let marks = both_parts(frame, &old[1], &samples[1], &marks(width * height, &samples[1], &samples[0])?)?;
    let (directions, missing) = (parse::directions(frame), parse::heads(frame, |_| {}));
    Ok(Expected { old, samples, marks, directions, missing })
}

/// Compares one frame through every entry, over both sets of old values; old samples and what the other buffers hold at entry
/// are random, and each buffer may be longer than the frame needs.
pub fn frame(entries: &[Entry], frame: &Frame, random: &mut Random, seen: &mut Seen) -> Result<(), String> {
    let n = frame.samples();
    let more = [0; 3].map(|_| if random.below(2) == 0 { 0 } else { random.index(40) });
    let expected = expected(frame, random.samples(n + more[0]))?;
    for entry in entries {
        for run in 0..2 {
            let (mut samples, map) = (expected.old[run].clone(), random.bytes(n + more[1]));
            let scratch = random.bytes(expected.directions.len() + more[2]);
            let (mut new_map, mut new_scratch) = (map.clone(), scratch.clone());
            let mut lent = Lent { samples: &mut samples, map: &mut new_map, scratch: &mut new_scratch };
            let cut = Cut::fitting(entry.decoder, random, frame.width, frame.height);
            let answer = entry.call(&Ask { cut: &cut, ..Ask::of(frame) }, &mut lent);
            seen.calls += 1;
            // The direct decoder alone tells of missing words.
            let words = if entry.decoder == Decoder::Direct { expected.missing.words } else { 0 };
            if answer != Answer::done_with(words) {
                return Err(format!("{}: answer {answer}, expected {}", entry.name, Answer::done_with(words)));
            }
            let marks = if entry.map { &expected.marks[..] } else { &[] };
            let directions = if entry.decoder.in_phases() { &expected.directions[..] } else { &[] };
            let over = |old: &[u8], first: &[u8]| [first, &old[first.len()..]].concat();
            let found = [
                ("samples", first_difference(&samples, &expected.samples[run])),
                ("map", first_difference(&new_map, &over(&map, marks))),
                ("scratch", first_difference(&new_scratch, &over(&scratch, directions))),
            ];
            if let Some((buffer, Some(what))) = found.into_iter().find(|(_, what)| what.is_some()) {
                return Err(format!("{}, {buffer} of {n} in the frame: {what}", entry.name));
            }
        }
    }
    note(frame, &expected, seen);
    Ok(())
}

fn note(frame: &Frame, expected: &Expected, seen: &mut Seen) {
    seen.frames += 1;
    seen.samples += frame.samples() as u64;
    let having = |part: u8| expected.marks.iter().filter(|&&mark| mark & part != 0).count() as u64;
    let marked = having(1);
    seen.marked += marked;
    seen.filled += having(2);
    seen.old += u64::from(marked > 0);
    seen.spill += u64::from(!frame.width.is_multiple_of(16) && frame.height > 1);
    parse::heads(frame, |head| {
        seen.blocks += 1;
        seen.upward += u64::from(head.row < 2 && head.direction == 1);
        for operation in head.operations {
            seen.operations[operation as usize] += 1;
        }
        for length in head.lengths {
            seen.none += u64::from(length <= 0);
            seen.long += u64::from(length > 32);
        }
    });
    seen.missing.rows += expected.missing.rows;
    seen.missing.words += expected.missing.words;
}

/// Compares `frames` frames of every kind and size, up to the first difference.
pub fn compare(entries: &[Entry], seed: u64, frames: u64) -> Result<Seen, Difference> {
    let mut random = Random::new(seed);
    let mut seen = Seen { seed, ..Seen::default() };
    for i in 0..frames {
        let (width, height) = v0::any::size(&mut random, i);
        let one = v0::any(&mut random, width, height);
        frame(entries, &one, &mut random, &mut seen).map_err(|what| {
            let shown = if one.stream.len() <= 200 && height <= 16 { format!("{one:02x?}") } else { String::new() };
            Difference(format!("V0, seed {seed}, frame {i}, {width} by {height}: {what}\n{shown}"))
        })?;
    }
    Ok(seen)
}
