//! A writer of V0 against the plain one, byte for byte, with buffers just long enough, one short, and longer; and what it writes
//! decoded by Razvolk's entries and by samsung.rs: the samples come back, and no map byte is 1.

use super::plain::{Ask, Written, plain};
use crate::bands::Cut;
use crate::call::{self, Answer, Difference, Entry, Lent, first_difference, razvolk_of};
use crate::v0::parse;
use std::fmt;
use streams::images::photo;
use streams::random::Random;
use streams::{Frame, Version};

/// A writer under test.
pub type Write<'a> = &'a dyn Fn(&Ask, &mut [u8], &mut [u32]) -> Written;

/// Razvolk's. (The Rust crate hides the length of what is refused; the tests in C see it.)
pub fn razvolk(ask: &Ask, stream: &mut [u8], offsets: &mut [u32]) -> Written {
    match razvolk::write_v0(ask.samples, ask.width, ask.height, stream, offsets) {
        Ok(length) => Written { answer: Answer::DONE, length },
        Err(refusal) => {
            let (number, row, filler) = (refusal.number(), refusal.row(), refusal.filler_words());
            Written { answer: Answer { number, row, filler }, length: 0 }
        }
    }
}

/// What was compared, and what the frames made use of.
#[derive(Debug, Default)]
pub struct Seen {
    pub seed: u64,
    pub frames: u64,
    pub samples: u64,
    pub bytes: u64,
    /// Calls of the writer, and how many got number 0 to 10.
    pub calls: u64,
    pub numbers: [u64; 11],
    pub decoded: u64,
    /// Lengths of 0 to 15 bits, and frames with columns past the row's end.
    pub lengths: [u64; 16],
    pub past: u64,
}

impl fmt::Display for Seen {
    fn fmt(&self, f: &mut fmt::Formatter<'_>) -> fmt::Result {
        let Seen { seed, frames, samples, bytes, calls, numbers, decoded, lengths, past } = self;
        writeln!(f, "write, seed {seed}: {samples} samples in {bytes} bytes, {calls} calls, {decoded} decoded back")?;
        writeln!(f, "write: answers 0 to 10: {numbers:?}, lengths of 0 to 15 bits: {lengths:?}")?;
        writeln!(f, "write: {past} frames with columns past the row's end")?;
        write!(f, "write: {frames} frames equal to the plain writer's and decoded back, by Razvolk and by samsung.rs")
    }
}

/// The size of frame number `i`: every width from 1 to 80 with every height from 0 to 40 in turn; now and then a larger one, up
/// to the limits, or none.
fn size(random: &mut Random, i: u64) -> (usize, usize) {
    match i % 1_000 {
        10 => (16_384, random.index(4)),
        260 | 510 => (1 + random.index(16_384), random.index(6)),
        760 => (random.index(4), 16_384 - random.index(2)),
        k if k % 40 == 20 => (1 + random.index(900), random.index(9)),
        k if k % 100 == 30 => (0, random.index(41)),
        _ => (1 + i as usize % 80, i as usize / 80 % 41),
    }
}

/// Samples of 0 to 16,383: smooth ones with noise, random, extreme, about one value, and steps whose sizes lie about powers of 2.
pub fn frame(random: &mut Random, width: usize, height: usize) -> Vec<u16> {
    let n = width * height;
    let low = |random: &mut Random, n, bits: u32| -> Vec<u16> {
        random.samples(n).into_iter().map(|sample| sample >> (16 - bits)).collect()
    };
    match random.below(8) {
        0 | 1 => photo(width, height, [0.0, 3.0, 16.0, 260.0][random.index(4)], random.number()),
        2 => low(random, n, 14),
        3 => low(random, n, 1).into_iter().map(|bit| bit * 16_383).collect(),
        4 => {
            let (least, bits) = (random.below(12_000) as u16, random.below(12) as u32);
            low(random, n, bits + 1).into_iter().map(|more| least + more).collect()
        }
        5 => vec![[0, 127, 128, 129, 16_383][random.index(5)]; n],
        _ => {
            let mut at = 128;
            let mut step = || {
                let size = (1 << random.below(15)) - random.below(3) as i32;
                let next = if random.once_in(2) { at + size } else { at - size };
                at = if (0..16_384).contains(&next) { next } else { at };
                at as u16
            };
            (0..n).map(|_| step()).collect()
        }
    }
}

/// Calls the writer over random buffers of these lengths, and holds it to a number or to what must be written. Gives the buffers.
fn called(
    write: Write,
    ask: &Ask,
    (bytes, rows): (usize, usize),
    expected: Result<(&[u8], &[u32]), u32>,
    random: &mut Random,
    seen: &mut Seen,
) -> Result<(Vec<u8>, Vec<u32>), String> {
    let old: (Vec<u8>, Vec<u32>) = (random.bytes(bytes), (0..rows).map(|_| random.number() as u32).collect());
    let mut new = old.clone();
    let written = write(ask, &mut new.0, &mut new.1);
    let (stream, offsets) = expected.unwrap_or_default();
    let answer = expected.err().map_or(Answer::DONE, Answer::refused);
    let what = format!("{} samples, {bytes} bytes and {rows} offsets lent", ask.samples.len());
    seen.calls += 1;
    seen.numbers[answer.number as usize] += 1;
    if written != (Written { answer, length: stream.len() }) {
        return Err(format!("{what}: {written:?}, expected {answer} with length {}", stream.len()));
    }
    let over = ([stream, &old.0[stream.len()..]].concat(), [offsets, &old.1[offsets.len()..]].concat());
    let found = first_difference(&new.0, &over.0).map(|what| format!("stream {what}"));
    let found = found.or_else(|| first_difference(&new.1, &over.1).map(|what| format!("offsets {what}")));
    found.map_or(Ok(new), |found| Err(format!("{what}, {answer}: {found}")))
}

/// Calls with what is refused: buffers one short, then sometimes a sample above 16,383, too few samples, and a side too long.
fn refused(write: Write, ask: &Ask, lens: (usize, usize), random: &mut Random, seen: &mut Seen) -> Result<(), String> {
    let n = ask.width * ask.height;
    for (bytes, rows) in [(lens.0.wrapping_sub(1), lens.1), (lens.0, lens.1.wrapping_sub(1))] {
        if bytes != usize::MAX && rows != usize::MAX {
            called(write, ask, (bytes, rows), Err(10), random, seen)?;
        }
    }
    // With buffers that are long enough, or with none: 10 comes after the others.
    let lens = [lens, (lens.0 + 9, lens.1 + 3), (0, 0)][random.index(3)];
    let mut bright = ask.samples.to_vec();
    if n > 0 && random.once_in(4) {
        bright[random.index(n)] = if random.once_in(2) { 16_384 } else { 16_384 | random.number() as u16 };
        called(write, &Ask { samples: &bright, ..*ask }, lens, Err(9), random, seen)?;
    }
    if n > 0 && random.once_in(8) {
        let lent = [n - 1, random.index(n)][random.index(2)];
        called(write, &Ask { samples: &bright[..lent], ..*ask }, lens, Err(3), random, seen)?;
    }
    if random.once_in(16) {
        let side = [16_385, usize::MAX, 1 << 32][random.index(3)];
        let (width, height) = if random.once_in(2) { (side, ask.height) } else { (ask.width, side) };
        called(write, &Ask { samples: &bright, width, height }, lens, Err(1), random, seen)?;
    }
    Ok(())
}

/// Decodes what was written by Razvolk's entries, over old samples and maps that are random, and by samsung.rs. Gives how many
/// times.
pub fn back(entries: &[Entry], frame: &Frame, samples: &[u16], random: &mut Random) -> Result<u64, String> {
    let (&Frame { width, height, ref stream, ref offsets, .. }, n) = (frame, samples.len());
    let more = random.index(9);
    let mut decoded = 0;
    for entry in entries {
        let cut = Cut::fitting(entry.decoder, random, width, height);
        let ask = call::Ask { src: stream, offsets, width, height, cut: &cut };
        let (mut out, mut map) = (random.samples(n + more), random.bytes(n));
        let (rest, mut scratch) = (out[n..].to_vec(), random.bytes(razvolk::scratch_len(width, height)));
        let answer = entry.call(&ask, &mut Lent { samples: &mut out, map: &mut map, scratch: &mut scratch });
        decoded += 1;
        let found = first_difference(&out, &[samples, &rest].concat());
        let found = found.or_else(|| first_difference(&map, &vec![0; n]).filter(|_| entry.map));
        if let Some(what) = found.or((answer != Answer::DONE).then(|| format!("answer {answer}"))) {
            return Err(format!("decoded back by {}: {what}", entry.name));
        }
    }
    for (name, decode) in [
        ("decode_v0_reference", reference::decode_v0_reference as fn(&[u8], &[u32], usize, usize, &mut [u16]) -> _),
        ("decode_v0", reference::decode_v0),
    ] {
        let mut out = random.samples(n);
        let result: reference::Result<()> = decode(stream, offsets, width, height, &mut out);
        decoded += 1;
        let found = first_difference(&out, samples).or(result.err().map(|e| format!("{e:?}")));
        if let Some(what) = found {
            return Err(format!("decoded back by samsung.rs's {name}: {what}"));
        }
    }
    Ok(decoded)
}

/// One frame: what is refused, what is written, and what becomes of it.
fn one(write: Write, entries: &[Entry], ask: &Ask, random: &mut Random, seen: &mut Seen) -> Result<(), String> {
    let Ask { samples, width, height } = *ask;
    let (stream, offsets) = plain(samples, width, height);
    let (lens, expected) = ((stream.len(), height), Ok((&stream[..], &offsets[..])));
    refused(write, ask, lens, random, seen)?;
    called(write, ask, lens, expected, random, seen)?;
    // Buffers that are longer, and samples past the frame, of which none counts.
    let more = random.index(9);
    let longer = [samples, &random.samples(more)].concat();
    let lens = (lens.0 + 1 + random.index(40), lens.1 + 1 + random.index(4));
    let (bytes, rows) = called(write, &Ask { samples: &longer, ..*ask }, lens, expected, random, seen)?;
    let frame = Frame { version: Version::V0, width, height, stream: bytes, offsets: rows };
    seen.decoded += back(entries, &frame, samples, random)?;
    note(&frame.cut(stream.len()), seen)?;
    seen.frames += 1;
    seen.samples += samples.len() as u64;
    seen.bytes += stream.len() as u64;
    seen.past += u64::from(!width.is_multiple_of(16) && height > 0);
    Ok(())
}

/// What the blocks say, read on their own: direction 0, four operations 3, and no row goes past the stream's end.
fn note(frame: &Frame, seen: &mut Seen) -> Result<(), String> {
    let mut others = 0;
    let missing = parse::heads(frame, |head| {
        others += u64::from(head.direction != 0 || head.operations != [3; 4]);
        head.lengths.into_iter().for_each(|length| seen.lengths[length as usize] += 1);
    });
    if others > 0 || missing.words > 0 {
        return Err(format!("{others} blocks of another form, {} words past the stream's end", missing.words));
    }
    Ok(())
}

/// Compares `frames` frames, up to the first difference.
pub fn compare(write: Write, seed: u64, frames: u64) -> Result<Seen, Difference> {
    let mut random = Random::new(seed);
    let mut seen = Seen { seed, ..Seen::default() };
    let entries = razvolk_of(Version::V0);
    for i in 0..frames {
        let (width, height) = size(&mut random, i);
        let samples = frame(&mut random, width, height);
        one(write, &entries, &Ask { samples: &samples, width, height }, &mut random, &mut seen).map_err(|what| {
            let shown = if samples.len() <= 100 { format!("{samples:?}") } else { String::new() };
            Difference(format!("write, seed {seed}, frame {i}, {width} by {height}: {what}\n{shown}"))
        })?;
    }
    Ok(seen)
}
