//! A converter against the plain one: answer, length, samples, map and every byte of the stream, over random buffers that are just
//! long enough, short, and longer; and what it writes decoded by Razvolk's V2 entries and, where it takes the size, by samsung.rs.

use super::plain::{Buffers, Fault, convert};
use crate::call::{self, Answer, Difference, Entry, Lent, first_difference, razvolk_of};
use crate::v2::compare::rust_takes;
use crate::write::compare::frame as image;
use crate::write::plain::{Written, plain as v0};
use std::fmt;
use streams::images::photo;
use streams::random::Random;
use streams::v0::{any::any, encode::encode};
use streams::{Frame, Version};

/// A converter under test.
pub type Convert<'a> = &'a dyn Fn(&call::Ask, &mut Buffers) -> Written;

/// Razvolk's. (The Rust crate hides the length of what is refused; the tests in C see it.)
pub fn razvolk(ask: &call::Ask, lent: &mut Buffers) -> Written {
    let Buffers { samples, map, stream } = lent;
    match razvolk::v0_to_v2(ask.src, ask.offsets, ask.width, ask.height, samples, map, stream) {
        Ok(length) => Written { answer: Answer::DONE, length },
        Err(refusal) => {
            let (number, row, filler) = (refusal.number(), refusal.row(), refusal.filler_words());
            Written { answer: Answer { number, row, filler }, length: 0 }
        }
    }
}

/// What was compared.
#[derive(Debug, Default)]
pub struct Seen {
    pub seed: u64,
    pub frames: u64,
    pub samples: u64,
    pub bytes: u64,
    /// Calls of the converter, and how many got number 0 to 16.
    pub calls: u64,
    pub numbers: [u64; 17],
    /// Streams decoded back by Razvolk's entries, and by samsung.rs.
    pub decoded: u64,
    pub by_samsung_rs: u64,
}

impl fmt::Display for Seen {
    fn fmt(&self, f: &mut fmt::Formatter<'_>) -> fmt::Result {
        let Seen { seed, frames, samples, bytes, calls, numbers, decoded, by_samsung_rs } = self;
        writeln!(
            f,
            "convert, seed {seed}: {samples} samples into {bytes} bytes, {calls} calls, answers 0 to 16: {numbers:?}"
        )?;
        writeln!(f, "convert: {decoded} streams decoded back by Razvolk, {by_samsung_rs} by samsung.rs")?;
        write!(f, "convert: {frames} frames equal to the plain converter's")
    }
}

/// The size of frame number `i`: one of `every` is large enough for samsung.rs, the others are small; not all widths are multiples
/// of 16.
fn size(random: &mut Random, i: u64, every: u64) -> (usize, usize) {
    let uneven = if random.once_in(8) { random.index(16) } else { 0 };
    match i % every {
        0 => (656 + 16 * random.index(5) - usize::from(random.once_in(10)), 436 + random.index(4)),
        1 => (16_384, random.index(3)),
        2 => (16 * random.index(1_000) + uneven, random.index(5)),
        _ => (16 * random.index(7) + uneven, random.index(24)),
    }
}

/// A V0 frame: what the plain writer makes of an image, an image encoded with every direction and operation, now and then with a
/// sample too bright, or any stream.
fn frame(random: &mut Random, width: usize, height: usize) -> Frame {
    let n = width * height;
    match random.below(8) {
        0..3 => {
            let (stream, offsets) = v0(&image(random, width, height), width, height);
            Frame { stream, offsets, ..Frame::new(Version::V0, width, height) }
        }
        3..5 => {
            let mut image = photo(width, height, [0.0, 16.0, 260.0][random.index(3)], random.number());
            if n > 0 && random.once_in(2) {
                image[random.index(n)] = 16_383 + random.below(3) as u16;
            }
            encode(&image, width, height)
        }
        _ => any(random, width, height),
    }
}

/// Calls the converter and the plain one over the same buffers, and holds the one to the other. Gives the stream.
fn called(
    converter: Convert,
    ask: &call::Ask,
    (n, map, bytes): (usize, usize, usize),
    random: &mut Random,
    seen: &mut Seen,
) -> Result<(Written, Vec<u16>, Vec<u8>), String> {
    let (mut a, mut b, mut c) = (random.samples(n), random.bytes(map), random.bytes(bytes));
    let (mut d, mut e, mut f) = (a.clone(), b.clone(), c.clone());
    let expected = convert(Fault::None, ask, &mut Buffers { samples: &mut d, map: &mut e, stream: &mut f });
    let written = converter(ask, &mut Buffers { samples: &mut a, map: &mut b, stream: &mut c });
    seen.calls += 1;
    seen.numbers[expected.answer.number as usize] += 1;
    let what = format!("{n} samples, {map} map bytes and {bytes} bytes lent");
    if written != expected {
        return Err(format!("{what}: {written:?}, expected {expected:?}"));
    }
    let found = first_difference(&a, &d).map(|what| format!("samples {what}"));
    let found = found.or_else(|| first_difference(&b, &e).map(|what| format!("map {what}")));
    let found = found.or_else(|| first_difference(&c, &f).map(|what| format!("stream {what}")));
    found.map_or(Ok((written, a, c)), |found| Err(format!("{what}, {}: {found}", written.answer)))
}

/// Decodes a stream by Razvolk's V2 entries, over random buffers, and by samsung.rs: the samples come back, with no byte other than 0.
fn back(entries: &[Entry], frame: &Frame, samples: &[u16], random: &mut Random, seen: &mut Seen) -> Result<(), String> {
    let n = samples.len();
    for entry in entries {
        let (mut new, mut map) = (random.samples(n), random.bytes(n));
        let answer =
            entry.call(&call::Ask::of(frame), &mut Lent { samples: &mut new, map: &mut map, scratch: &mut [] });
        if answer != Answer::DONE || new != samples || entry.map && map.iter().any(|&mark| mark != 0) {
            return Err(format!("{}: {answer}, not what was converted", entry.name));
        }
    }
    seen.decoded += 1;
    if rust_takes(frame.width, frame.height) {
        let mut new = random.samples(n);
        reference::decode_v2(&frame.stream, frame.width, frame.height, &mut new)
            .map_err(|e| format!("samsung.rs: {e:?}"))?;
        if new != samples {
            return Err("samsung.rs: other samples".into());
        }
        seen.by_samsung_rs += 1;
    }
    Ok(())
}

/// One frame: with a buffer that is long enough; then, where it was done, just long enough and one short; and now and then with
/// something too short.
fn one(
    converter: Convert,
    entries: &[Entry],
    frame: &Frame,
    random: &mut Random,
    seen: &mut Seen,
) -> Result<(), String> {
    let (ask, n) = (&call::Ask::of(frame), frame.samples());
    let most = razvolk::most_v2_bytes(frame.width, frame.height) + random.index(20);
    let (written, samples, stream) =
        called(converter, ask, (n + random.index(3), n + random.index(3), most), random, seen)?;
    if written.answer == Answer::DONE {
        let length = written.length;
        (seen.samples, seen.bytes) = (seen.samples + n as u64, seen.bytes + length as u64);
        called(converter, ask, (n, n, length), random, seen)?;
        called(converter, ask, (n, n, length - 1 - random.index(2) * random.index(length)), random, seen)?;
        let v2 = Frame { stream: stream[..length].to_vec(), ..Frame::new(Version::V2, frame.width, frame.height) };
        back(entries, &v2, &samples[..n], random, seen)?;
    }
    // Whatever the frame: 10 comes last.
    called(converter, ask, (n, n, random.index(32)), random, seen)?;
    if n > 0 && (random.once_in(4) || !frame.width.is_multiple_of(16)) {
        called(converter, ask, (n - 1, n, most), random, seen)?;
        called(converter, ask, (n, n - 1, most), random, seen)?;
        let rows = &ask.offsets[..random.index(frame.height)];
        called(converter, &call::Ask { offsets: rows, ..*ask }, (n, n, most), random, seen)?;
    }
    if random.once_in(16) {
        let side = [16_385, usize::MAX, 1 << 32][random.index(3)];
        let (width, height) = if random.once_in(2) { (side, frame.height) } else { (frame.width, side) };
        called(converter, &call::Ask { width, height, ..*ask }, (n, n, 99), random, seen)?;
    }
    Ok(())
}

/// Compares a converter on so many frames, of which one of `every` is large enough for samsung.rs.
pub fn compare(converter: Convert, seed: u64, frames: u64, every: u64) -> Result<Seen, Difference> {
    compare_sizes(converter, seed, frames, |random, i| size(random, i, every))
}

/// Compares a converter on so many frames of a camera's size.
pub fn compare_full(converter: Convert, seed: u64, frames: u64) -> Result<Seen, Difference> {
    compare_sizes(converter, seed, frames, |random, _| (16 * (250 + random.index(97)), 2_600 + random.index(1_113)))
}

/// The same on frames of sizes that are told by their numbers.
fn compare_sizes(
    converter: Convert,
    seed: u64,
    frames: u64,
    size: impl Fn(&mut Random, u64) -> (usize, usize),
) -> Result<Seen, Difference> {
    let (mut random, mut seen) = (Random::new(seed), Seen { seed, ..Seen::default() });
    let entries = razvolk_of(Version::V2);
    for i in 0..frames {
        let (width, height) = size(&mut random, i);
        let frame = frame(&mut random, width, height);
        one(converter, &entries, &frame, &mut random, &mut seen)
            .map_err(|what| Difference(format!("convert, seed {seed}, frame {i}, {width} by {height}: {what}")))?;
        seen.frames += 1;
    }
    Ok(seen)
}
