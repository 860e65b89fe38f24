//! Calls of samsung.rs, and of the plain writer, with what they answered and left, as a file that a program can replay without
//! either. `cargo run -p compare -- record FILE` writes it by a fixed seed, `-- record-check FILE` compares; in the gate `replay`
//! runs crates/replay/data/calls.bin on the proved entries.
//!
//! Numbers are 4 bytes, lowest first. The file is the number of calls, then the calls: V0's, V2's, then those that are written.
//! A call is
//!
//! - entry: 0 is `decode_v0_reference`, 1 `write_v0`, 2 `decode_v2`
//! - width, height
//! - offsets: how many, then each; none in V2 and in writing
//! - stream: how many bytes, then the bytes; none in writing
//! - samples lent, how many
//! - seed, below 65,536
//! - number, row: the answer; with 5 to 7 the row is FFFFFFFF, since samsung.rs has none
//! - sum of what the call left
//!
//! Old samples: x starts as the seed; before each sample x becomes (25,173 x + 13,849) modulo 65,536, and is the sample. The sum
//! starts at 0; each sample makes it (31 times the sum plus the sample) modulo 2^32.
//!
//! Samples to be written are the same, divided by 4 and rounded down where the seed is even. They go into 30,000 bytes and 300
//! offsets, which hold nines; the sum starts at the answer's length and goes over all of both.
//!
//! No call lends more than 290,000 samples, 30,000 or more stream bytes, or more than 300 offsets. Two-phase V0 must give entry
//! 0's.

use crate::call::{Answer, Ask, first_difference};
use crate::v2::compare::rust;
use crate::write::plain::{self, Fault, Written};
use reference::Error;
use std::path::Path;
use std::{fs, io};
use streams::random::Random;
use streams::v2::any::{Header, Planted, Scale, Style, written};
use streams::{Frame, Version, v0};

/// In place of a row that samsung.rs does not tell.
const NOT_TOLD: u32 = u32::MAX;

/// How long the buffers are that a frame is written into.
const STREAM: usize = 30_000;
const OFFSETS: usize = 300;

/// The old samples of a call: x becomes 25,173 x + 13,849 modulo 65,536 before each.
pub fn old(seed: u16, len: usize) -> Vec<u16> {
    let mut x = seed;
    let mut next = || {
        x = x.wrapping_mul(25_173).wrapping_add(13_849);
        x
    };
    (0..len).map(|_| next()).collect()
}

/// The sum of numbers: s becomes 31 s plus the number, modulo 2^32, from `first` on.
fn added(first: u32, numbers: impl Iterator<Item = u32>) -> u32 {
    numbers.fold(first, |sum: u32, number| sum.wrapping_mul(31).wrapping_add(number))
}

/// The sum of samples, from 0 on.
pub fn sum(samples: &[u16]) -> u32 {
    added(0, samples.iter().map(|&sample| u32::from(sample)))
}

/// The samples that are to be written: a quarter of the old samples each, and so below 16,384, where the seed is even.
pub fn to_write(seed: u16, len: usize) -> Vec<u16> {
    let part = if seed.is_multiple_of(2) { 4 } else { 1 };
    old(seed, len).into_iter().map(|sample| sample / part).collect()
}

/// The plain writer's answer, over buffers that hold nines, and the sum of its length, the stream's buffer and the offsets'.
pub fn as_written(samples: &[u16], width: usize, height: usize) -> (Answer, u32) {
    let (mut stream, mut offsets) = (vec![9; STREAM], vec![9; OFFSETS]);
    let ask = plain::Ask { samples, width, height };
    let Written { answer, length } = plain::write(Fault::None, &ask, &mut stream, &mut offsets);
    let bytes = added(length as u32, stream.iter().map(|&byte| u32::from(byte)));
    (answer, added(bytes, offsets.into_iter()))
}

/// The file while it is written.
struct File {
    bytes: Vec<u8>,
    calls: u32,
}

impl File {
    fn number(&mut self, number: usize) {
        self.bytes.extend(u32::try_from(number).expect("a number of 32 bits").to_le_bytes());
    }

    /// One call, up to the seed; then what came of it.
    fn call(&mut self, frame: &Frame, lent: usize, seed: u16, answer: Answer, after: &[u16]) {
        let Ask { src, offsets, width, height, .. } = Ask::of(frame);
        self.calls += 1;
        // The decoder's number is its version's.
        self.number(if frame.version == Version::V0 { 0 } else { 2 });
        self.number(width);
        self.number(height);
        self.number(offsets.len());
        for &offset in offsets {
            self.number(offset as usize);
        }
        self.number(src.len());
        self.bytes.extend(src);
        self.number(lent);
        self.number(usize::from(seed));
        self.number(answer.number as usize);
        self.number(answer.row as usize);
        self.number(sum(after) as usize);
    }

    /// A frame that is written. The stream and the offsets are in the sum.
    fn write(&mut self, (width, height): (usize, usize), lent: usize, seed: u16) {
        let (answer, sum) = as_written(&to_write(seed, lent), width, height);
        self.calls += 1;
        let (number, row) = (answer.number as usize, answer.row as usize);
        for field in [1, width, height, 0, 0, lent, usize::from(seed), number, row, sum as usize] {
            self.number(field);
        }
    }

    fn v0(&mut self, frame: &Frame, lent: usize, random: &mut Random) {
        let seed = random.number() as u16;
        let mut out = old(seed, lent);
        let &Frame { width, height, ref stream, ref offsets, .. } = frame;
        let answer = match reference::decode_v0_reference(stream, offsets, width, height, &mut out) {
            Ok(()) => Answer::DONE,
            Err(Error::InvalidArgument(_)) => Answer::refused(3),
            Err(other) => panic!("samsung.rs answers {other:?}"),
        };
        self.call(frame, lent, seed, answer, &out);
    }

    fn v2(&mut self, frame: &Frame, lent: usize, random: &mut Random) {
        let seed = random.number() as u16;
        let (mut answer, out) = rust(frame, &old(seed, lent));
        if (5..=7).contains(&answer.number) {
            answer.row = NOT_TOLD;
        }
        self.call(frame, lent, seed, answer, &out);
    }
}

/// The whole file.
pub fn file() -> Vec<u8> {
    let mut random = Random::new(1);
    let mut file = File { bytes: vec![0; 4], calls: 0 };
    frames_of_v0(&mut file, &mut random);
    streams_of_v2(&mut file, &mut random);
    frames_written(&mut file, &mut random);
    file.bytes.splice(..4, file.calls.to_le_bytes());
    file.bytes
}

fn frames_of_v0(file: &mut File, random: &mut Random) {
    for i in 0..280 {
        let (width, height) = match i {
            200..240 => (1 + i % 20, i % 7),
            240..250 => (random.index(200), random.index(6)),
            _ => (i % 41, i / 8 % 9),
        };
        let mut frame = v0::any(random, width, height);
        let n = width * height;
        let lent = if i % 3 == 0 { n } else { n + random.index(20) };
        match i % 40 {
            38 => frame.offsets.truncate(height.saturating_sub(1)),
            39 => file.v0(&frame, n.saturating_sub(1), random),
            _ => {}
        }
        file.v0(&frame, lent, random);
    }
    for height in [0, 300] {
        file.v0(&v0::any(random, 0, height), 3, random);
    }
}

/// Streams that take little space: rows of few bits, streams that are refused or end early.
fn streams_of_v2(file: &mut File, random: &mut Random) {
    let n = 646 * 436;
    for options in 0..16 {
        let mut style = Style::any(random, options);
        style.none = 7;
        for row in [0, 1 + random.index(3)] {
            let stream = written(random, &style, 646, 436, None).cut_in_row(random, row);
            file.v2(&stream, n + random.index(20), random);
        }
        let (number, row) = [(5, 1), (6, 2), (7, 2), (7, 0)][options as usize % 4];
        let planted = Planted { number, row, block: if number == 6 { 0 } else { 3 } };
        let stream = written(random, &style, 646, 436, Some(planted));
        file.v2(&stream.cut(stream.row(2).end), n, random);
    }
    let accepted = [
        (4, 8, Scale::Still, 1, 8),
        (0, 5, Scale::Sinks, 4, 8),
        (6, 12, Scale::Still, 4, 8),
        (4, 2, Scale::Still, 2, 7),
        (0, 1, Scale::Any, 1, 7),
    ];
    for (options, depth, scale, motions, none) in accepted {
        let header = Header { depth, options, initial: 5 };
        let style = Style { header, scale, motions, none, flag: 0, favour: 0, any: true };
        file.v2(&written(random, &style, 646, 436, None), n + 5, random);
    }
    let zeros = |width, height| Frame { stream: vec![0; 16], ..Frame::new(Version::V2, width, height) };
    // samsung.rs refuses all below 646 by 436 as too small; Razvolk only what is below 32 by 1.
    for (width, height, lent) in [(31, 1, n), (32, 0, n), (646, 436, n - 1)] {
        file.v2(&zeros(width, height), lent, random);
    }
    file.v2(&Frame::new(Version::V2, 646, 436), n, random);
    file.v2(&zeros(646, 436), n, random);
}

/// Frames that are written: of each small width, wide ones, with samples past the frame, and each refusal.
fn frames_written(file: &mut File, random: &mut Random) {
    for i in 0..130 {
        let (width, height) = match i {
            0..100 => (i % 41, i / 4 % 9),
            _ => (random.index(400), random.index(12)),
        };
        let lent = width * height + if i % 3 == 0 { 0 } else { random.index(20) };
        // An odd seed makes most frames too bright.
        let seed = random.number() as u16 & if i % 10 == 9 { 0xffff } else { 0xfffe };
        file.write((width, height), lent, seed);
    }
    for (width, height, lent) in [(16_385, 0, 3), (0, 16_385, 3), (5, 4, 19), (16_384, 16_384, 0)] {
        file.write((width, height), lent, 6);
    }
    // As many rows as there are offsets, one more, and a stream that is too long.
    for (width, height) in [(0, 300), (1, 300), (0, 301), (1, 301), (160, 120)] {
        file.write((width, height), width * height, 8);
    }
}

/// Writes the file, and tells how many calls it has.
pub fn write(path: &Path) -> io::Result<usize> {
    let bytes = file();
    fs::write(path, &bytes)?;
    Ok(u32::from_le_bytes(bytes[..4].try_into().expect("four bytes")) as usize)
}

/// What keeps the file from the one that would be written.
pub fn differences(path: &Path) -> io::Result<Vec<String>> {
    let read = fs::read(path)?;
    Ok(first_difference(&read, &file()).into_iter().collect())
}
