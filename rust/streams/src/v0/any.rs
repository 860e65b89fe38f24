//! V0 frames of every kind: written ones that use everything, damaged, random, and constant ones.

use super::{fresh_length, order, skipped};
use crate::bits::Writer;
use crate::random::Random;
use crate::{Frame, Version};

/// How a frame's blocks are written.
struct Style {
    /// Of 8 blocks, how many are upward, in rows 0 and 1 and after.
    up: [u64; 2],
    /// Of 8 operations, how many are the favoured one.
    favour: u64,
    operation: u32,
    /// Whether residuals are any bits, or near 0.
    any: bool,
}

impl Style {
    fn any(random: &mut Random) -> Style {
        Style {
            up: [[0, 1, 4, 8][random.index(4)], random.below(9)],
            favour: [0, 4, 7, 8][random.index(4)],
            operation: random.below(4) as u32,
            any: random.below(2) == 0,
        }
    }

    fn operation(&self, random: &mut Random) -> u32 {
        if random.below(8) < self.favour { self.operation } else { random.below(4) as u32 }
    }

    fn residual(&self, random: &mut Random) -> u32 {
        let bits = random.number() as u32;
        if self.any { bits } else { (bits % 9).wrapping_sub(4) }
    }
}

fn write_row(random: &mut Random, style: &Style, width: usize, height: usize, row: usize) -> Vec<u8> {
    let mut writer = Writer::default();
    let mut lengths = [fresh_length(row); 4];
    for col in (0..width).step_by(16) {
        let direction = u32::from(random.below(8) < style.up[usize::from(row >= 2)]);
        writer.put(direction, 1);
        let operations = [0; 4].map(|_| style.operation(random));
        for operation in operations {
            writer.put(operation, 2);
        }
        for (length, operation) in lengths.iter_mut().zip(operations) {
            match operation {
                3 => {
                    *length = random.below(16) as i32;
                    writer.put(*length as u32, 4);
                }
                2 => *length -= 1,
                1 => *length += 1,
                _ => {}
            }
        }
        for (_, j) in order().filter(|&(c, _)| !skipped(width, height, row, col, c, direction)) {
            writer.put(style.residual(random), lengths[j].clamp(0, 32) as u32);
        }
    }
    writer.finish()
}

/// A frame whose rows are written one after another, at any byte.
pub fn written(random: &mut Random, width: usize, height: usize) -> Frame {
    let style = Style::any(random);
    let gap = random.below(4);
    let mut frame = Frame::new(Version::V0, width, height);
    for row in 0..height {
        let bytes = random.below(gap + 1) as usize;
        frame.stream.extend(random.bytes(bytes));
        frame.push_row(&write_row(random, &style, width, height, row));
    }
    frame
}

/// An offset anywhere: in the stream, about its end, or far past it.
fn offset(random: &mut Random, len: usize) -> u32 {
    match random.below(8) {
        0 => u32::MAX - random.below(8) as u32,
        1 => random.number() as u32,
        _ => random.below(len as u64 + 9) as u32,
    }
}

/// Changes some of a frame's bytes and offsets, or breaks it off.
pub fn damage(random: &mut Random, frame: &mut Frame) {
    for _ in 0..=random.below(3) {
        match random.below(6) {
            0 => frame.stream.truncate(random.index(frame.stream.len() + 1)),
            1 if frame.height > 0 => {
                let row = random.index(frame.height);
                frame.offsets[row] = offset(random, frame.stream.len());
            }
            2 if frame.height > 0 => {
                let (one, other) = (random.index(frame.height), random.index(frame.height));
                frame.offsets.swap(one, other);
            }
            3 if frame.height > 0 => {
                let (one, other) = (random.index(frame.height), random.index(frame.height));
                frame.offsets[one] = frame.offsets[other];
            }
            _ if !frame.stream.is_empty() => {
                let at = random.index(frame.stream.len());
                frame.stream[at] ^= 1 << random.below(8);
            }
            _ => frame.stream.push(random.number() as u8),
        }
    }
}

/// A frame of any kind; sometimes with more offsets than rows.
pub fn any(random: &mut Random, width: usize, height: usize) -> Frame {
    let blocks = width.div_ceil(16) * height;
    let mut frame = match random.below(16) {
        kind @ 0..=3 => {
            let len = random.index(blocks * 24 + 8);
            let stream = match kind {
                0 => Vec::new(),
                1 => vec![0xff; len],
                2 => vec![0; len],
                _ => random.bytes(len),
            };
            let offsets = (0..height).map(|_| offset(random, len)).collect();
            Frame { version: Version::V0, width, height, stream, offsets }
        }
        4..=8 => {
            let mut frame = written(random, width, height);
            damage(random, &mut frame);
            frame
        }
        _ => written(random, width, height),
    };
    if random.once_in(8) {
        frame.offsets.push(random.number() as u32);
    }
    frame
}

/// The size of frame number `i`: every width from 0 to 40 with every height from 0 to 8 in turn; now and then a larger one, up
/// to the limits.
pub fn size(random: &mut Random, i: u64) -> (usize, usize) {
    match i % 4_000 {
        10 => (random.index(4), 16_384),
        1_010 => (16_384, random.index(5)),
        2_010 | 3_010 => (random.index(16_385), random.index(5)),
        k if k % 32 == 3 => (random.index(900), random.index(6)),
        k if k % 32 == 19 => (random.index(100), random.index(40)),
        _ => (i as usize % 41, i as usize / 41 % 9),
    }
}
