//! Frames that are clean but for the faults that are asked for.

use streams::bits::Writer;
use streams::random::Random;
use streams::v0::{fresh_length, order, skipped};
use streams::{Frame, Version};

/// What is wrong with a block.
#[derive(Clone, Copy, Debug, PartialEq, Eq)]
pub enum Wrong {
    /// Its direction is 1.
    Up,
    /// A length is -1 after its operations; so it was 0 before.
    Below,
    /// A length is 17; so it was 16 before, and 15 before that.
    Above,
    /// The row's last word that it reads is cut off.
    Cut,
}

impl Wrong {
    pub const ALL: [Wrong; 4] = [Wrong::Up, Wrong::Below, Wrong::Above, Wrong::Cut];

    /// How many blocks of its row must stand before the block.
    pub fn before(self) -> usize {
        match self {
            Wrong::Up | Wrong::Cut => 0,
            Wrong::Below => 1,
            Wrong::Above => 2,
        }
    }
}

/// A fault at a block of a row, of one of its four lengths.
#[derive(Clone, Copy, Debug)]
pub struct At {
    pub row: usize,
    pub block: usize,
    pub length: usize,
    pub wrong: Wrong,
}

/// The operation on a length that a fault needs in a block: one of those that make 0, -1, or 15, 16, 17 of it.
fn needed(faults: &[At], row: usize, block: usize, length: usize) -> Option<(u32, u32)> {
    let mut here = faults.iter().filter(|at| at.row == row && at.length == length && at.block >= block);
    here.find_map(|at| match (at.wrong, at.block - block) {
        (Wrong::Below, 1) => Some((3, 0)),
        (Wrong::Below, 0) => Some((2, 0)),
        (Wrong::Above, 2) => Some((3, 15)),
        (Wrong::Above, 0 | 1) => Some((1, 0)),
        _ => None,
    })
}

/// An operation that leaves a length in 0 to 16, and what operation 3 reads.
fn operation(random: &mut Random, length: i32) -> (u32, u32) {
    match random.below(6) {
        0 if length > 0 => (2, 0),
        1 if length < 16 => (1, 0),
        2 | 3 if (0..=16).contains(&length) => (0, 0),
        _ => (3, random.below(16) as u32),
    }
}

/// A row's bytes. Where a block of it is to be cut, the last word that the block reads, or a part of it, is left out with what
/// follows.
fn row_bytes(random: &mut Random, width: usize, height: usize, row: usize, faults: &[At]) -> Vec<u8> {
    let mut writer = Writer::default();
    let mut lengths = [fresh_length(row); 4];
    let mut end = None;
    for (block, col) in (0..width).step_by(16).enumerate() {
        let here = |wrong| faults.iter().any(|at| (at.row, at.block, at.wrong) == (row, block, wrong));
        let direction = u32::from(here(Wrong::Up) || row >= 2 && random.below(2) == 1);
        writer.put(direction, 1);
        let mut operations = lengths.map(|length| operation(random, length));
        for (j, operation) in operations.iter_mut().enumerate() {
            *operation = needed(faults, row, block, j).unwrap_or(*operation);
        }
        for (operation, _) in operations {
            writer.put(operation, 2);
        }
        for (length, (operation, read)) in lengths.iter_mut().zip(operations) {
            match operation {
                3 => {
                    *length = read as i32;
                    writer.put(read, 4);
                }
                2 => *length -= 1,
                1 => *length += 1,
                _ => {}
            }
        }
        for (_, j) in order().filter(|&(c, _)| !skipped(width, height, row, col, c, direction)) {
            writer.put(random.number() as u32, lengths[j].clamp(0, 32) as u32);
        }
        if here(Wrong::Cut) {
            end = end.or(Some(writer.len() - 1 - random.index(4)));
        }
    }
    let mut bytes = writer.finish();
    bytes.truncate(end.unwrap_or(bytes.len()));
    bytes
}

/// A frame with these faults and no other. The rows that are cut come last in the stream, so that only one of them, the last,
/// is cut by its end; the others are cut by their offsets, which lie past it.
pub fn frame(random: &mut Random, width: usize, height: usize, faults: &[At]) -> Frame {
    let cut = |row: &usize| faults.iter().any(|at| at.row == *row && at.wrong == Wrong::Cut);
    let mut frame = Frame { version: Version::V0, width, height, stream: Vec::new(), offsets: vec![0; height] };
    let (last, whole): (Vec<usize>, Vec<usize>) = (0..height).partition(cut);
    for row in whole.into_iter().chain(last.first().copied()) {
        frame.offsets[row] = frame.stream.len() as u32;
        frame.stream.extend(row_bytes(random, width, height, row, faults));
    }
    for row in last.into_iter().skip(1) {
        frame.offsets[row] = frame.stream.len() as u32;
    }
    frame
}
