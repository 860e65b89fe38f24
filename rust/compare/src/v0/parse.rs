//! The heads of a V0 frame's blocks, read on their own: what scratch must hold, how many words are missing, and what a frame
//! makes use of.

use streams::Frame;
use streams::bits::Reader;
use streams::v0::{fresh_length, order, skipped};

/// A block's head.
pub struct Head {
    pub row: usize,
    pub col: usize,
    pub direction: u32,
    pub operations: [u32; 4],
    /// The lengths before the operations, and after them.
    pub before: [i64; 4],
    pub lengths: [i64; 4],
    /// Whether a word was missing after the head, and by the block's end.
    pub missing_after_head: bool,
    pub missing_by_end: bool,
}

/// What a stream lacks: in how many rows, and how many words in all.
#[derive(Clone, Copy, Debug, Default, PartialEq, Eq)]
pub struct Missing {
    pub rows: u64,
    pub words: u64,
}

/// Hands on each block's head in turn, and tells what was missing where the direct decoder reads.
pub fn heads(frame: &Frame, mut each: impl FnMut(Head)) -> Missing {
    let Frame { width, height, .. } = *frame;
    let mut missing = Missing::default();
    for row in 0..height {
        let mut reader = Reader::new(&frame.stream, u64::from(frame.offsets[row]));
        let mut lengths = [i64::from(fresh_length(row)); 4];
        for col in (0..width).step_by(16) {
            let before = lengths;
            let direction = reader.get(1);
            let operations = [0; 4].map(|_| reader.get(2));
            for (length, operation) in lengths.iter_mut().zip(operations) {
                *length = [*length, *length + 1, *length - 1][operation as usize % 3];
                if operation == 3 {
                    *length = i64::from(reader.get(4));
                }
            }
            let missing_after_head = reader.filler() > 0;
            for (_, j) in order().filter(|&(c, _)| !skipped(width, height, row, col, c, direction)) {
                reader.get(lengths[j].clamp(0, 32) as u32);
            }
            let missing_by_end = reader.filler() > 0;
            each(Head { row, col, direction, operations, before, lengths, missing_after_head, missing_by_end });
        }
        missing.rows += u64::from(reader.filler() > 0);
        missing.words += reader.filler();
    }
    missing
}

/// One direction byte for each block of rows 2 on, row by row.
pub fn directions(frame: &Frame) -> Vec<u8> {
    let mut directions = Vec::new();
    heads(frame, |head| {
        if head.row >= 2 {
            directions.push(head.direction as u8);
        }
    });
    directions
}
