//! A V0 encoder: the lengths and directions that take the fewest bits.

use super::{fresh_length, order};
use crate::bits::{self, Writer};
use crate::{Frame, Version};

/// A block's direction and sixteen residuals, and the length that each of the four groups needs.
pub(super) struct Block {
    pub upward: bool,
    pub residuals: [i32; 16],
    pub needs: [u32; 4],
}

/// An upward block that adds nothing to the rows above.
const CARRIES_DOWN: Block = Block { upward: true, residuals: [0; 16], needs: [0; 4] };

/// How a length is told: the operation, the length, and how many bits both cost a group of four.
fn told(length: u32, need: u32) -> (u32, u32, u32) {
    let near = [(0, length), (1, length + 1), (2, length.wrapping_sub(1))];
    let near = near.into_iter().filter(|&(_, l)| l >= need && l <= 31).map(|(op, l)| (op, l, 4 * l));
    near.chain([(3, need, 4 * need + 4)]).min_by_key(|told| told.2).expect("operation 3 is always there")
}

/// Encodes an image of up to 15 bits a sample.
pub fn encode(image: &[u16], width: usize, height: usize) -> Frame {
    with_band(image, width, height, 0)
}

/// Encodes an image but for its first `band` rows. In them every block is upward, with residuals of 0: they carry down what the
/// buffer held in rows 0 and 1. (The exchange takes part of a row into the next: an even `band` ends cleanly.)
pub fn with_band(image: &[u16], width: usize, height: usize, band: usize) -> Frame {
    with_corner(image, width, height, band, 0)
}

/// The same with a band that starts at a column, which 16 divides.
pub fn with_corner(image: &[u16], width: usize, height: usize, band: usize, first: usize) -> Frame {
    let stored = exchanged(image, width, height);
    let mut frame = Frame::new(Version::V0, width, height);
    for row in 0..height {
        frame.push_row(&encode_row(&stored, width, row, (band, first)));
    }
    frame
}

/// The samples as they are stored, after the exchange of places.
pub(super) fn exchanged(image: &[u16], width: usize, height: usize) -> Vec<u16> {
    let mut stored = image.to_vec();
    for row in (0..height).step_by(2).filter(|row| row + 1 < height) {
        for col in (0..width).step_by(2).filter(|col| col + 1 < width) {
            stored.swap(row * width + col + 1, (row + 1) * width + col);
        }
    }
    stored
}

fn encode_row(stored: &[u16], width: usize, row: usize, band: (usize, usize)) -> Vec<u8> {
    let mut writer = Writer::default();
    let mut lengths = [fresh_length(row) as u32; 4];
    for col in (0..width).step_by(16) {
        let Block { upward, residuals, needs } = chosen(stored, width, row, col, band, lengths);
        writer.put(u32::from(upward), 1);
        let told = [0, 1, 2, 3].map(|j| told(lengths[j], needs[j]));
        for (operation, ..) in told {
            writer.put(operation, 2);
        }
        for (_, length, _) in told.into_iter().filter(|told| told.0 == 3) {
            writer.put(length, 4);
        }
        lengths = told.map(|told| told.1);
        for (c, j) in order() {
            writer.put(residuals[c] as u32, lengths[j]);
        }
    }
    writer.finish()
}

/// The block in the direction that costs less; the band, of so many rows from a column on, has no samples to predict from.
fn chosen(stored: &[u16], width: usize, row: usize, col: usize, band: (usize, usize), lengths: [u32; 4]) -> Block {
    let (band, first) = band;
    if row < band && col >= first {
        return CARRIES_DOWN;
    }
    let cost = |block: &Block| (0..4).map(|j| told(lengths[j], block.needs[j]).2).sum::<u32>();
    let left = block(stored, width, row, col, false);
    let up = (row >= band + 2).then(|| block(stored, width, row, col, true));
    up.filter(|up| cost(up) < cost(&left)).unwrap_or(left)
}

pub(super) fn block(stored: &[u16], width: usize, row: usize, col: usize, upward: bool) -> Block {
    let mut block = Block { upward, ..CARRIES_DOWN };
    let first = row * width + col;
    for (c, j) in order().filter(|&(c, _)| col + c < width) {
        let predictor = match (upward, col) {
            (true, _) => stored[first + c - (1 + c % 2) * width],
            (false, 0) => 128,
            (false, _) => stored[first + c % 2 - 2],
        };
        block.residuals[c] = i32::from(stored[first + c]) - i32::from(predictor);
        block.needs[j] = block.needs[j].max(bits::length(block.residuals[c]));
    }
    block
}
