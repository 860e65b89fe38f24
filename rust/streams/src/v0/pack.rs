//! A small search for a shorter V0 stream of the same samples, as an outside optimiser would do it. Each block looks left or, from
//! row 2 on, up, whichever needs fewer bits. Each of the four lengths is then told, over the whole row, by the operations that
//! take the fewest bits: one that is a bit longer than it need be may save the 4 bits of operation 3, now or later. Rows of which
//! all bytes are the same share them.

use super::encode::{Block, block, exchanged};
use super::{fresh_length, order};
use crate::bits::Writer;
use crate::{Frame, Version};
use std::collections::HashMap;

/// The longest length that a clean frame has.
const MOST_LENGTH: usize = 16;

/// The longest that operation 3 tells.
const MOST_TOLD: usize = 15;

/// Packs an image of up to 14 bits a sample.
pub fn pack(image: &[u16], width: usize, height: usize) -> Frame {
    let stored = exchanged(image, width, height);
    let mut frame = Frame::new(Version::V0, width, height);
    let mut known: HashMap<Vec<u8>, u32> = HashMap::new();
    for row in 0..height {
        let bytes = pack_row(&stored, width, row);
        match known.get(&bytes) {
            Some(&offset) => frame.offsets.push(offset),
            None => {
                frame.push_row(&bytes);
                known.insert(bytes, frame.offsets[row]);
            }
        }
    }
    frame
}

fn pack_row(stored: &[u16], width: usize, row: usize) -> Vec<u8> {
    let blocks: Vec<Block> = (0..width).step_by(16).map(|col| shorter(stored, width, row, col)).collect();
    let told = [0, 1, 2, 3].map(|j| {
        let needs: Vec<usize> = blocks.iter().map(|block| block.needs[j] as usize).collect();
        cheapest(fresh_length(row) as usize, &needs)
    });
    let mut writer = Writer::default();
    for (i, block) in blocks.iter().enumerate() {
        writer.put(u32::from(block.upward), 1);
        for length in &told {
            writer.put(length[i].0, 2);
        }
        for &(_, length) in told.iter().map(|length| &length[i]).filter(|told| told.0 == 3) {
            writer.put(length, 4);
        }
        for (c, j) in order() {
            writer.put(block.residuals[c] as u32, told[j][i].1);
        }
    }
    writer.finish()
}

/// The block in the direction whose residuals take fewer bits.
fn shorter(stored: &[u16], width: usize, row: usize, col: usize) -> Block {
    let left = block(stored, width, row, col, false);
    let up = (row >= 2).then(|| block(stored, width, row, col, true));
    let bits = |block: &Block| block.needs.iter().sum::<u32>();
    up.filter(|up| bits(up) < bits(&left)).unwrap_or(left)
}

/// For one length over a row, the operation and the length of each block that take the fewest bits in all, if each block needs so
/// many: the shortest way through the lengths that it can have.
fn cheapest(fresh: usize, needs: &[usize]) -> Vec<(u32, u32)> {
    let mut costs = [u32::MAX; MOST_LENGTH + 1];
    costs[fresh] = 0;
    let mut ways: Vec<[(u32, usize); MOST_LENGTH + 1]> = Vec::new();
    for &need in needs {
        let any = (0..=MOST_LENGTH).min_by_key(|&from| costs[from]).expect("a length");
        let (mut next, mut way) = ([u32::MAX; MOST_LENGTH + 1], [(0, 0); MOST_LENGTH + 1]);
        for length in need..=MOST_LENGTH {
            let near = [(0, Some(length)), (1, length.checked_sub(1)), (2, Some(length + 1))];
            let near = near.into_iter().filter_map(|(operation, from)| {
                let cost = *costs.get(from?)?;
                Some((cost, operation, from?))
            });
            let told = (length <= MOST_TOLD).then(|| (costs[any] + 4, 3, any));
            let (cost, operation, from) = near.chain(told).min().expect("a length can stay as it is");
            next[length] = cost.saturating_add(4 * length as u32);
            way[length] = (operation, from);
        }
        costs = next;
        ways.push(way);
    }
    let mut length = (0..=MOST_LENGTH).min_by_key(|&length| costs[length]).expect("a length");
    let mut told: Vec<(u32, u32)> = Vec::with_capacity(needs.len());
    for way in ways.iter().rev() {
        let (operation, from) = way[length];
        told.push((operation, length as u32));
        length = from;
    }
    told.reverse();
    told
}

#[cfg(test)]
mod tests {
    use super::*;

    #[test]
    fn a_length_takes_the_cheapest_way() {
        assert_eq!(cheapest(4, &[]), []);
        assert_eq!(cheapest(4, &[4, 4]), [(0, 4), (0, 4)]);
        // 3 by operation 2, and 9 by operation 3; a block that needs 3 takes 4 between two of 5.
        assert_eq!(cheapest(4, &[3, 9, 9]), [(2, 3), (3, 9), (0, 9)]);
        assert_eq!(cheapest(5, &[5, 3, 5]), [(0, 5), (2, 4), (1, 5)]);
        assert_eq!(cheapest(7, &[0]), [(3, 0)]);
    }
}
