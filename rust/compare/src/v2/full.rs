//! V2's entries against samsung.rs on frames of full size: accepted, or refused in one of their last rows.

use super::compare::{Seen, frame};
use crate::call::{Difference, Entry};
use streams::random::Random;
use streams::v2::any::{Planted, Style, written};

/// The size of frame number `i`: twice in 50 the largest, else a camera's, or as wide or as high as can be.
pub fn size(random: &mut Random, i: u64) -> (usize, usize) {
    match (i % 25, i % 5) {
        (6, _) => (16_384, 16_384),
        (_, 1) => (16_384, 436 + random.index(4_000)),
        (_, 2) => (646 + random.index(4_000), 16_384),
        (_, 3) => (646 + random.index(8_000), 436 + random.index(8_000)),
        _ => (6_496, 4_336),
    }
}

/// Compares `calls` streams, with every value of the options in turn: of three, one whole, one broken off and one with a length
/// that is too long.
pub fn compare(entries: &[Entry], seed: u64, calls: u64) -> Result<Seen, Difference> {
    let mut random = Random::new(seed);
    let mut seen = Seen { name: "V2 of full size", with: "samsung.rs", seed, ..Seen::default() };
    for i in 0..calls {
        let (width, height) = size(&mut random, i);
        let style = Style::any(&mut random, (i % 16) as u32);
        let row = height - 1 - random.index(height / 8);
        let block = 1 + random.index(width / 16 - 1);
        let planted = (i % 3 == 2).then_some(Planted { number: 7, row, block });
        let mut one = written(&mut random, &style, width, height, planted);
        if i % 3 == 1 {
            one = one.cut_in_row(&mut random, row);
        }
        frame(entries, &one, &mut random, &mut seen).map_err(|what| {
            Difference(format!(
                "V2 of full size, seed {seed}, stream {i}, {width} by {height}, {style:?}, row {row}: {what}"
            ))
        })?;
        seen.streams += 1;
    }
    Ok(seen)
}
