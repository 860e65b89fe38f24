//! V2's entries on crops, which samsung.rs refuses: against the decoder of its own, which is written from the rules.

use super::compare::{RUST_LEAST, Seen, compared};
use crate::call::{Difference, Entry};
use streams::random::Random;
use streams::v2::any::Style;

/// How many sizes crops have: 32 to 200 columns, 1 to 80 rows.
pub const SIZES: u64 = 169 * 80;

/// The size of crop number `i`: each comes once in [`SIZES`] crops, small and large ones by turns.
pub fn size(i: u64) -> (usize, usize) {
    let at = (i % SIZES * 7_919 % SIZES) as usize;
    (32 + at % 169, 1 + at / 169)
}

/// Any size of a crop.
pub fn any_size(random: &mut Random) -> (usize, usize) {
    size(random.below(SIZES))
}

/// The size of the V2 frame that goes with V0 frame number `i` of a comparison, if one does: of every eighth that of a crop, of
/// every sixty-fourth just above the least that samsung.rs takes.
pub fn v2_size(random: &mut Random, i: u64) -> Option<(usize, usize)> {
    match i % 64 {
        0 => Some((RUST_LEAST.0 + random.index(20), RUST_LEAST.1)),
        k if k % 8 == 4 => Some(any_size(random)),
        _ => None,
    }
}

/// The options of crop number `i`: each size gets each value in 16 times [`SIZES`] crops.
pub fn options(i: u64) -> u32 {
    ((i + i / 4 + i / SIZES) % 16) as u32
}

fn style(random: &mut Random, i: u64) -> Style {
    Style::any(random, options(i))
}

/// Compares `calls` streams, whole, broken off and damaged, as those are that samsung.rs takes.
pub fn compare(entries: &[Entry], seed: u64, calls: u64) -> Result<Seen, Difference> {
    let seen = Seen { name: "V2 crops", with: "the rules' own decoder", seed, ..Seen::default() };
    compared(entries, seen, calls, |_, i| size(i), style)
}
