//! V2 frames, one stream of rows that predict from the rows above: of every kind, and images encoded.

pub mod any;
pub mod encode;

pub use encode::encode;

/// Each of a row's remembered lengths before its first block.
pub fn fresh_length(row: usize) -> u32 {
    if row < 2 { 7 } else { 4 }
}

/// The colour of length `j`.
pub fn colour(row: usize, j: usize) -> usize {
    if row % 2 == 1 { j / 2 } else { [2, 2, 0, 0][j] }
}

/// The position of difference `k` in its block.
pub fn position(row: usize, k: usize) -> usize {
    2 * (k % 8) + if row % 2 == 1 { 1 - k / 8 } else { k / 8 }
}
