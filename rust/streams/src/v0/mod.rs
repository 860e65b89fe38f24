//! V0 frames, each row of which has its own place in the stream: of every kind, hostile ones, and images encoded.

pub mod any;
pub mod encode;
pub mod hostile;
pub mod pack;

pub use any::any;
pub use encode::encode;
pub use pack::pack;

/// Each of a row's four lengths before its first block.
pub fn fresh_length(row: usize) -> i32 {
    if row < 2 { 7 } else { 4 }
}

/// The samples of a block in the order of the stream, each with the number of its length.
pub fn order() -> impl Iterator<Item = (usize, usize)> + Clone {
    (0..16).step_by(2).chain((1..16).step_by(2)).map(|c| (c, 2 * (c % 2) + c / 8))
}

/// Whether a sample is skipped.
pub fn skipped(width: usize, height: usize, row: usize, col: usize, c: usize, direction: u32) -> bool {
    let limit = width * (height + 7);
    let place = row * width + col + c;
    if direction == 0 {
        let before = 2 - c % 2;
        return col > 0 && (place >= limit || row * width + col - before >= limit);
    }
    let up = 1 + c % 2;
    row < up || place >= limit || place - up * width >= limit
}
