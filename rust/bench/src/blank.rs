//! Blanking, against the plain loop, of frames with few marks and with many; with no stated fill, against a stated one.

use crate::measure::{Contender, best, print};
use compare::blank::plain;
use std::cell::RefCell;
use streams::images::photo;
use streams::random::Random;

/// Blanks; tells how many samples were set, and how many runs they make.
type Way = fn(&mut [u16], &[u8], usize, usize, u16, &mut [u32]) -> (usize, usize);

/// Razvolk's.
fn razvolk(
    samples: &mut [u16],
    map: &[u8],
    width: usize,
    height: usize,
    fill: u16,
    runs: &mut [u32],
) -> (usize, usize) {
    let done = razvolk::blank_with(samples, map, width, height, fill, runs).expect("buffers are long enough");
    (done.count, done.runs)
}

/// Razvolk's with no stated fill.
fn unstated(
    samples: &mut [u16],
    map: &[u8],
    width: usize,
    height: usize,
    _fill: u16,
    runs: &mut [u32],
) -> (usize, usize) {
    let done = razvolk::blank(samples, map, width, height, runs).expect("buffers are long enough");
    (done.count, done.runs)
}

/// Maps: of a band at the top and the columns that build on some of its blocks, as an upward block leaves them; of one block in
/// each row; of every other block; of any samples.
fn maps(width: usize, height: usize) -> [(&'static str, Vec<u8>); 4] {
    let mut random = Random::new(1);
    let n = width * height;
    let (mut band, mut rows) = (vec![0; n], vec![0; n]);
    band[..width * 40.min(height)].fill(1);
    for row in rows.chunks_exact_mut(width) {
        let first = random.index(width / 16) * 16;
        row[first..first + 16].fill(1);
    }
    let blocks = (0..n).map(|i| u8::from(i % width / 16 % 2 == 1)).collect();
    let any = (0..n).map(|_| random.below(2) as u8).collect();
    [("a band of 40 rows", band), ("a block in each row", rows), ("every other block", blocks), ("any samples", any)]
}

/// Times both on a frame.
pub fn time(width: usize, height: usize, times: usize) {
    let samples = RefCell::new(photo(width, height, 16.0, 1));
    let runs = RefCell::new(vec![0; 3 * width * height]);
    for (name, map) in maps(width, height) {
        let contender = |name, against, way: Way| {
            let (samples, runs, map) = (&samples, &runs, &map);
            let run = move || way(&mut samples.borrow_mut(), map, width, height, 512, &mut runs.borrow_mut()).0 > 0;
            Contender { name, against, run: Box::new(run) }
        };
        let mut contenders = vec![
            contender("plain loop", 0, plain),
            contender("blank_with", 0, razvolk),
            contender("blank", 1, unstated),
        ];
        let best = best(&mut contenders, times);
        print(&format!("Blanking: {width} by {height}, {name}"), Some(width * height), &contenders, &best);
    }
}
