//! Colour planes, both ways, against a plain loop written from the rules. There is nothing of them in samsung.rs, which the
//! decoders are held to.

use crate::call::Difference;
use std::fmt;
use streams::random::Random;

/// One way of moving a frame's samples out of one buffer into another; it tells the answer's number.
pub type Way = fn(&[u16], usize, usize, &mut [u16]) -> u32;

/// Razvolk's two ways: into planes, and back.
pub const RAZVOLK: [Way; 2] = [
    |samples, width, height, planes| number(razvolk::to_planes(samples, width, height, planes)),
    |planes, width, height, samples| number(razvolk::from_planes(planes, width, height, samples)),
];

fn number(answer: Result<(), razvolk::Refusal>) -> u32 {
    answer.err().map_or(0, |refusal| refusal.number())
}

/// Tells the places of a frame in the order of its planes, each with its number there.
fn each(width: usize, height: usize, mut tell: impl FnMut(usize, usize)) {
    let mut k = 0;
    for (row, column) in [(0, 0), (0, 1), (1, 0), (1, 1)] {
        for row in (row..height).step_by(2) {
            for column in (column..width).step_by(2) {
                tell(k, row * width + column);
                k += 1;
            }
        }
    }
}

/// The plain loops.
pub const PLAIN: [Way; 2] = [
    |samples, width, height, planes| {
        each(width, height, |k, place| planes[k] = samples[place]);
        0
    },
    |planes, width, height, samples| {
        each(width, height, |k, place| samples[place] = planes[k]);
        0
    },
];

/// What was compared.
#[derive(Debug)]
pub struct Seen {
    pub seed: u64,
    pub frames: u64,
    pub refused: u64,
}

impl fmt::Display for Seen {
    fn fmt(&self, f: &mut fmt::Formatter<'_>) -> fmt::Result {
        let Seen { seed, frames, refused } = self;
        write!(f, "planes, seed {seed}: {frames} frames both ways and back, {refused} calls refused, no difference")
    }
}

/// The sides up to which every size is compared.
const EVERY: usize = 40;

/// Compares every size to 40 by 40, and then `large` frames of any size to 3,000 by 3,000.
pub fn compare(ways: [Way; 2], seed: u64, large: u64) -> Result<Seen, Difference> {
    let mut random = Random::new(seed);
    let mut seen = Seen { seed, frames: 0, refused: 0 };
    let small = (0..=EVERY).flat_map(|width| (0..=EVERY).map(move |height| (width, height)));
    for (width, height) in small {
        frame(ways, width, height, &mut random, &mut seen)?;
    }
    for _ in 0..large {
        let (width, height) = (random.below(3_001) as usize, random.below(3_001) as usize);
        frame(ways, width, height, &mut random, &mut seen)?;
    }
    Ok(seen)
}

/// One frame both ways, with some samples past it in both buffers; and with one too few in either.
fn frame(ways: [Way; 2], width: usize, height: usize, random: &mut Random, seen: &mut Seen) -> Result<(), Difference> {
    let n = width * height;
    let fault = |what: &str| Difference(format!("planes, seed {}: {width} by {height}: {what}", seen.seed));
    let from: Vec<u16> = (0..n + random.below(3) as usize).map(|_| random.number() as u16).collect();
    let old: Vec<u16> = (0..n + random.below(3) as usize).map(|_| random.number() as u16).collect();
    for (way, (ours, plain)) in ways.into_iter().zip(PLAIN).enumerate() {
        let (mut to, mut expected) = (old.clone(), old.clone());
        plain(&from, width, height, &mut expected);
        if ours(&from, width, height, &mut to) != 0 || to != expected {
            return Err(fault(["other planes", "another frame"][way]));
        }
        let mut back = from.clone();
        back[..n].fill(0);
        if ways[1 - way](&to, width, height, &mut back) != 0 || back != from {
            return Err(fault("the way back does not undo it"));
        }
        if n > 0 {
            let mut to = old.clone();
            if ours(&from[..n - 1], width, height, &mut to) != 3 || to != old {
                return Err(fault("too few samples to read are not refused by 3"));
            }
            if ours(&from, width, height, &mut to[..n - 1]) != 3 || to != old {
                return Err(fault("too few samples to write are not refused by 3"));
            }
            seen.refused += 2;
        }
    }
    seen.frames += 1;
    Ok(())
}
