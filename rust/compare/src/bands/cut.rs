//! How a frame is cut into bands and blocks, good lists of steps of every kind, and what a list must be answered. Written from
//! the words of the rules; nothing here leans on what is compared.

use crate::call::Decoder;
use std::collections::VecDeque;
use streams::random::Random;

/// How a frame is cut, and the list of steps.
#[derive(Clone, Debug, PartialEq, Eq)]
pub struct Cut {
    pub bands: usize,
    pub block_width: usize,
    pub steps: Vec<u32>,
}

/// The sequence of a good list.
#[derive(Clone, Copy, Debug, PartialEq, Eq)]
pub enum Kind {
    Bands,
    Columns,
    Diagonals,
    Ready,
    /// As samsung.rs's `wavefront` does its blocks, on some threads.
    Wavefront,
}

impl Kind {
    pub const ALL: [Kind; 5] = [Kind::Bands, Kind::Columns, Kind::Diagonals, Kind::Ready, Kind::Wavefront];
}

/// The most bands of a frame: half its rows from row 2 on, 1 at least and 64 at most.
pub fn most_bands(height: usize) -> usize {
    (height.saturating_sub(2) / 2).clamp(1, 64)
}

impl Cut {
    /// For decoders that take none.
    pub const NONE: Cut = Cut { bands: 1, block_width: 16, steps: Vec::new() };

    /// A cut for a call of a decoder that is not to be refused: a good one of any kind in bands, where the size allows it.
    pub fn fitting(decoder: Decoder, random: &mut Random, width: usize, height: usize) -> Cut {
        if decoder != Decoder::Bands || width > 16_384 || height > 16_384 {
            return Cut::NONE;
        }
        let kind = Kind::ALL[random.index(Kind::ALL.len())];
        Cut::good(kind, random, width, height)
    }

    /// A good list over any cut.
    pub fn good(kind: Kind, random: &mut Random, width: usize, height: usize) -> Cut {
        let most = if random.below(4) == 0 { 64 } else { 8 };
        let threads = 1 + random.index(most);
        let mut cut = Cut::shape(random, width, height);
        if kind == Kind::Wavefront && random.below(2) == 0 {
            // samsung.rs's own cut.
            cut.bands = threads.min(most_bands(height));
            cut.block_width = width.div_ceil(16).div_ceil(4 * threads).max(16) * 16;
        }
        let blocks = cut.blocks(width, height);
        cut.steps = match kind {
            Kind::Bands => cut.sorted(blocks, |band, block| (band, block)),
            Kind::Columns => cut.sorted(blocks, |band, block| (block, band)),
            Kind::Diagonals if random.below(2) == 0 => cut.sorted(blocks, |band, block| (band + block, band)),
            Kind::Diagonals => cut.sorted(blocks, |band, block| (band + block, block)),
            Kind::Ready => cut.ready(random, blocks),
            Kind::Wavefront => cut.wavefront(random, blocks, threads),
        };
        cut
    }

    /// Any band count and block width that the frame allows; the width may be far above the frame's.
    fn shape(random: &mut Random, width: usize, height: usize) -> Cut {
        let most = most_bands(height);
        let bands = match random.below(4) {
            0 => most,
            1 => 1,
            _ => 1 + random.index(most),
        };
        let block_width = match random.below(8) {
            0 => usize::MAX - 15,
            1..=4 => 16,
            _ => 16 * (1 + random.index(width.div_ceil(16) + 2)),
        };
        Cut { bands, block_width, ..Cut::NONE }
    }

    /// How many blocks a band has.
    pub fn blocks(&self, width: usize, height: usize) -> usize {
        if height > 2 { width.div_ceil(self.block_width) } else { 0 }
    }

    /// All steps, by a key of band and block.
    fn sorted(&self, blocks: usize, key: fn(usize, usize) -> (usize, usize)) -> Vec<u32> {
        let mut steps: Vec<usize> = (0..self.bands * blocks).collect();
        steps.sort_by_key(|step| key(step / blocks, step % blocks));
        steps.into_iter().map(|step| step as u32).collect()
    }

    /// All steps, each picked at random from those that are ready.
    fn ready(&self, random: &mut Random, blocks: usize) -> Vec<u32> {
        let mut waiting = Waiting::new(self.bands, blocks);
        let (mut ready, mut steps) = (waiting.first(), Vec::new());
        while !ready.is_empty() {
            let step = ready.swap_remove(random.index(ready.len()));
            steps.push(step as u32);
            ready.extend(waiting.freed_by(step));
        }
        steps
    }

    /// All steps as threads take them in `wavefront`: each goes on with the block that it made ready last, and one that has none
    /// takes another's oldest. On one thread that is band by band.
    fn wavefront(&self, random: &mut Random, blocks: usize, threads: usize) -> Vec<u32> {
        let mut waiting = Waiting::new(self.bands, blocks);
        let (mut queues, mut steps) = (vec![VecDeque::new(); threads], Vec::new());
        queues[0].extend(waiting.first());
        while steps.len() < self.bands * blocks {
            let thread = random.index(threads);
            let own = queues[thread].pop_back();
            let step = own.or_else(|| queues.iter_mut().find_map(VecDeque::pop_front)).expect("one is ready");
            steps.push(step as u32);
            queues[thread].extend(waiting.freed_by(step));
        }
        steps
    }

    /// The answer's number of a call that is past 1 to 4: 11, 12, or done. What is done is kept step by step.
    pub fn number(&self, width: usize, height: usize) -> Option<u32> {
        if !(1..=most_bands(height)).contains(&self.bands)
            || self.block_width == 0
            || !self.block_width.is_multiple_of(16)
        {
            return Some(11);
        }
        let blocks = self.blocks(width, height);
        let mut done = vec![false; self.bands * blocks];
        if self.steps.len() != done.len() {
            return Some(12);
        }
        for step in self.steps.iter().map(|&step| step as usize) {
            let is_done = |other: Option<usize>| other.and_then(|other| done.get(other)) == Some(&true);
            let left = step % blocks == 0 || is_done(step.checked_sub(1));
            let above = step < blocks || is_done(step.checked_sub(blocks));
            if done.get(step) != Some(&false) || !left || !above {
                return Some(12);
            }
            done[step] = true;
        }
        None
    }
}

/// How many steps each waits for, as `wavefront` counts them.
struct Waiting {
    blocks: usize,
    pending: Vec<u8>,
}

impl Waiting {
    fn new(bands: usize, blocks: usize) -> Waiting {
        let waits = |step: usize| u8::from(step >= blocks) + u8::from(!step.is_multiple_of(blocks));
        Waiting { blocks, pending: (0..bands * blocks).map(waits).collect() }
    }

    /// The first block of the first band, if there is one.
    fn first(&self) -> Vec<usize> {
        (0..self.pending.len().min(1)).collect()
    }

    /// The steps that wait for no other once this one is done: the block below, and the one to the right.
    fn freed_by(&mut self, step: usize) -> Vec<usize> {
        let below = Some(step + self.blocks).filter(|&below| below < self.pending.len());
        let right = Some(step + 1).filter(|&right| !right.is_multiple_of(self.blocks));
        let mut freed = Vec::new();
        for next in below.into_iter().chain(right) {
            self.pending[next] -= 1;
            if self.pending[next] == 0 {
                freed.push(next);
            }
        }
        freed
    }
}
