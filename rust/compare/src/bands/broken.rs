//! Cuts that are broken, in each way.

use super::cut::{Cut, most_bands};
use streams::random::Random;

/// What is wrong with a cut. Two steps that change places may still be a good list.
#[derive(Clone, Copy, Debug, PartialEq, Eq)]
pub enum Way {
    Short,
    Long,
    Twice,
    OutOfRange,
    BeforeLeft,
    BeforeAbove,
    Swapped,
    NoBands,
    TooManyBands,
    NoBlockWidth,
    OddBlockWidth,
}

impl Way {
    pub const ALL: [Way; 11] = [
        Way::Short,
        Way::Long,
        Way::Twice,
        Way::OutOfRange,
        Way::BeforeLeft,
        Way::BeforeAbove,
        Way::Swapped,
        Way::NoBands,
        Way::TooManyBands,
        Way::NoBlockWidth,
        Way::OddBlockWidth,
    ];
}

impl Cut {
    /// A good cut, broken in any way that it can be.
    pub fn any_broken(&self, random: &mut Random, width: usize, height: usize) -> (Way, Cut) {
        loop {
            let way = Way::ALL[random.index(Way::ALL.len())];
            if let Some(cut) = self.broken(way, random, width, height) {
                return (way, cut);
            }
        }
    }

    /// A good cut, broken in one way, if it has steps enough for that. Too long a list can always be made.
    pub fn broken(&self, way: Way, random: &mut Random, width: usize, height: usize) -> Option<Cut> {
        let mut cut = self.clone();
        let (len, blocks) = (cut.steps.len(), cut.blocks(width, height));
        let any = |random: &mut Random| (random.index(len), random.index(len));
        let left = |step: usize| (!step.is_multiple_of(blocks)).then(|| step - 1);
        let above = |step: usize| step.checked_sub(blocks);
        match way {
            Way::Short if len > 0 && random.below(2) == 0 => cut.steps.truncate(random.index(len)),
            Way::Short if len > 0 => drop(cut.steps.remove(random.index(len))),
            Way::Twice if len > 1 => {
                let (one, other) = any(random);
                cut.steps[one] = cut.steps[if one == other { (one + 1) % len } else { other }];
            }
            Way::OutOfRange if len > 0 => {
                let past = [len as u32, u32::MAX, len as u32 + random.below(9) as u32][random.index(3)];
                cut.steps[random.index(len)] = past;
            }
            Way::BeforeLeft if blocks > 1 => cut.move_before(random, left, above),
            Way::BeforeAbove if blocks > 0 && cut.bands > 1 => cut.move_before(random, above, left),
            Way::Swapped if len > 1 => {
                let (one, other) = any(random);
                cut.steps.swap(one, other);
            }
            Way::NoBands => cut.bands = 0,
            Way::TooManyBands => {
                let rows = height.saturating_sub(2);
                let most = most_bands(height);
                cut.bands = [most + 1, most + 1 + random.index(rows + 9), usize::MAX][random.index(3)];
                cut.do_all(width, height);
            }
            Way::NoBlockWidth => cut.block_width = 0,
            Way::OddBlockWidth => {
                cut.block_width = [8, 24, 1 + random.index(15), 16 + 1 + random.index(15), usize::MAX][random.index(5)];
                cut.do_all(width, height);
            }
            Way::Long => cut.steps.push(random.below(len as u64 + 1) as u32),
            _ => return None,
        }
        Some(cut)
    }

    /// The list band by band, for a cut that is refused for what it is: the list would be good.
    fn do_all(&mut self, width: usize, height: usize) {
        let steps = self.bands.saturating_mul(self.blocks(width, height));
        if steps < 100_000 {
            self.steps = (0..steps as u32).collect();
        }
    }

    /// Puts a step right before one that it waits for, where nothing else is missing.
    fn move_before(
        &mut self,
        random: &mut Random,
        missing: impl Fn(usize) -> Option<usize>,
        other: impl Fn(usize) -> Option<usize>,
    ) {
        let mut places = vec![0; self.steps.len()];
        for (place, &step) in self.steps.iter().enumerate() {
            places[step as usize] = place;
        }
        let moves = (0..places.len()).filter_map(|step| Some((places[step], places[missing(step)?], other(step))));
        let moves = moves.filter(|&(_, to, other)| other.is_none_or(|other| places[other] < to));
        let moves: Vec<(usize, usize)> = moves.map(|(from, to, _)| (from, to)).collect();
        let (from, to) = moves[random.index(moves.len())];
        let step = self.steps.remove(from);
        self.steps.insert(to, step);
    }
}
