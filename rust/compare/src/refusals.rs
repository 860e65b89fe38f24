//! Refusals 1 to 4: sizes and lengths about their limits, in every order of faults; and that nothing is touched.

use crate::bands::Cut;
use crate::call::{Answer, Ask, Decoder, Difference, Entry, Lent, NUMBERS};
use std::fmt;
use streams::random::Random;

/// The least width and height of V2.
pub const V2_LEAST: (usize, usize) = (32, 1);

/// How long the buffers of a call are.
#[derive(Clone, Copy, Debug)]
pub struct Lens {
    pub offsets: usize,
    pub samples: usize,
    pub map: usize,
    pub scratch: usize,
}

impl Lens {
    pub fn of(ask: &Ask, lent: &Lent) -> Lens {
        Lens {
            offsets: ask.offsets.len(),
            samples: lent.samples.len(),
            map: lent.map.len(),
            scratch: lent.scratch.len(),
        }
    }
}

/// The refusal among 1 to 4 that a call must get.
pub fn number(decoder: Decoder, map: bool, width: usize, height: usize, lens: Lens) -> Option<u32> {
    let n = width as u128 * height as u128;
    let scratch = width.div_ceil(16) as u128 * height.saturating_sub(2) as u128;
    let v2 = decoder == Decoder::V2;
    let faults = [
        width > 16_384 || height > 16_384,
        v2 && (height < V2_LEAST.1 || width < V2_LEAST.0),
        (lens.samples as u128) < n || !v2 && lens.offsets < height,
        map && (lens.map as u128) < n || decoder.in_phases() && (lens.scratch as u128) < scratch,
    ];
    (1..).zip(faults).find_map(|(number, fault)| fault.then_some(number))
}

/// A size: small, about a limit, or absurd. The longest frame that is not refused has about 300,000 samples.
fn size(random: &mut Random) -> (usize, usize) {
    if random.once_in(8) {
        return (646, 436);
    }
    let mut side = |small: u64, least: usize| match random.below(16) {
        0 => 16_384,
        1 => 16_385,
        2 => usize::MAX - random.index(4),
        3 => random.number() as usize,
        4 | 5 => least - 1,
        6 | 7 => least,
        _ => random.below(small) as usize,
    };
    (side(40, V2_LEAST.0), side(9, V2_LEAST.1))
}

/// About a wanted length: one short, just enough, one more, or none. Lengths above 300,000 count as too much to lend.
fn about(random: &mut Random, want: u128) -> usize {
    let want = want.min(300_000) as usize;
    match random.below(8) {
        0 => want.saturating_sub(1),
        1 => want + 1,
        2 => 0,
        _ => want,
    }
}

/// What was compared.
#[derive(Debug, Default)]
pub struct Seen {
    pub seed: u64,
    pub calls: u64,
    /// How many got number 0 to 12.
    pub numbers: [u64; NUMBERS],
}

impl fmt::Display for Seen {
    fn fmt(&self, f: &mut fmt::Formatter<'_>) -> fmt::Result {
        let Seen { seed, calls, numbers } = self;
        writeln!(f, "refusals, seed {seed}: answers 0 to 12: {numbers:?}")?;
        write!(f, "refusals: {calls} calls with sizes and lengths about the limits, each answered by the rules")
    }
}

/// Calls each entry with sizes and lengths about the limits. Calls that pass 1 to 4 only have to be answered, and leave alone
/// what lies past the frame.
pub fn compare(entries: &[Entry], seed: u64, calls: u64) -> Result<Seen, Difference> {
    let mut random = Random::new(seed);
    let mut seen = Seen { seed, ..Seen::default() };
    while seen.calls < calls {
        for entry in entries {
            let (width, height) = size(&mut random);
            let n = width as u128 * height as u128;
            let scratch = width.div_ceil(16) as u128 * height.saturating_sub(2) as u128;
            let lens = Lens {
                offsets: about(&mut random, height as u128).min(20_000),
                samples: about(&mut random, n),
                map: about(&mut random, n),
                scratch: about(&mut random, scratch),
            };
            one(entry, (width, height), lens, &mut random, &mut seen)
                .map_err(|what| Difference(format!("refusals, seed {seed}, call {}: {what}", seen.calls)))?;
        }
    }
    Ok(seen)
}

fn one(
    entry: &Entry,
    (width, height): (usize, usize),
    lens: Lens,
    random: &mut Random,
    seen: &mut Seen,
) -> Result<(), String> {
    let src = random.bytes(64);
    let offsets: Vec<u32> = (0..lens.offsets).map(|i| i as u32 % 70).collect();
    let old = (random.samples(lens.samples), random.bytes(lens.map), random.bytes(lens.scratch));
    let mut new = old.clone();
    let cut = Cut::fitting(entry.decoder, random, width, height);
    let ask = Ask { src: &src, offsets: &offsets, width, height, cut: &cut };
    let answer = entry.call(&ask, &mut Lent { samples: &mut new.0, map: &mut new.1, scratch: &mut new.2 });
    let what = format!("{}, {width} by {height}, {lens:?}", entry.name);
    seen.calls += 1;
    *seen.numbers.get_mut(answer.number as usize).ok_or(format!("{what}: answer {answer}"))? += 1;
    match number(entry.decoder, entry.map, width, height, lens) {
        Some(number) if answer != Answer::refused(number) => Err(format!("{what}: {answer}, expected {number}, row 0")),
        Some(_) if new != old => Err(format!("{what}: {answer}, and a buffer has changed")),
        Some(_) => Ok(()),
        None if !answer.is_decoded() => Err(format!("{what}: {answer}, expected no refusal among 1 to 4")),
        None => {
            let n = width * height;
            let kept = new.0[n..] == old.0[n..] && (new.1 == old.1 || entry.map && new.1[n..] == old.1[n..]);
            kept.then_some(()).ok_or(format!("{what}: {answer}, and what lies past the frame has changed"))
        }
    }
}
