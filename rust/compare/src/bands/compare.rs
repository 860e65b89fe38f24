//! V0 in bands against samsung.rs and the plain call: samples and scratch of good lists of every kind; and lists and cuts that are
//! broken in every way, which must be refused with nothing changed.

use super::{Cut, Kind, Way};
use crate::call::{Answer, Ask, Difference, Entry, Lent, NUMBERS, first_difference};
use crate::refusals::{self, Lens};
use crate::v0::compare::rust;
use std::fmt;
use streams::random::Random;
use streams::{Frame, v0};

/// What was compared.
#[derive(Debug, Default)]
pub struct Seen {
    pub seed: u64,
    pub frames: u64,
    pub calls: u64,
    pub samples: u64,
    pub steps: u64,
    /// Most bands, and most blocks in a band.
    pub bands: usize,
    pub blocks: usize,
    /// How many calls got number 0 to 12.
    pub numbers: [u64; NUMBERS],
    /// How many lists of each way were refused by 11 or 12.
    pub ways: [u64; Way::ALL.len()],
}

impl fmt::Display for Seen {
    fn fmt(&self, f: &mut fmt::Formatter<'_>) -> fmt::Result {
        let Seen { seed, frames, calls, samples, steps, bands, blocks, numbers, ways } = self;
        writeln!(f, "bands, seed {seed}: {frames} frames, {samples} samples, {calls} calls, {steps} steps done")?;
        writeln!(f, "bands: up to {bands} bands of up to {blocks} blocks; answers 0 to 12: {numbers:?}")?;
        let ways: Vec<String> = Way::ALL.iter().zip(ways).map(|(way, count)| format!("{way:?} {count}")).collect();
        writeln!(f, "bands: refused by 11 or 12: {}", ways.join(", "))?;
        write!(f, "bands: {frames} frames, each by {} lists as the plain call and samsung.rs", Kind::ALL.len())
    }
}

/// A frame with what its buffers hold before and after, by samsung.rs and the plain call.
struct Expected<'a> {
    frame: &'a Frame,
    old: (Vec<u16>, Vec<u8>),
    new: (Vec<u16>, Vec<u8>),
}

fn expected<'a>(frame: &'a Frame, random: &mut Random) -> Result<Expected<'a>, String> {
    let &Frame { width, height, ref stream, ref offsets, .. } = frame;
    let mut more = || if random.below(2) == 0 { 0 } else { random.index(40) };
    let lens = (frame.samples() + more(), razvolk::scratch_len(width, height) + more());
    let old = (random.samples(lens.0), random.bytes(lens.1));
    let mut new = old.clone();
    razvolk::decode_v0(stream, offsets, width, height, &mut new.0, &mut new.1).map_err(|e| format!("plain: {e}"))?;
    let direct = rust(frame, &old.0);
    let mut phases = old.0.clone();
    reference::decode_v0_with(stream, offsets, width, height, &mut phases, false).expect("within the limits");
    match first_difference(&new.0, &direct).or_else(|| first_difference(&new.0, &phases)) {
        Some(what) => Err(format!("the plain call and samsung.rs: {what}")),
        None => Ok(Expected { frame, old, new }),
    }
}

/// Calls with a cut, and so many samples and bytes of scratch less than there are: the answer must be that of the rules, and the
/// buffers those of the plain call, or unchanged.
fn one(entry: &Entry, to: &Expected, cut: &Cut, less: (usize, usize), seen: &mut Seen) -> Result<Answer, String> {
    let ask = Ask { cut, ..Ask::of(to.frame) };
    let (mut samples, mut scratch) = to.old.clone();
    samples.truncate(samples.len() - less.0);
    scratch.truncate(scratch.len() - less.1);
    let mut map = [9; 5];
    let mut lent = Lent { samples: &mut samples, map: &mut map, scratch: &mut scratch };
    let lens = Lens::of(&ask, &lent);
    let answer = entry.call(&ask, &mut lent);
    seen.calls += 1;
    let number = refusals::number(entry.decoder, entry.map, ask.width, ask.height, lens);
    let number = number.or_else(|| cut.number(ask.width, ask.height));
    let after = if number.is_none() { &to.new } else { &to.old };
    let Cut { bands, block_width, .. } = cut;
    let what = format!("{bands} bands, blocks of {block_width}");
    if answer != number.map_or(Answer::DONE, Answer::refused) {
        return Err(format!("{what}: answer {answer}, expected {}", number.unwrap_or(0)));
    }
    let found = [
        ("samples", first_difference(&samples, &after.0[..samples.len()])),
        ("scratch", first_difference(&scratch, &after.1[..scratch.len()])),
        ("map", first_difference(&map, &[9; 5])),
    ];
    if let Some((buffer, Some(difference))) = found.into_iter().find(|(_, found)| found.is_some()) {
        return Err(format!("{what}: answer {answer}, {buffer}: {difference}"));
    }
    seen.numbers[answer.number as usize] += 1;
    Ok(answer)
}

/// One frame: a good list of each kind, and one that is broken, sometimes with buffers that are too short as well.
fn frame(entry: &Entry, frame: &Frame, random: &mut Random, seen: &mut Seen) -> Result<(), String> {
    let &Frame { width, height, .. } = frame;
    let to = expected(frame, random)?;
    for kind in Kind::ALL {
        let cut = Cut::good(kind, random, width, height);
        let answer =
            one(entry, &to, &cut, (0, 0), seen).map_err(|what| format!("{kind:?}, {what}, {:?}", cut.steps))?;
        if answer != Answer::DONE {
            return Err(format!("{kind:?} makes a list that is not good: {cut:?}"));
        }
        seen.steps += cut.steps.len() as u64;
        seen.bands = seen.bands.max(cut.bands);
        seen.blocks = seen.blocks.max(cut.blocks(width, height));
        let (way, broken) = cut.any_broken(random, width, height);
        let less = |random: &mut Random, len: usize| if random.once_in(16) { random.index(len + 1) } else { 0 };
        let less = (less(random, to.old.0.len()), less(random, to.old.1.len()));
        let answer = one(entry, &to, &broken, less, seen)
            .map_err(|what| format!("{way:?}, {less:?} less lent, {what}, {:?}", broken.steps))?;
        seen.ways[way as usize] += u64::from(answer.number >= 11);
    }
    seen.frames += 1;
    seen.samples += frame.samples() as u64;
    Ok(())
}

/// A size: as for V0's comparison, or one of more bands and blocks, now and then up to the limits.
fn size(random: &mut Random, i: u64) -> (usize, usize) {
    match i % 64 {
        k if k % 2 == 0 => (random.index(200), random.index(40)),
        1 | 17 | 33 | 49 => (random.index(40), 100 + random.index(100)),
        5 => (random.index(700), random.index(300)),
        9 if i % 1_024 == 9 => (16_384 - random.index(20), random.index(9)),
        9 if i % 1_024 == 73 => (random.index(20), 16_384 - random.index(20)),
        _ => v0::any::size(random, i),
    }
}

/// Compares `frames` frames through each entry in bands, up to the first difference.
pub fn compare(entries: &[Entry], seed: u64, frames: u64) -> Result<Seen, Difference> {
    let mut random = Random::new(seed);
    let mut seen = Seen { seed, ..Seen::default() };
    for i in 0..frames {
        let (width, height) = size(&mut random, i);
        let made = v0::any(&mut random, width, height);
        for entry in entries {
            frame(entry, &made, &mut random, &mut seen).map_err(|what| {
                Difference(format!("bands, seed {seed}, frame {i}, {width} by {height}: {}: {what}", entry.name))
            })?;
        }
    }
    Ok(seen)
}
