//! Clean frames of every kind, and each fault at each block of small frames, alone and with others: number and row must be the
//! plain verdict's, and the buffers those of the direct call, or unchanged.

use super::frames::{At, Wrong, frame};
use super::model::{Fault, verdict};
use crate::call::{Difference, first_difference};
use razvolk::Refusal;
use std::fmt;
use streams::random::Random;
use streams::{Frame, v0};

/// A decoder for clean frames, with a map or without.
pub type Clean = dyn Fn(&Frame, &mut [u16], Option<&mut [u8]>) -> Result<(), Refusal>;

/// Razvolk's two.
pub fn razvolk(frame: &Frame, samples: &mut [u16], map: Option<&mut [u8]>) -> Result<(), Refusal> {
    let Frame { width, height, ref stream, ref offsets, .. } = *frame;
    match map {
        None => razvolk::decode_v0_clean(stream, offsets, width, height, samples),
        Some(map) => razvolk::decode_v0_clean_map(stream, offsets, width, height, samples, map),
    }
}

/// What was compared.
#[derive(Debug, Default)]
pub struct Seen {
    pub seed: u64,
    pub frames: u64,
    pub samples: u64,
    pub taken: u64,
    /// How many were refused by 17, 18 and 19.
    pub numbers: [u64; 3],
    /// How many of these had another fault after the first.
    pub several: u64,
    /// How many have width 1.
    pub narrow: u64,
}

impl fmt::Display for Seen {
    fn fmt(&self, f: &mut fmt::Formatter<'_>) -> fmt::Result {
        let Seen { seed, frames, samples, taken, numbers: [up, length, missing], several, narrow } = self;
        write!(
            f,
            "clean, seed {seed}: {frames} frames, {samples} samples, {narrow} of width 1; {taken} taken, {up} refused by 17, \
             {length} by 18, {missing} by 19, {several} of them with several faults"
        )
    }
}

/// Widths and heights of the small frames: one block and less, spill, and three blocks.
const WIDTHS: [usize; 10] = [0, 1, 2, 8, 9, 16, 17, 32, 33, 48];
const HEIGHTS: [usize; 6] = [0, 1, 2, 3, 4, 5];

/// Compares clean frames, each fault at each block of small frames, and two or three faults at once; then `count` frames of any
/// kind.
pub fn compare(clean: &Clean, seed: u64, count: u64) -> Result<Seen, Difference> {
    let mut random = Random::new(seed);
    let mut seen = Seen { seed, ..Seen::default() };
    for (width, height) in WIDTHS.into_iter().flat_map(|width| HEIGHTS.map(|height| (width, height))) {
        let every: Vec<At> = places(width, height).collect();
        small(clean, &mut random, &mut seen, (width, height), &[])?;
        for &at in &every {
            small(clean, &mut random, &mut seen, (width, height), &[at])?;
            let others: Vec<At> = (0..2).map(|_| every[random.index(every.len())]).collect();
            small(clean, &mut random, &mut seen, (width, height), &[at, others[0]])?;
            small(clean, &mut random, &mut seen, (width, height), &[at, others[0], others[1]])?;
        }
    }
    for i in 0..count {
        let (width, height) = v0::any::size(&mut random, i);
        let any = if i % 2 == 0 { v0::any(&mut random, width, height) } else { frame(&mut random, width, height, &[]) };
        one(clean, &any, &mut random, &mut seen).map_err(|what| difference(seed, &any, &what))?;
    }
    Ok(seen)
}

/// Each fault at each block at which it can stand.
fn places(width: usize, height: usize) -> impl Iterator<Item = At> {
    let blocks = (0..height).flat_map(move |row| (0..width.div_ceil(16)).map(move |block| (row, block)));
    let lengths = blocks.flat_map(|(row, block)| (0..4).map(move |length| (row, block, length)));
    let each = lengths.flat_map(|(row, block, length)| Wrong::ALL.map(|wrong| At { row, block, length, wrong }));
    each.filter(|at| at.block >= at.wrong.before() && (at.wrong != Wrong::Up || at.row < 2))
}

/// A small frame that is made with faults: the first of those that are told must be among them.
fn small(
    clean: &Clean,
    random: &mut Random,
    seen: &mut Seen,
    (width, height): (usize, usize),
    faults: &[At],
) -> Result<(), Difference> {
    let made = frame(random, width, height, faults);
    let told = verdict(Fault::None, &made);
    let seed = seen.seed;
    match (faults, told) {
        ([], Some(_)) => return Err(difference(seed, &made, "a frame without faults has one by the plain verdict")),
        ([_, ..], None) => return Err(difference(seed, &made, &format!("the plain verdict misses {faults:?}"))),
        ([at], Some((number, row, _))) => {
            let number_of = [17, 18, 18, 19][Wrong::ALL.iter().position(|&w| w == at.wrong).expect("listed")];
            if (number, row) != (number_of, at.row) {
                return Err(difference(seed, &made, &format!("the plain verdict has {number}, row {row} for {at:?}")));
            }
        }
        _ => {}
    }
    seen.several += u64::from(faults.len() > 1);
    one(clean, &made, random, seen).map_err(|what| difference(seed, &made, &what))
}

fn difference(seed: u64, frame: &Frame, what: &str) -> Difference {
    let Frame { width, height, stream, offsets, .. } = frame;
    Difference(format!("clean, seed {seed}: {width} by {height}, {offsets:?}, {stream:02x?}: {what}"))
}

/// One frame, without a map and with one, some samples and bytes past it; and with too few of each.
fn one(clean: &Clean, frame: &Frame, random: &mut Random, seen: &mut Seen) -> Result<(), String> {
    let n = frame.samples();
    let told = verdict(Fault::None, frame);
    let expected = told.map_or(Ok(()), |(number, row, _)| Err(Refusal::of(number, row as u32, 0).expect("not done")));
    let more = [random.index(3), random.index(3)];
    let (old, old_map) = (random.samples(n + more[0]), random.bytes(n + more[1]));
    let (mut new, mut new_map) = (old.clone(), old_map.clone());
    let Frame { width, height, ref stream, ref offsets, .. } = *frame;
    let count = razvolk::decode_v0_reference_map(stream, offsets, width, height, &mut new, &mut new_map);
    match (told, count) {
        (None, Ok(0)) if new_map[..n].iter().all(|&byte| byte == 0) => {}
        (None, _) => return Err("a clean frame misses a word, or has a map byte that isn't 0".to_owned()),
        (Some((19, ..)), Ok(0)) => return Err("19, but the direct call misses no word".to_owned()),
        (Some(_), _) => (new, new_map) = (old.clone(), old_map.clone()),
    }
    for mapped in [false, true] {
        let (mut samples, mut map) = (old.clone(), old_map.clone());
        let answer = clean(frame, &mut samples, mapped.then_some(&mut map[..]));
        if answer != expected {
            return Err(format!("answered {answer:?}, expected {expected:?}"));
        }
        if let Some(what) = first_difference(&samples, &new) {
            return Err(format!("samples: {what}"));
        }
        if let Some(what) = first_difference(&map, if mapped { &new_map } else { &old_map }) {
            return Err(format!("map: {what}"));
        }
    }
    seen.frames += 1;
    seen.samples += n as u64;
    seen.narrow += u64::from(width == 1);
    match told {
        None => seen.taken += 1,
        Some((number, ..)) => seen.numbers[number as usize - 17] += 1,
    }
    Ok(())
}
