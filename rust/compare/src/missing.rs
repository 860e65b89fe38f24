//! How many words were missing: streams broken off after every byte. V0's samples are samsung.rs's; V2's are those of the decoder
//! of its own, which [`crate::v2`] holds to samsung.rs. The counts are those of readers that know how many bits were read, and
//! fetch no words.

use crate::call::{Ask, Difference, Entry, Lent};
use crate::v2::model::{self, Fault};
use crate::{v0, v2};
use std::fmt;
use std::ops::RangeInclusive;
use streams::Frame;
use streams::random::Random;
use streams::v2::any::{Planted, Style, written};

/// What was compared.
#[derive(Debug, Default)]
pub struct Seen {
    pub seed: u64,
    pub v0: v0::compare::Seen,
    pub v2: v2::compare::Seen,
}

impl fmt::Display for Seen {
    fn fmt(&self, f: &mut fmt::Formatter<'_>) -> fmt::Result {
        let Seen { seed, v0, v2 } = self;
        writeln!(f, "missing, seed {seed}: {} cut streams of V0, {} words missing", v0.frames, v0.missing.words)?;
        writeln!(f, "missing: {} cut streams of V2, {} words missing", v2.calls, v2.missing)?;
        writeln!(f, "missing: V2's answers 0 to 12: {:?}", v2.numbers)?;
        write!(f, "missing: {} streams, each cut after every byte, no difference", v0.frames + v2.calls)
    }
}

/// Breaks `frames` small frames of V0 off after every byte; for every eighth, a small crop of V2; and for every thirty-second, a
/// stream of V2 that samsung.rs takes, after every byte of the header, of the first two rows, and of the end.
pub fn compare(of_v0: &[Entry], of_v2: &[Entry], seed: u64, frames: u64) -> Result<Seen, Difference> {
    let mut random = Random::new(seed);
    let mut seen = Seen { seed, ..Seen::default() };
    for i in 0..frames {
        let differs =
            |(len, what)| Difference(format!("missing, seed {seed}, frame {i} cut after {len} bytes: {what}"));
        if !of_v0.is_empty() {
            small(of_v0, &mut random, &mut seen.v0).map_err(differs)?;
        }
        if !of_v2.is_empty() && i % 8 == 4 {
            let whole = crop(&mut random, (i / 8 % 16) as u32);
            each(of_v2, &whole, 0..=whole.stream.len(), &mut random, &mut seen.v2).map_err(differs)?;
        }
        if !of_v2.is_empty() && i % 32 == 0 {
            let style = Style::any(&mut random, (i / 32 % 16) as u32);
            let planted = (i % 64 == 32).then(|| Planted { number: 7, row: random.index(2), block: random.index(40) });
            let width = 646 + random.index(20);
            let whole = written(&mut random, &style, width, 436, planted);
            let len = whole.stream.len();
            for lens in [0..=whole.row(2).start, len - 24..=len] {
                each(of_v2, &whole, lens, &mut random, &mut seen.v2).map_err(differs)?;
            }
        }
    }
    Ok(seen)
}

/// A small frame of V0, after every byte.
fn small(entries: &[Entry], random: &mut Random, seen: &mut v0::compare::Seen) -> Result<(), (usize, String)> {
    // At width 1 some samples past the row's end are skipped: only the words that are fetched show it.
    let width = if random.once_in(8) { 1 } else { random.index(40) };
    let height = random.index(6);
    let whole = streams::v0::any(random, width, height);
    (0..=whole.stream.len())
        .try_for_each(|len| v0::compare::frame(entries, &whole.cut(len), random, seen).map_err(|what| (len, what)))
}

/// A small crop of V2, now and then with a refusal to meet.
fn crop(random: &mut Random, options: u32) -> Frame {
    let style = Style::any(random, options);
    let (width, height) = (32 + random.index(40), 1 + random.index(5));
    let (number, row) = [(5, random.index(2)), (6, 2), (7, random.index(3))][random.index(3)];
    let planted = random.once_in(3).then_some(Planted { number, row, block: 0 });
    written(random, &style, width, height, planted)
}

/// A frame of V2, after so many bytes. The buffers are kept: a large frame has many, and little of it is written.
fn each(
    entries: &[Entry],
    whole: &Frame,
    lens: RangeInclusive<usize>,
    random: &mut Random,
    seen: &mut v2::compare::Seen,
) -> Result<(), (usize, String)> {
    let n = whole.samples();
    let old = random.samples(n);
    let (mut own, mut samples, mut map) = (old.clone(), old.clone(), vec![9; n]);
    for len in lens {
        let ask = Ask { src: &whole.stream[..len], ..Ask::of(whole) };
        own.copy_from_slice(&old);
        let (expected, marks, _) = model::marked(Fault::None, &ask, &mut own);
        for entry in entries {
            samples.copy_from_slice(&old);
            map.fill(9);
            let answer = entry.call(&ask, &mut Lent { samples: &mut samples, map: &mut map, scratch: &mut [] });
            if answer != expected {
                return Err((len, format!("{}: answer {answer}, expected {expected}", entry.name)));
            }
            let marked = if entry.map { map == marks } else { map.iter().all(|&byte| byte == 9) };
            if samples != own || !marked {
                return Err((len, format!("{}, answer {answer}: samples or map differ", entry.name)));
            }
        }
        seen.calls += 1;
        seen.missing += expected.filler;
        seen.numbers[expected.number as usize] += 1;
    }
    Ok(())
}
