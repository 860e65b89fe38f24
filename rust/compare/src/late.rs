//! How far a late fault reaches. V0: two offset tables that agree before entry r give equal rows before r − (r mod 2), by every
//! decoder, the two calls' the same or not, if both are done. V2: two streams that agree in their first p bytes give equal rows before the first
//! that fetches a word not wholly below p, and a refusal in those rows is the same. Maps too. It is counted how often the row at
//! the bound itself differed.

use crate::bands::Cut;
use crate::call::{Answer, Ask, Difference, Entry, Lent, razvolk_clean, razvolk_of};
use crate::clean::frames::frame;
use crate::v2::crops::v2_size;
use crate::v2::model::{self, Fault};
use std::fmt;
use streams::random::Random;
use streams::v2::any::{Planted, Style, written};
use streams::{Frame, Version, v0};

/// Razvolk's entries of V0, those for clean frames among them.
pub fn razvolk_of_v0() -> Vec<Entry> {
    razvolk_of(Version::V0).into_iter().chain(razvolk_clean()).collect()
}

/// Pairs of calls, and in how many the row at the bound differed.
#[derive(Debug, Default)]
pub struct Pairs {
    pub pairs: u64,
    pub rows: u64,
    pub at_bound: u64,
}

/// What was compared.
#[derive(Debug, Default)]
pub struct Seen {
    pub seed: u64,
    pub v0: Pairs,
    pub v2: Pairs,
    /// Pairs of V0 whose entry r is odd and whose row r − 1 differed: the exchange joins it to row r.
    pub exchanged: u64,
    /// Pairs of V0 with a call for clean frames that was done.
    pub clean: u64,
    /// Pairs of V2 that met the same refusal above the bound.
    pub refused: u64,
}

impl fmt::Display for Seen {
    fn fmt(&self, f: &mut fmt::Formatter<'_>) -> fmt::Result {
        let Seen { seed, v0, v2, exchanged, clean, refused } = self;
        writeln!(
            f,
            "late, seed {seed}: {} pairs of V0, {} rows equal above the bound, {} pairs differ in the row at it, {exchanged} of them before r; {clean} with a call for clean frames",
            v0.pairs, v0.rows, v0.at_bound
        )?;
        write!(
            f,
            "late: {} pairs of V2, {} rows equal above the bound, {} pairs differ in the row at it, {refused} with one refusal above it",
            v2.pairs, v2.rows, v2.at_bound
        )
    }
}

/// What a call leaves.
struct Left {
    answer: Answer,
    samples: Vec<u16>,
    map: Vec<u8>,
}

fn left(entry: &Entry, frame: &Frame, old: &[u16], random: &mut Random) -> Left {
    let cut = Cut::fitting(entry.decoder, random, frame.width, frame.height);
    let (mut samples, mut map) = (old.to_vec(), vec![9; frame.samples()]);
    let mut scratch = vec![9; frame.width.div_ceil(16) * frame.height];
    let mut lent = Lent { samples: &mut samples, map: &mut map, scratch: &mut scratch };
    let answer = entry.call(&Ask { cut: &cut, ..Ask::of(frame) }, &mut lent);
    Left { answer, samples, map }
}

impl Left {
    /// Whether a row was left alike, in samples and, where both are lent one, in the map.
    fn row_equals(&self, other: &Left, row: usize, width: usize, maps: bool) -> bool {
        let row = row * width..(row + 1) * width;
        self.samples[row.clone()] == other.samples[row.clone()] && (!maps || self.map[row.clone()] == other.map[row])
    }
}

/// Two frames' rows above a bound, and whether the row at it differs; nothing if a call was refused before it decoded.
fn rows(
    entries: [&Entry; 2],
    frames: [&Frame; 2],
    bound: usize,
    old: &[u16],
    random: &mut Random,
    seen: &mut Pairs,
) -> Result<Option<([Left; 2], bool)>, String> {
    let [frame, _] = frames;
    let maps = entries.iter().all(|entry| entry.map);
    let [a, b] = [0, 1].map(|i| left(entries[i], frames[i], old, random));
    if !a.answer.is_decoded() || !b.answer.is_decoded() {
        return Ok(None);
    }
    let equal = |row| a.row_equals(&b, row, frame.width, maps);
    if let Some(row) = (0..bound.min(frame.height)).find(|&row| !equal(row)) {
        let [first, second] = entries.map(|entry| entry.name);
        return Err(format!("{first} and {second}: row {row} differs, which lies above row {bound}"));
    }
    let differs = bound < frame.height && !equal(bound);
    seen.pairs += 1;
    seen.rows += bound.min(frame.height) as u64;
    seen.at_bound += u64::from(differs);
    Ok(Some(([a, b], differs)))
}

/// V0: every entry beside any other, with other offsets from an entry on.
fn of_v0(entries: &[Entry], random: &mut Random, seen: &mut Seen) -> Result<(), String> {
    let (width, height) = (random.index(70), 1 + random.index(12));
    let clean = random.once_in(2);
    let frame = if clean { frame(random, width, height, &[]) } else { v0::any(random, width, height) };
    let old = random.samples(width * height);
    let r = random.index(height + 2);
    let mut other = frame.clone();
    for row in r.min(height)..height {
        other.offsets[row] = match random.below(4) {
            _ if clean => frame.offsets[2.min(height - 1) + random.index(height.saturating_sub(2).max(1))],
            0 => frame.offsets[random.index(height)],
            _ => random.index(frame.stream.len() + 8) as u32,
        };
    }
    for entry in entries {
        let beside = &entries[random.index(entries.len())];
        let bound = r - r % 2;
        let found = rows([entry, beside], [&frame, &other], bound, &old, random, &mut seen.v0)
            .map_err(|what| format!("{width} by {height}, entry {r}: {what}"))?;
        if let Some((_, differs)) = found {
            seen.exchanged += u64::from(differs && r % 2 == 1);
            seen.clean += u64::from([entry, beside].iter().any(|entry| entry.name.contains("clean")));
        }
    }
    Ok(())
}

/// The first row that fetches a word not wholly below p, or the height: with the first p bytes alone, the first that misses one.
fn first_past(frame: &Frame, p: usize) -> usize {
    let cut = frame.cut(p);
    let mut samples = vec![0; frame.samples()];
    let (answer, _, _) = model::marked(Fault::None, &Ask::of(&cut), &mut samples);
    if answer.filler > 0 { answer.row as usize } else { frame.height }
}

/// V2 of a size: other bytes from byte p on, more of them or fewer.
fn of_v2(
    entries: &[Entry],
    (width, height): (usize, usize),
    random: &mut Random,
    seen: &mut Seen,
) -> Result<(), String> {
    let options = random.below(16) as u32;
    let style = Style::any(random, options);
    let number = [5, 6, 7][random.index(3)];
    let planted = random.once_in(2).then_some(Planted { number, row: 2, block: 0 });
    let frame = written(random, &style, width, height, planted);
    let old = random.samples(frame.samples());
    for _ in 0..8 {
        let below = if random.once_in(2) { height.min(5) } else { height };
        let row = random.index(below);
        let bytes = frame.row(row);
        let p = bytes.start + random.index(bytes.len());
        let mut stream = frame.stream[..p].to_vec();
        let more = random.index(frame.stream.len() - p + 40);
        if random.once_in(2) {
            stream.extend(&frame.stream[p..]);
            let here = p + random.index(8).min(stream.len() - 1 - p);
            stream[here] ^= 1 << random.below(8);
        } else {
            stream.extend(random.bytes(more));
        }
        let (other, bound) = (frame.with_stream(stream), first_past(&frame, p));
        let entry = &entries[random.index(entries.len())];
        let beside = &entries[random.index(entries.len())];
        let told = |what| format!("V2, {style:?}, byte {p} in row {row}: {what}");
        let found = rows([entry, beside], [&frame, &other], bound, &old, random, &mut seen.v2).map_err(told)?;
        let Some(([a, b], _)) = found else { continue };
        let above = |left: &Left| left.answer.number != 0 && (left.answer.row as usize) < bound;
        if above(&a) || above(&b) {
            if a.answer != b.answer {
                return Err(told(format!("answers {} and {}, above row {bound}", a.answer, b.answer)));
            }
            seen.refused += 1;
        }
    }
    Ok(())
}

/// Compares pairs of `frames` frames of V0, and of V2 for every eighth of a crop, for every sixty-fourth of a larger frame.
pub fn compare(v0: &[Entry], v2: &[Entry], seed: u64, frames: u64) -> Result<Seen, Difference> {
    let mut random = Random::new(seed);
    let mut seen = Seen { seed, ..Seen::default() };
    for i in 0..frames {
        let differs = |what: String| Difference(format!("late, seed {seed}, frame {i}: {what}"));
        if !v0.is_empty() {
            of_v0(v0, &mut random, &mut seen).map_err(differs)?;
        }
        if let Some(size) = v2_size(&mut random, i).filter(|_| !v2.is_empty()) {
            of_v2(v2, size, &mut random, &mut seen).map_err(differs)?;
        }
    }
    Ok(seen)
}
