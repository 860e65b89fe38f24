//! Blanking and the archive export against plain loops written from the rules: of frames that are decoded, with their maps, and
//! of maps that are made up. There is nothing of them in samsung.rs, which the decoders are held to. The plain loop has a fault where
//! wanted, and the comparison must find each fault out.

use crate::call::{Difference, first_difference};
use crate::write::plain::plain as written;
use std::fmt;
use streams::random::Random;
use streams::v0::any::{any, size};

crate::faults::faults!(
    RunsAcrossRows,
    RunsOfOne,
    RunsOneLonger,
    FillZero,
    FillsTheUnmarked,
    CountsRuns,
    LeavesTheFillOut,
    ThirteenBeforeFourteen,
    FourteenOfThree,
    FourteenAboveFour,
    FillerLeft,
    RunsOfOnePart,
    FourteenPastTheFrame,
    WantsOneNumberMore,
    ListsBeforeThirteen,
    ClearsTheListsTail,
    ClearsTheSamplesTail,
    CountWhereRefused,
    ExportsUnblanked,
    LengthWhereRefused,
    NoCountAtNine,
    ZeroUnstated,
    AnyParity,
    OtherParity,
    TakesTheMarked,
    TakesWhatIsSet,
    LooksIntoTheRowAbove,
    StopsAtTheFirst,
    ExportsUnstated,
);

/// What is asked: a fill that is stated, one that isn't, or the export.
#[derive(Clone, Copy, Debug, PartialEq, Eq)]
pub enum Ask {
    Fill(u16),
    NoFill,
    Export,
}

/// A frame, and what is lent; the stream and the offsets are the export's.
#[derive(Clone, Debug, PartialEq, Eq)]
pub struct Lent {
    pub samples: Vec<u16>,
    pub runs: Vec<u32>,
    pub stream: Vec<u8>,
    pub offsets: Vec<u32>,
}

/// What is answered.
#[derive(Clone, Copy, Debug, Default, PartialEq, Eq)]
pub struct Told {
    pub number: u32,
    pub count: usize,
    pub runs: usize,
    pub length: usize,
}

/// Blanking or the export under test: of a map, a width and a height.
pub type Blank<'a> = &'a dyn Fn(Ask, &[u8], usize, usize, &mut Lent) -> Told;

/// Razvolk's. (The Rust crate hides both counts of what blanking refuses; the tests in C see them.)
pub fn razvolk(ask: Ask, map: &[u8], width: usize, height: usize, lent: &mut Lent) -> Told {
    let Lent { samples, runs, stream, offsets } = lent;
    let blanked = match ask {
        Ask::Fill(fill) => razvolk::blank_with(samples, map, width, height, fill, runs),
        Ask::NoFill => razvolk::blank(samples, map, width, height, runs),
        Ask::Export => {
            return match razvolk::export_v0(samples, map, width, height, runs, stream, offsets) {
                Err(refusal) => Told { number: refusal.number(), ..Told::default() },
                Ok(done) => Told {
                    number: done.written.err().map_or(0, |refusal| refusal.number()),
                    count: done.blanked.count,
                    runs: done.blanked.runs,
                    length: done.written.unwrap_or(0),
                },
            };
        }
    };
    match blanked {
        Err(refusal) => Told { number: refusal.number(), ..Told::default() },
        Ok(done) => Told { count: done.count, runs: done.runs, ..Told::default() },
    }
}

/// The plain search for what a marked sample is set to where no fill is stated: to the left in its row, two columns at once, for a
/// sample that isn't marked. `now` is the frame with all samples before this one set.
fn nearest(fault: Fault, old: &[u16], now: &[u16], map: &[u8], width: usize, i: usize) -> u16 {
    let start = if fault == Fault::LooksIntoTheRowAbove { 0 } else { i - i % width };
    let step = if fault == Fault::AnyParity { 1 } else { 2 };
    let mut at = if fault == Fault::OtherParity { i + 1 } else { i };
    while at >= start + step {
        at -= step;
        if map[at] == 0 || fault == Fault::TakesTheMarked {
            return old[at];
        }
        if fault == Fault::StopsAtTheFirst {
            return 0;
        }
        if fault == Fault::TakesWhatIsSet {
            return now[i - 1];
        }
    }
    0
}

/// Refusals 1, 3 and 4.
fn early(map: &[u8], width: usize, height: usize, samples: usize) -> Option<u32> {
    if width > 16_384 || height > 16_384 {
        return Some(1);
    }
    let n = width * height;
    if samples < n {
        return Some(3);
    }
    (map.len() < n).then_some(4)
}

/// 14: a byte of the map that is no mark.
fn has_other_bytes(fault: Fault, map: &[u8], n: usize) -> bool {
    let looked_at = if fault == Fault::FourteenPastTheFrame { map } else { &map[..n] };
    let most = match fault {
        Fault::FourteenOfThree => 2,
        Fault::FourteenAboveFour => 4,
        _ => 3,
    };
    looked_at.iter().any(|&byte| byte > most)
}

/// The runs of a frame's map: row, first column and length.
fn runs_of(fault: Fault, map: &[u8], width: usize) -> Vec<[u32; 3]> {
    let mut runs: Vec<[u32; 3]> = Vec::new();
    for (i, _) in map.iter().enumerate().filter(|(_, byte)| **byte != 0) {
        let (row, column) = (i / width, i % width);
        let beside = if fault == Fault::RunsAcrossRows { i > 0 } else { column > 0 };
        let goes_on = beside && map[i - 1] != 0 && (map[i - 1] == map[i] || fault != Fault::RunsOfOnePart);
        match runs.last_mut() {
            Some(run) if goes_on && fault != Fault::RunsOfOne => run[2] += 1,
            _ => runs.push([row as u32, column as u32, 1]),
        }
    }
    if fault == Fault::RunsOneLonger {
        runs.iter_mut().for_each(|run| run[2] += 1);
    }
    runs
}

/// 13 and 14, in their sequence; the list of runs as it is left.
fn listed(fault: Fault, flat: &[u32], bad: bool, list: &mut [u32]) -> Result<(), u32> {
    let wanted = flat.len() + usize::from(fault == Fault::WantsOneNumberMore);
    let short = list.len() < wanted;
    if short && fault == Fault::ThirteenBeforeFourteen {
        return Err(13);
    }
    if bad {
        return Err(14);
    }
    let fits = flat.len().min(list.len());
    if !short || fault == Fault::ListsBeforeThirteen {
        list[..fits].copy_from_slice(&flat[..fits]);
    }
    if short {
        return Err(13);
    }
    if fault == Fault::ClearsTheListsTail {
        list[fits..].fill(0);
    }
    Ok(())
}

/// Sets the samples that are marked, and counts them.
fn filled(fault: Fault, fill: Option<u16>, map: &[u8], width: usize, samples: &mut [u16]) -> usize {
    let fill = if fault == Fault::FillZero { fill.map(|_| 0) } else { fill };
    let fill = if fault == Fault::ZeroUnstated { fill.or(Some(0)) } else { fill };
    let old = samples.to_vec();
    let mut count = 0;
    for (i, byte) in map.iter().enumerate() {
        let marked = if fault == Fault::FillerLeft { byte & 1 != 0 } else { *byte != 0 };
        if marked != (fault == Fault::FillsTheUnmarked) {
            let fill = fill.unwrap_or_else(|| nearest(fault, &old, samples, map, width, i));
            count += usize::from(fault != Fault::LeavesTheFillOut || old[i] != fill);
            samples[i] = fill;
        }
    }
    if fault == Fault::ClearsTheSamplesTail {
        samples[map.len()..].fill(0);
    }
    count
}

/// The plain loop: the tests in their sequence, then each sample, and its run.
fn blanked(fault: Fault, fill: Option<u16>, map: &[u8], width: usize, height: usize, lent: &mut Lent) -> Told {
    let refused = |number| {
        let count = if fault == Fault::CountWhereRefused { 1 } else { 0 };
        Told { number, count, ..Told::default() }
    };
    if let Some(number) = early(map, width, height, lent.samples.len()) {
        return refused(number);
    }
    let n = width * height;
    let bad = has_other_bytes(fault, map, n);
    let runs = runs_of(fault, &map[..n], width);
    if let Err(number) = listed(fault, &runs.concat(), bad, &mut lent.runs) {
        return refused(number);
    }
    let count = filled(fault, fill, &map[..n], width, &mut lent.samples);
    let count = if fault == Fault::CountsRuns { runs.len() } else { count };
    Told { number: 0, count, runs: runs.len(), length: 0 }
}

/// The plain export: the plain loop, and then the plain writer.
fn exported(fault: Fault, map: &[u8], width: usize, height: usize, lent: &mut Lent) -> Told {
    let old = lent.samples.clone();
    let fill = if fault == Fault::ExportsUnstated { None } else { Some(0) };
    let told = blanked(fault, fill, map, width, height, lent);
    if told.number != 0 {
        return told;
    }
    let frame = if fault == Fault::ExportsUnblanked { &old } else { &lent.samples };
    if frame[..width * height].iter().any(|&sample| sample > 16_383) {
        let length = usize::from(fault == Fault::LengthWhereRefused);
        return Told { number: 9, count: if fault == Fault::NoCountAtNine { 0 } else { told.count }, length, ..told };
    }
    let (stream, offsets) = written(frame, width, height);
    if lent.stream.len() < stream.len() || lent.offsets.len() < offsets.len() {
        return Told { number: 10, ..told };
    }
    lent.stream[..stream.len()].copy_from_slice(&stream);
    lent.offsets[..offsets.len()].copy_from_slice(&offsets);
    Told { length: stream.len(), ..told }
}

/// The plain loops, with a fault.
pub fn faulty(fault: Fault) -> impl Fn(Ask, &[u8], usize, usize, &mut Lent) -> Told {
    move |ask, map, width, height, lent| match ask {
        Ask::Fill(fill) => blanked(fault, Some(fill), map, width, height, lent),
        Ask::NoFill => blanked(fault, None, map, width, height, lent),
        Ask::Export => exported(fault, map, width, height, lent),
    }
}

/// The plain loop, for timing.
pub fn plain(
    samples: &mut [u16],
    map: &[u8],
    width: usize,
    height: usize,
    fill: u16,
    runs: &mut [u32],
) -> (usize, usize) {
    let n = width * height;
    assert!(samples.len() >= n && map.len() >= n && map[..n].iter().all(|&byte| byte <= 3));
    let mut wanted = 0;
    for marks in map[..n].chunks(width) {
        let mut before = 0;
        for &byte in marks {
            wanted += usize::from(before == 0 && byte != 0);
            before = byte;
        }
    }
    assert!(runs.len() >= 3 * wanted);
    let (mut at, mut count) = (0, 0);
    for (row, (samples, marks)) in samples[..n].chunks_mut(width).zip(map.chunks(width)).enumerate() {
        let mut column = 0;
        while column < width {
            if marks[column] == 0 {
                column += 1;
                continue;
            }
            let first = column;
            while column < width && marks[column] != 0 {
                samples[column] = fill;
                column += 1;
            }
            runs[at..at + 3].copy_from_slice(&[row as u32, first as u32, (column - first) as u32]);
            at += 3;
            count += column - first;
        }
    }
    (count, at / 3)
}

/// What was compared.
#[derive(Debug, Default)]
pub struct Seen {
    pub seed: u64,
    pub frames: u64,
    /// Frames that were decoded, and maps that were made up: all 0, all of one byte, in turn, random, few.
    pub kinds: [u64; 6],
    pub calls: u64,
    /// How many calls got number 0 to 14.
    pub numbers: [u64; 15],
    pub marked: u64,
    pub runs: u64,
}

impl fmt::Display for Seen {
    fn fmt(&self, f: &mut fmt::Formatter<'_>) -> fmt::Result {
        let Seen { seed, frames, kinds, calls, numbers, marked, runs } = self;
        writeln!(f, "blank, seed {seed}: decoded, and maps all 0, all of a byte, in turn, random, few: {kinds:?}")?;
        writeln!(f, "blank: {calls} calls, answers 0 to 14: {numbers:?}, {marked} samples set in {runs} runs")?;
        write!(f, "blank: {frames} frames equal to the plain loop's")
    }
}

/// A frame with its map: decoded over random samples, or random samples with a map that is made up.
fn framed(random: &mut Random, i: u64, seen: &mut Seen) -> (Vec<u16>, Vec<u8>, usize, usize) {
    let (width, height) = size(random, i);
    let n = width * height;
    let more = random.index(3);
    let mut samples = random.samples(n + more);
    let mut map = vec![0; n + random.index(3)];
    let kind = i as usize % 6;
    match kind {
        0 => {
            let frame = any(random, width, height);
            razvolk::decode_v0_reference_map(&frame.stream, &frame.offsets, width, height, &mut samples, &mut map)
                .expect("V0 is never refused where buffers are long enough");
        }
        1 => {}
        2 => map.fill(1 + random.below(3) as u8),
        3 => (0..).zip(&mut map).for_each(|(i, byte)| *byte = [0, 1, 0, 2, 3][i % 5]),
        4 => map.iter_mut().for_each(|byte| *byte = random.below(4) as u8),
        _ => map.iter_mut().for_each(|byte| *byte = if random.once_in(20) { 1 + random.below(3) as u8 } else { 0 }),
    }
    if random.once_in(2) {
        samples.iter_mut().for_each(|sample| *sample >>= 2);
    }
    seen.kinds[kind] += 1;
    (samples, map, width, height)
}

/// Compares one call.
fn called(
    blank: Blank,
    ask: Ask,
    map: &[u8],
    (width, height): (usize, usize),
    lent: &Lent,
    seen: &mut Seen,
) -> Result<Told, Difference> {
    let (mut found, mut expected) = (lent.clone(), lent.clone());
    let told = blank(ask, map, width, height, &mut found);
    let plain = faulty(Fault::None)(ask, map, width, height, &mut expected);
    seen.calls += 1;
    seen.numbers[plain.number as usize] += 1;
    seen.marked += plain.count as u64;
    seen.runs += plain.runs as u64;
    let fault = |what: String| {
        let (list, seed) = (lent.runs.len(), seen.seed);
        Difference(format!("blank, seed {seed}: {ask:?}, {width} by {height}, a list of {list}: {what}"))
    };
    if told != plain {
        return Err(fault(format!("{told:?}, expected {plain:?}")));
    }
    let parts = [
        first_difference(&found.samples, &expected.samples).map(|what| format!("samples {what}")),
        first_difference(&found.runs, &expected.runs).map(|what| format!("runs {what}")),
        first_difference(&found.stream, &expected.stream).map(|what| format!("stream {what}")),
        first_difference(&found.offsets, &expected.offsets).map(|what| format!("offsets {what}")),
    ];
    parts.into_iter().flatten().next().map_or(Ok(plain), |what| Err(fault(what)))
}

/// Compares so many frames: each with a stated fill, with none, and exported; with lists just long enough, one short and longer;
/// with a byte that no map has, at any place; and with too few samples and map bytes.
pub fn compare(blank: Blank, seed: u64, frames: u64) -> Result<Seen, Difference> {
    let mut random = Random::new(seed);
    let mut seen = Seen { seed, ..Seen::default() };
    for i in 0..frames {
        let (samples, mut map, width, height) = framed(&mut random, i, &mut seen);
        let (size, n) = ((width, height), width * height);
        let list = |len: usize, random: &mut Random| (0..len).map(|_| random.number() as u32).collect::<Vec<_>>();
        let most = list(3 * n.min(16_384 * 8), &mut random);
        let bytes = if random.once_in(4) { random.index(40) } else { razvolk::most_v0_bytes(width, height) };
        let stream = random.bytes(bytes);
        let rows = (height + 1).saturating_sub(random.index(8).saturating_sub(5));
        let offsets = list(rows, &mut random);
        let mut lent = Lent { samples, runs: most, stream, offsets };
        let fill = if random.once_in(4) { lent.samples.first().copied().unwrap_or(0) } else { random.number() as u16 };
        let told = called(blank, Ask::Fill(fill), &map, size, &lent, &mut seen)?;
        let short = random.below(3);
        lent.runs.truncate(3 * told.runs);
        called(blank, Ask::NoFill, &map, size, &lent, &mut seen)?;
        called(blank, Ask::Export, &map, size, &lent, &mut seen)?;
        if told.runs > 0 {
            lent.runs.pop();
            called(blank, [Ask::Fill(fill), Ask::NoFill, Ask::Export][short as usize], &map, size, &lent, &mut seen)?;
        }
        if n > 0 {
            let at = random.index(map.len());
            map[at] = if random.once_in(2) { 4 } else { 4 + random.below(252) as u8 };
            called(blank, [Ask::Fill(fill), Ask::NoFill, Ask::Export][short as usize], &map, size, &lent, &mut seen)?;
            if random.once_in(4) {
                called(blank, Ask::NoFill, &map[..n - 1], size, &lent, &mut seen)?;
                lent.samples.truncate(n - 1);
                called(blank, Ask::Export, &map, size, &lent, &mut seen)?;
                called(blank, Ask::Fill(fill), &map, (16_385, height), &lent, &mut seen)?;
            }
        }
        seen.frames += 1;
    }
    Ok(seen)
}
