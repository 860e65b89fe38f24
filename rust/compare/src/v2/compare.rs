//! V2's entries against samsung.rs, or where it refuses the size against the rules: the refusal's number, its row, samples over the
//! whole buffer, and marks.

use super::model::{self, Fault, Used};
use crate::call::{Answer, Ask, Difference, Entry, Lent, NUMBERS, first_difference};
use reference::Error;
use std::fmt;
use streams::Frame;
use streams::random::Random;
use streams::v2::any::{Planted, Scale, Style, written};

/// The least width and height that samsung.rs takes. Razvolk takes smaller ones.
pub const RUST_LEAST: (usize, usize) = (646, 436);

/// Whether samsung.rs takes frames of this size.
pub fn rust_takes(width: usize, height: usize) -> bool {
    width >= RUST_LEAST.0 && height >= RUST_LEAST.1
}

/// What was compared.
#[derive(Debug, Default)]
pub struct Seen {
    pub name: &'static str,
    /// What decides.
    pub with: &'static str,
    pub seed: u64,
    pub streams: u64,
    pub calls: u64,
    pub samples: u64,
    /// How many calls got number 0 to 12, how many were done or refused after row 2, and how many samples had an old part, of
    /// those that were written or not.
    pub numbers: [u64; NUMBERS],
    pub deep: u64,
    pub marked: u64,
    /// How many words were missing, and how many samples have a filler part.
    pub missing: u64,
    pub filled: u64,
    /// How often each row was the one in which the stream ended.
    pub ends: Vec<u64>,
    pub used: Used,
}

impl fmt::Display for Seen {
    fn fmt(&self, f: &mut fmt::Formatter<'_>) -> fmt::Result {
        let Seen { name, with, seed, streams, calls, samples, numbers, deep, marked, missing, filled, ends, used } =
            self;
        writeln!(f, "{name}, seed {seed}: {streams} streams, {calls} calls, {samples} samples, {marked} of them old")?;
        let rows = ends.iter().filter(|&&n| n > 0).count();
        writeln!(f, "{name}: answers 0 to 12: {numbers:?}; done or refused after row 2: {deep}")?;
        writeln!(f, "{name}: ends in {rows} rows, {missing} words missing, {filled} samples of filler")?;
        let Used { motions, flags, none, scales, held } = used;
        writeln!(f, "{name}: motions 0 to 7: {motions:?}, flags 0 to 3: {flags:?}, blocks without lengths: {none}")?;
        writeln!(f, "{name}: scales from {} to {}, samples held to 0 and to the top: {held:?}", scales[0], scales[1])?;
        write!(f, "{name}: {calls} calls compared with {with}, no difference")
    }
}

/// What samsung.rs answers and leaves over old values; it tells a row only with 8, and of no missing words.
pub fn rust(frame: &Frame, old: &[u16]) -> (Answer, Vec<u16>) {
    let mut out = old.to_vec();
    let answer = match reference::decode_v2(&frame.stream, frame.width, frame.height, &mut out) {
        Ok(()) => Answer::DONE,
        Err(Error::InvalidArgument(_)) => Answer::refused(3),
        Err(Error::CorruptFile { what, .. }) => refusal(&what),
        Err(other) => panic!("samsung.rs answers {other:?}"),
    };
    (answer, out)
}

/// The number and row of samsung.rs's text.
fn refusal(what: &str) -> Answer {
    let parts = [("too small", 2), ("on the first rows", 5), ("out of range", 6), ("invalid difference length", 7)];
    if let Some((_, number)) = parts.into_iter().find(|(part, _)| what.contains(part)) {
        return Answer::refused(number);
    }
    let row = what.split("truncated data at row ").nth(1).and_then(|rest| rest.split('/').next());
    match row.and_then(|row| row.parse().ok()) {
        Some(row) => Answer { row, ..Answer::refused(8) },
        None => panic!("samsung.rs says: {what}"),
    }
}

/// What decides over old values: samsung.rs, or where it refuses the size the decoder of its own, which is written from the rules.
pub fn decided(frame: &Frame, old: &[u16]) -> (Answer, Vec<u16>) {
    if rust_takes(frame.width, frame.height) {
        return rust(frame, old);
    }
    let mut own = old.to_vec();
    let (answer, _, _) = model::marked(Fault::None, &Ask::of(frame), &mut own);
    (answer, own)
}

/// What a stream must come to over old values.
struct Expected {
    answer: Answer,
    samples: Vec<u16>,
    marks: Vec<u8>,
    used: Used,
}

/// The number and samples are those of what decides. The rows of 5 to 7, the count of missing words and the marks are those of the
/// decoder of its own, which must give samsung.rs's number and samples where it takes the size, and whose samples without an old part
/// must be the same over other old values.
fn expected(frame: &Frame, old: &[u16], other: &[u16]) -> Result<Expected, String> {
    let (told, samples) = decided(frame, old);
    let mut own = old.to_vec();
    let (answer, marks, used) = model::marked(Fault::None, &Ask::of(frame), &mut own);
    if answer.number != told.number || told.number == 8 && answer.row != told.row {
        return Err(format!("the decoder of its own answers {answer}, expected {told}"));
    }
    if let Some(what) = first_difference(&own, &samples) {
        return Err(format!("the decoder of its own, samples: {what}"));
    }
    // A frame of the largest size has half a gigabyte of samples.
    drop(own);
    let (_, over_other) = decided(frame, other);
    let n = marks.len();
    if let Some(i) = (0..n).find(|&i| marks[i] & 1 == 0 && over_other[i] != samples[i]) {
        return Err(format!(
            "sample {i} has no old part, and is {} or {} by its old values",
            samples[i], over_other[i]
        ));
    }
    let unwritten = |i: usize| i % frame.width >= frame.width / 16 * 16;
    if let Some(i) = (0..n).find(|&i| unwritten(i) && marks[i] != 1) {
        return Err(format!("sample {i} is not written, and not marked 1"));
    }
    Ok(Expected { answer, samples, marks, used })
}

/// Compares one frame through every entry; the buffers may be longer than the frame, and hold anything.
pub fn frame(entries: &[Entry], frame: &Frame, random: &mut Random, seen: &mut Seen) -> Result<(), String> {
    let n = frame.samples();
    let more = [random.index(40), random.index(40)];
    let old = random.samples(n + more[0]);
    let expected = expected(frame, &old, &random.samples(n))?;
    for entry in entries {
        let (mut samples, map) = (old.clone(), random.bytes(n + more[1]));
        let mut new_map = map.clone();
        let mut lent = Lent { samples: &mut samples, map: &mut new_map, scratch: &mut [] };
        let answer = entry.call(&Ask::of(frame), &mut lent);
        if answer != expected.answer {
            return Err(format!("{}: answer {answer}, expected {}", entry.name, expected.answer));
        }
        let marks = if entry.map { &expected.marks[..] } else { &[] };
        let wrong = first_difference(&samples, &expected.samples)
            .map(|what| ("samples", what))
            .or_else(|| first_difference(&new_map, &[marks, &map[marks.len()..]].concat()).map(|what| ("map", what)));
        if let Some((buffer, what)) = wrong {
            return Err(format!("{}, answer {answer}, {buffer} of {n} in the frame: {what}", entry.name));
        }
    }
    seen.note(n, &expected);
    Ok(())
}

impl Seen {
    fn note(&mut self, n: usize, expected: &Expected) {
        let answer = expected.answer;
        self.calls += 1;
        self.samples += n as u64;
        self.numbers[answer.number as usize] += 1;
        self.deep += u64::from(answer == Answer::DONE || answer.row > 2);
        let having = |part: u8| expected.marks.iter().filter(|&&mark| mark & part != 0).count() as u64;
        self.marked += having(1);
        self.filled += having(2);
        self.missing += answer.filler;
        self.used.add(&expected.used);
        if answer.number == 8 {
            self.ends.resize(self.ends.len().max(answer.row as usize + 1), 0);
            self.ends[answer.row as usize] += 1;
        }
    }
}

/// The size of stream number `i`: mostly just above the least; now and then as wide, as high or as large as can be.
pub fn size(random: &mut Random, i: u64) -> (usize, usize) {
    match i {
        40 | 41 => (16_384, 436),
        200 => (646, 16_384),
        600 => (6_496, 4_336),
        _ if i % 500 == 300 => (646 + random.index(15_739), 436),
        _ => (646 + random.index(30), 436 + random.index(4)),
    }
}

/// The style of stream number `i`; the two widest take the scale to its ends.
fn style(random: &mut Random, i: u64) -> Style {
    let mut style = Style::any(random, ((i + i / 4) % 16) as u32);
    if let 40 | 41 = i {
        style.header.options &= !4;
        style.scale = if i == 40 { Scale::Rises } else { Scale::Sinks };
    }
    style
}

/// A refusal to meet in every fourth stream.
fn planted(random: &mut Random, i: u64, width: usize, height: usize) -> Option<Planted> {
    let block = random.index(width / 16);
    Some(match i % 12 {
        3 => Planted { number: 5, row: random.index(2), block },
        7 => Planted { number: 6, row: 2, block: 0 },
        11 => Planted { number: 7, row: random.index(height), block },
        _ => return None,
    })
}

/// Compares `calls` streams with samsung.rs: written ones with every value of the options in turn, and of each some that are broken
/// off or damaged; of every hundredth, one broken off in each row.
pub fn compare(entries: &[Entry], seed: u64, calls: u64) -> Result<Seen, Difference> {
    let seen = Seen { name: "V2", with: "samsung.rs", seed, ..Seen::default() };
    compared(entries, seen, calls, size, style)
}

/// Compares `calls` streams of these sizes and styles, by the stream's number.
pub fn compared(
    entries: &[Entry],
    mut seen: Seen,
    calls: u64,
    size: fn(&mut Random, u64) -> (usize, usize),
    style: fn(&mut Random, u64) -> Style,
) -> Result<Seen, Difference> {
    let (name, seed) = (seen.name, seen.seed);
    let mut random = Random::new(seed);
    while seen.calls < calls {
        let i = seen.streams;
        seen.streams += 1;
        let (width, height) = size(&mut random, i);
        let style = style(&mut random, i);
        let planted = planted(&mut random, i, width, height);
        let whole = written(&mut random, &style, width, height, planted);
        for change in changes(&mut random, i, &whole).into_iter().take((calls - seen.calls) as usize) {
            let one = match change {
                Change::None => whole.clone(),
                Change::Cut(row) => whole.cut_in_row(&mut random, row),
                Change::Damage(row) => whole.damaged_in_row(&mut random, row),
                Change::Header => whole.cut(random.index(16)),
            };
            frame(entries, &one, &mut random, &mut seen).map_err(|what| {
                let stream = format!("stream {i}, {width} by {height}, {style:?}, {planted:?}, {change:?}");
                Difference(format!("{name}, seed {seed}, {stream}: {what}"))
            })?;
        }
    }
    Ok(seen)
}

/// What is done to a stream, in a row or in the header.
#[derive(Clone, Copy, Debug)]
enum Change {
    None,
    Cut(usize),
    Damage(usize),
    Header,
}

fn changes(random: &mut Random, i: u64, whole: &Frame) -> Vec<Change> {
    let height = whole.height;
    let mut changes = vec![Change::None];
    match i % 100 {
        50 => changes.extend((0..height).map(Change::Cut)),
        // Large frames take long.
        _ if whole.width * height > 500_000 => {}
        _ => {
            changes.extend((0..4).map(|_| Change::Cut(random.index(height))));
            changes.push(Change::Damage(random.index(height)));
            changes.extend((!rust_takes(whole.width, height)).then_some(Change::Header));
        }
    }
    changes
}
