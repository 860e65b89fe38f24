//! Lists of calls on one buffer: whatever came before, two last calls that are alike give the same answer, the same marks, and
//! the same samples where the mark is 0; in V0 a sample marked 1 is the old value at one position plus an amount, and both are
//! set by stream, offsets and size alone.

use crate::bands::Cut;
use crate::call::{Answer, Ask, Decoder, Difference, Entry, Lent, NUMBERS};
use crate::v0::compare::{both_parts, marks, rust};
use crate::v2::compare::RUST_LEAST;
use crate::v2::crops::any_size;
use crate::v2::model;
use std::fmt;
use streams::random::Random;
use streams::v2::any::{Planted, Style, written};
use streams::{Frame, v0};

/// The samples of the one buffer: enough for the least V2 frame of a camera, and some more.
const SAMPLES: usize = 646 * 436 + 50;

/// What was compared.
#[derive(Debug, Default)]
pub struct Seen {
    pub seed: u64,
    pub pairs: u64,
    pub calls: u64,
    /// How many calls got number 0 to 12, in the lists' histories and as the last.
    pub before: [u64; NUMBERS],
    pub last: [u64; NUMBERS],
    /// Samples compared, those of V0 that are marked 1, and pairs in which only one of the last two was lent a map.
    pub samples: u64,
    pub origins: u64,
    pub mixed: u64,
}

impl fmt::Display for Seen {
    fn fmt(&self, f: &mut fmt::Formatter<'_>) -> fmt::Result {
        let Seen { seed, pairs, calls, before, last, samples, origins, mixed } = self;
        writeln!(
            f,
            "lists, seed {seed}: {calls} calls; answers 0 to 12 before the last: {before:?}, of the last: {last:?}"
        )?;
        writeln!(f, "lists: {samples} samples, {origins} of them the old value at a position plus an amount")?;
        write!(
            f,
            "lists: {pairs} pairs of lists ({mixed} with a map lent to one), no earlier frame in a sample without an old part"
        )
    }
}

/// What a call asks for.
#[derive(Clone)]
enum Asked {
    V0(Frame),
    V2(usize),
}

/// A call to come: an entry by number, how the frame is cut for one in bands, and what is lent.
#[derive(Clone)]
struct Coming {
    entry: usize,
    asked: Asked,
    cut: Cut,
    samples: usize,
    map: usize,
    scratch: usize,
}

/// Streams of V2 to draw from, a camera's and crops, with their marks; the last one has no rows.
struct Pool(Vec<(Frame, Vec<u8>)>);

impl Pool {
    fn new(random: &mut Random) -> Pool {
        let mut streams = Vec::new();
        for i in 0..32 {
            let style = Style::any(random, (i + i / 4) % 16);
            let (width, height) = if i % 8 < 4 { RUST_LEAST } else { any_size(random) };
            let row = random.index(height);
            let (number, at) = [(5, row % 2), (6, 2), (7, row)][i as usize / 4 % 3];
            let planted = (i % 4 == 3).then_some(Planted { number, row: at, block: 0 });
            let whole = written(random, &style, width, height, planted);
            streams.push(if i % 4 == 1 { whole.cut_in_row(random, row) } else { whole });
        }
        let none = Frame { height: 0, ..streams[0].clone() };
        streams.push(none);
        let marks = |frame: &Frame| model::marked(model::Fault::None, &Ask::of(frame), &mut [0; SAMPLES]).1;
        Pool(streams.into_iter().map(|frame| (frame.clone(), marks(&frame))).collect())
    }

    fn ask<'a>(&'a self, coming: &'a Coming) -> Ask<'a> {
        Ask { cut: &coming.cut, ..self.uncut(&coming.asked) }
    }

    fn uncut<'a>(&'a self, asked: &'a Asked) -> Ask<'a> {
        match asked {
            Asked::V0(frame) => Ask::of(frame),
            Asked::V2(i) => Ask::of(&self.0[*i].0),
        }
    }
}

/// A frame for an entry's decoder: small ones of V0, now and then a larger one.
fn asked(random: &mut Random, decoder: Decoder, pool: &Pool) -> Asked {
    if decoder == Decoder::V2 {
        return Asked::V2(random.index(pool.0.len() - 1));
    }
    let (width, height) = match random.below(20) {
        0 => (random.index(600), random.index(400)),
        1..=4 => (random.index(200), random.index(30)),
        _ => (random.index(41), random.index(9)),
    };
    Asked::V0(v0::any(random, width, height))
}

/// A call with buffers that are long enough, for the whole buffer or a part of it.
fn good(random: &mut Random, entries: &[Entry], entry: usize, pool: &Pool) -> Coming {
    let asked = asked(random, entries[entry].decoder, pool);
    let ask = pool.uncut(&asked);
    let cut = Cut::fitting(entries[entry].decoder, random, ask.width, ask.height);
    let (n, scratch) = (ask.n(), razvolk::scratch_len(ask.width, ask.height));
    let samples = if random.below(2) == 0 { SAMPLES } else { n + random.index(SAMPLES - n + 1) };
    Coming { entry, samples, map: n + random.index(9), scratch: scratch + random.index(9), asked, cut }
}

/// A call of a list's history, refused ones among them.
fn any(random: &mut Random, entries: &[Entry], pool: &Pool) -> Coming {
    let entry = random.index(entries.len());
    let mut coming = good(random, entries, entry, pool);
    if random.once_in(6) {
        let Ask { width, height, .. } = pool.uncut(&coming.asked);
        let n = width * height;
        match random.below(4) {
            _ if entries[entry].decoder == Decoder::Bands && random.below(2) == 0 => {
                coming.cut = coming.cut.any_broken(random, width, height).1;
            }
            0 => coming.samples = n.saturating_sub(1),
            1 => coming.map = n.saturating_sub(1),
            2 => coming.scratch = 0,
            _ => match &mut coming.asked {
                Asked::V0(frame) => frame.width = 16_385,
                Asked::V2(i) => *i = pool.0.len() - 1,
            },
        }
    }
    coming
}

/// What a call found, answered and left.
struct Returned {
    found: Vec<u16>,
    answer: Answer,
    samples: Vec<u16>,
    map: Vec<u8>,
}

fn call(entries: &[Entry], coming: &Coming, buffer: &mut [u16], random: &mut Random, pool: &Pool) -> (Answer, Vec<u8>) {
    let (mut map, mut scratch) = (random.bytes(coming.map), random.bytes(coming.scratch));
    let mut lent = Lent { samples: &mut buffer[..coming.samples], map: &mut map, scratch: &mut scratch };
    (entries[coming.entry].call(&pool.ask(coming), &mut lent), map)
}

/// A list: a fresh buffer of any content, up to seven calls, and the last one.
fn list(
    entries: &[Entry],
    last: &Coming,
    random: &mut Random,
    pool: &Pool,
    seen: &mut Seen,
) -> Result<Returned, String> {
    let mut buffer = random.samples(SAMPLES);
    for _ in 0..random.below(8) {
        let coming = any(random, entries, pool);
        let (answer, _) = call(entries, &coming, &mut buffer, random, pool);
        seen.calls += 1;
        *seen.before.get_mut(answer.number as usize).ok_or(format!("answer {answer}"))? += 1;
    }
    let found = buffer.clone();
    let (answer, map) = call(entries, last, &mut buffer, random, pool);
    seen.calls += 1;
    *seen.last.get_mut(answer.number as usize).ok_or(format!("answer {answer}"))? += 1;
    Ok(Returned { found, answer, samples: buffer, map })
}

/// The rules' marks of a frame, and in V0 the position and amount of each sample.
struct Rules {
    marks: Vec<u8>,
    origins: Vec<(usize, u16)>,
}

/// V0's are found by runs of samsung.rs over chosen old values: zeros give the amounts, ones the old parts of the marks, and each
/// sample's own place, in two parts of 16 bits, the positions. The filler parts are those of the decoder of its own.
fn rules(asked: &Asked, pool: &Pool) -> Result<Rules, String> {
    let frame = match asked {
        Asked::V2(i) => return Ok(Rules { marks: pool.0[*i].1.clone(), origins: Vec::new() }),
        Asked::V0(frame) => frame,
    };
    let n = frame.samples();
    let run = |old: &dyn Fn(usize) -> u16| rust(frame, &(0..n).map(old).collect::<Vec<u16>>());
    let (zeros, ones) = (run(&|_| 0), run(&|_| 1));
    let marks = both_parts(frame, &vec![0; n], &zeros, &marks(n, &zeros, &ones)?)?;
    let (low, high) = (run(&|i| i as u16), run(&|i| (i >> 16) as u16));
    let part = |run: &[u16], i: usize| usize::from(run[i].wrapping_sub(zeros[i]));
    let origins = (0..n).map(|i| (part(&low, i) | part(&high, i) << 16, zeros[i])).collect();
    Ok(Rules { marks, origins })
}

/// Compares one pair.
fn pair(entries: &[Entry], random: &mut Random, pool: &Pool, seen: &mut Seen) -> Result<(), String> {
    let entry = random.index(entries.len());
    let decoder = entries[entry].decoder;
    let one = good(random, entries, entry, pool);
    // The other last call is of the same decoder, with or without a map.
    let same: Vec<usize> = (0..entries.len()).filter(|&e| entries[e].decoder == decoder).collect();
    let mut other = Coming { entry: same[random.index(same.len())], ..one.clone() };
    // One in bands may take another list: that makes no difference, either.
    let Ask { width, height, .. } = pool.uncut(&one.asked);
    other.cut = Cut::fitting(decoder, random, width, height);
    seen.mixed += u64::from(entries[one.entry].map != entries[other.entry].map);
    let returned = [list(entries, &one, random, pool, seen)?, list(entries, &other, random, pool, seen)?];
    let name = entries[one.entry].name;
    if returned[0].answer != returned[1].answer || !returned[0].answer.is_decoded() {
        return Err(format!("{name}: answers {} and {}", returned[0].answer, returned[1].answer));
    }
    let Rules { marks, origins } = rules(&one.asked, pool)?;
    for (coming, after) in [&one, &other].into_iter().zip(&returned) {
        if entries[coming.entry].map && after.map[..marks.len()] != marks {
            return Err(format!("{name}: the map is not the rules'"));
        }
        for (i, &(position, amount)) in origins.iter().enumerate().filter(|&(i, _)| marks[i] & 1 == 1) {
            if position >= marks.len() || after.samples[i] != after.found[position].wrapping_add(amount) {
                return Err(format!("{name}: sample {i} is not the old value at {position} plus {amount}"));
            }
            seen.origins += 1;
        }
        if after.samples[marks.len()..] != after.found[marks.len()..] {
            return Err(format!("{name}: a sample past the frame has changed"));
        }
    }
    let new = |i: usize| marks[i] & 1 == 0 && returned[0].samples[i] != returned[1].samples[i];
    if let Some(i) = (0..marks.len()).find(|&i| new(i)) {
        return Err(format!("{name}: sample {i} has no old part, and differs"));
    }
    seen.samples += marks.len() as u64;
    seen.pairs += 1;
    Ok(())
}

/// Compares `pairs` pairs of lists, up to the first that breaks the claim.
pub fn compare(entries: &[Entry], seed: u64, pairs: u64) -> Result<Seen, Difference> {
    let mut random = Random::new(seed);
    let mut seen = Seen { seed, ..Seen::default() };
    let pool = Pool::new(&mut random);
    while seen.pairs < pairs {
        pair(entries, &mut random, &pool, &mut seen)
            .map_err(|what| Difference(format!("lists, seed {seed}, pair {}: {what}", seen.pairs)))?;
    }
    Ok(seen)
}
