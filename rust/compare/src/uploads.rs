//! What a cut upload shows is final: where decoding a stream leaves map byte 0, decoding it with anything appended leaves byte 0
//! and the same sample, over the same old samples. Here the rest of the stream is appended, or other bytes, or both in turn.

use crate::call::{Ask, Difference, Entry, Lent};
use crate::v2::crops::v2_size;
use std::fmt;
use streams::random::Random;
use streams::v2::any::{Style, written};
use streams::{Frame, Version, v0};

/// What was compared.
#[derive(Debug, Default)]
pub struct Seen {
    pub seed: u64,
    /// Pairs of a cut stream and a longer one, of V0 and of V2.
    pub pairs: [u64; 2],
    /// How many of their samples had byte 0 already in the cut stream, how many only in the longer one.
    pub shown: u64,
    pub gained: u64,
    /// In how many rows of a V2 frame a stream was cut.
    pub rows: usize,
}

impl fmt::Display for Seen {
    fn fmt(&self, f: &mut fmt::Formatter<'_>) -> fmt::Result {
        let Seen { seed, pairs, shown, gained, rows } = self;
        writeln!(
            f,
            "uploads, seed {seed}: {} pairs of V0, {} of V2, which was cut in {rows} rows",
            pairs[0], pairs[1]
        )?;
        writeln!(f, "uploads: {shown} samples with byte 0 in the cut stream, {gained} more in the longer one")?;
        write!(f, "uploads: what {} cut streams show is final", pairs[0] + pairs[1])
    }
}

/// What an entry leaves of old samples: samples and map.
fn left(entry: &Entry, frame: &Frame, src: &[u8], old: &[u16]) -> (Vec<u16>, Vec<u8>) {
    let (mut samples, mut map) = (old.to_vec(), vec![9; frame.samples()]);
    let mut lent = Lent { samples: &mut samples, map: &mut map, scratch: &mut [] };
    entry.call(&Ask { src, ..Ask::of(frame) }, &mut lent);
    (samples, map)
}

/// A frame's stream cut after so many bytes, against longer ones: the whole, and one that goes on otherwise.
fn cut(
    entry: &Entry,
    frame: &Frame,
    len: usize,
    old: &[u16],
    random: &mut Random,
    seen: &mut Seen,
) -> Result<(), String> {
    let (samples, map) = left(entry, frame, &frame.stream[..len], old);
    let more = 1 + random.index(60);
    let other = [&frame.stream[..len], &random.bytes(more)].concat();
    let longer = if random.below(2) == 0 { &frame.stream } else { &other };
    let (later, later_map) = left(entry, frame, longer, old);
    for i in (0..frame.samples()).filter(|&i| map[i] == 0) {
        if later_map[i] != 0 || later[i] != samples[i] {
            let (now, then) = ((samples[i], map[i]), (later[i], later_map[i]));
            return Err(format!("{}: sample {i} and its byte are {now:?}, with more bytes {then:?}", entry.name));
        }
    }
    let clean = |map: &[u8]| map.iter().filter(|&&byte| byte == 0).count() as u64;
    seen.pairs[usize::from(frame.version == Version::V2)] += 1;
    seen.shown += clean(&map);
    seen.gained += clean(&later_map) - clean(&map);
    Ok(())
}

/// V0 through the entries that have a map: every second frame is small and cut after every byte, the others are larger and cut
/// anywhere. Rows of an image may lie past the end, and so may any offset.
fn of_v0(entries: &[Entry], i: u64, random: &mut Random, seen: &mut Seen) -> Result<(), String> {
    let small = i.is_multiple_of(2);
    let (most_width, most_height) = if small { (36, 6) } else { (300, 120) };
    let (width, height) = (random.index(most_width), random.index(most_height));
    let mut whole = v0::any(random, width, height);
    if i % 4 > 1 && height > 0 {
        let row = random.index(height);
        whole.offsets[row] = (whole.stream.len() + random.index(9)) as u32;
    }
    let old = random.samples(width * height);
    let len = whole.stream.len();
    let lens: Vec<usize> = if small { (0..=len).collect() } else { (0..8).map(|_| random.index(len + 1)).collect() };
    for entry in entries {
        lens.iter().try_for_each(|&len| {
            cut(entry, &whole, len, &old, random, seen)
                .map_err(|what| format!("{width} by {height}, {len} bytes: {what}"))
        })?;
    }
    Ok(())
}

/// V2 of a size, cut in every row.
fn of_v2(
    entries: &[Entry],
    (width, height): (usize, usize),
    random: &mut Random,
    seen: &mut Seen,
) -> Result<(), String> {
    let options = random.below(16) as u32;
    let style = Style::any(random, options);
    let whole = written(random, &style, width, height, None);
    let old = random.samples(whole.samples());
    for entry in entries {
        for row in 0..whole.height {
            let bytes = whole.row(row);
            let len = bytes.start + random.index(bytes.len());
            cut(entry, &whole, len, &old, random, seen).map_err(|what| format!("V2, {style:?}, row {row}: {what}"))?;
        }
    }
    seen.rows = seen.rows.max(whole.height);
    Ok(())
}

/// Cuts `frames` frames of V0, and in every row for every eighth a crop of V2, for every sixty-fourth a larger frame.
pub fn compare(v0: &[Entry], v2: &[Entry], seed: u64, frames: u64) -> Result<Seen, Difference> {
    let mut random = Random::new(seed);
    let mut seen = Seen { seed, ..Seen::default() };
    for i in 0..frames {
        let differs = |what: String| Difference(format!("uploads, seed {seed}, frame {i}: {what}"));
        of_v0(v0, i, &mut random, &mut seen).map_err(differs)?;
        if let Some(size) = v2_size(&mut random, i).filter(|_| !v2.is_empty()) {
            of_v2(v2, size, &mut random, &mut seen).map_err(differs)?;
        }
    }
    Ok(seen)
}
