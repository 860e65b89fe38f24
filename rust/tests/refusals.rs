//! What each refusal of each call leaves. Every call is refused by every number that it gives; what its buffers hold before and
//! after is compared with what `Refusal::has_begun` tells, and with what the C header says of that call.

use razvolk::{Bands, Decoder, Refusal, scratch_len, write_v0_to_vecs};
use std::collections::BTreeMap;
use streams::bits::Writer;

/// The buffers that a call may be lent; each call takes those that it needs.
#[derive(Clone, PartialEq)]
struct Lent {
    samples: Vec<u16>,
    /// A map, or the scratch of the two-phase decoder.
    bytes: Vec<u8>,
    runs: Vec<u32>,
    stream: Vec<u8>,
    offsets: Vec<u32>,
}

/// Buffers that are long enough for every frame here, and hold what no call leaves there.
fn lent() -> Lent {
    Lent { samples: vec![7; 96], bytes: vec![9; 96], runs: vec![9; 96], stream: vec![9; 999], offsets: vec![9; 9] }
}

/// A call by the name of its export, or a method of the decoder that a worker keeps: the refusals that it was answered, and
/// whether a buffer was changed.
#[derive(Default)]
struct Tried(BTreeMap<(&'static str, u32), Vec<(Refusal, bool)>>);

impl Tried {
    /// Makes a call, which must be refused by this number.
    fn refused(
        &mut self,
        name: &'static str,
        number: u32,
        lent: Lent,
        call: impl FnOnce(&mut Lent) -> Option<Refusal>,
    ) {
        let mut after = lent.clone();
        let refusal = call(&mut after).unwrap_or_else(|| panic!("{name} is not refused by {number}"));
        assert_eq!(refusal.number(), number, "{name}");
        self.0.entry((name, number)).or_default().push((refusal, lent != after));
    }
}

/// A frame as it is coded in V0, and its size.
#[derive(Clone)]
struct V0 {
    stream: Vec<u8>,
    offsets: Vec<u32>,
    width: usize,
    height: usize,
}

impl V0 {
    /// One row of blocks that all read alike: their direction, and the first of their four lengths with its four residuals.
    fn row(direction: u32, length: u32, residual: u32, width: usize) -> V0 {
        let mut bits = Writer::default();
        for _ in 0..width.div_ceil(16) {
            bits.put(direction << 8 | 0xff, 9);
            bits.put(length << 12, 16);
            (0..4).for_each(|_| bits.put(residual, length));
        }
        V0 { stream: bits.finish(), offsets: vec![0], width, height: 1 }
    }

    /// All lengths 0: every sample is 128.
    fn flat() -> V0 {
        V0::row(0, 0, 0, 32)
    }

    /// A sample above 16,383.
    fn bright() -> V0 {
        V0::row(0, 15, 0x3fff, 32)
    }

    /// Row 0 looks up.
    fn upward() -> V0 {
        V0::row(1, 0, 0, 32)
    }

    /// A length of 17: of 7, ten times one more.
    fn long() -> V0 {
        let mut bits = Writer::default();
        for length in 8..18 {
            bits.put(0b0_01_00_00_00, 9);
            (0..4).for_each(|_| bits.put(0, length));
            (0..12).for_each(|_| bits.put(0, 7));
        }
        V0 { stream: bits.finish(), offsets: vec![0], width: 160, height: 1 }
    }

    /// Row 2 starts where the stream ends.
    fn cut() -> V0 {
        V0 { stream: vec![0x00, 0x00, 0x80, 0x7f], offsets: vec![0, 0, 4], width: 16, height: 3 }
    }

    fn sized(self, width: usize, height: usize) -> V0 {
        V0 { width, height, ..self }
    }
}

/// A V2 stream of whole blocks of 16 columns: the depth, the options, and the fields of each row, value and bits.
fn v2(depth: u32, options: u32, rows: &[&[(u32, u32)]]) -> Vec<u8> {
    let mut bits = Writer::default();
    let widths = [16, 4, 4, 8, 16, 16, 16, 4, 4, 16, 8, 2, 14];
    let values = [0, 0, depth - 1, 0, 0, 0, 0, 0, options, 0, 0, 0, 5];
    values.into_iter().zip(widths).for_each(|(value, width)| bits.put(value, width));
    for row in rows {
        bits.align(16);
        row.iter().for_each(|&(value, width)| bits.put(value, width));
    }
    bits.align(16);
    bits.finish()
}

/// Refusals that come before the stream is looked at, by size and buffers: each is a number, a size and what is lent.
fn plain(number: u32, width: usize, height: usize, change: fn(&mut Lent)) -> (u32, usize, usize, Lent) {
    let mut lent = lent();
    change(&mut lent);
    (number, width, height, lent)
}

fn too_large() -> (u32, usize, usize, Lent) {
    plain(1, 16_385, 1, |_| {})
}

fn short_samples() -> (u32, usize, usize, Lent) {
    plain(3, 32, 1, |lent| lent.samples.truncate(31))
}

fn short_map() -> (u32, usize, usize, Lent) {
    plain(4, 32, 1, |lent| lent.bytes.truncate(31))
}

fn direct(tried: &mut Tried) {
    for (number, width, height, lent) in [too_large(), short_samples()] {
        tried.refused("razvolk_decode_v0_reference", number, lent.clone(), |l| {
            razvolk::decode_v0_reference(&[], &[0], width, height, &mut l.samples).err()
        });
        tried.refused("Decoder::decode_v0_direct", number, lent, |l| {
            Decoder::new().decode_v0_direct(&[], &[0], width, height, &mut l.samples).err()
        });
    }
    for (number, width, height, lent) in [too_large(), short_samples(), short_map()] {
        tried.refused("razvolk_decode_v0_reference_map", number, lent, |l| {
            razvolk::decode_v0_reference_map(&[], &[0], width, height, &mut l.samples, &mut l.bytes).err()
        });
    }
}

/// Frames that aren't clean: the number, the frame, and buffers for it.
fn unclean() -> [(u32, V0, Lent); 3] {
    let wide = Lent { samples: vec![7; 160], bytes: vec![9; 160], ..lent() };
    [(17, V0::upward(), lent()), (18, V0::long(), wide), (19, V0::cut(), lent())]
}

fn clean(tried: &mut Tried) {
    let early = [too_large(), short_samples(), short_map()];
    let early = early.map(|(number, width, height, lent)| (number, V0::flat().sized(width, height), lent));
    for (number, frame, lent) in early.into_iter().chain(unclean()) {
        let V0 { stream, offsets, width, height } = frame;
        if number != 4 {
            tried.refused("razvolk_decode_v0_clean", number, lent.clone(), |l| {
                razvolk::decode_v0_clean(&stream, &offsets, width, height, &mut l.samples).err()
            });
            tried.refused("Decoder::decode_v0_clean", number, lent.clone(), |l| {
                Decoder::new().decode_v0_clean(&stream, &offsets, width, height, &mut l.samples).err()
            });
        }
        tried.refused("razvolk_decode_v0_clean_map", number, lent, |l| {
            razvolk::decode_v0_clean_map(&stream, &offsets, width, height, &mut l.samples, &mut l.bytes).err()
        });
    }
}

fn two_phase(tried: &mut Tried) {
    let (stream, offsets) = (V0::flat().stream, [0; 3]);
    let short_scratch = plain(4, 32, 3, |lent| lent.bytes.truncate(scratch_len(32, 3) - 1));
    for (number, width, height, lent) in [too_large(), short_samples(), short_scratch] {
        tried.refused("razvolk_decode_v0", number, lent.clone(), |l| {
            razvolk::decode_v0(&stream, &offsets, width, height, &mut l.samples, &mut l.bytes).err()
        });
        tried.refused("razvolk_decode_v0_bands", number, lent, |l| {
            let (samples, scratch) = (&mut l.samples, &mut l.bytes);
            razvolk::decode_v0_bands(&stream, &offsets, width, height, samples, scratch, 1, 16, &[]).err()
        });
    }
    let good: Vec<u32> = Bands::new(32, 3, 1, 16).expect("a cut").by_bands().collect();
    for (number, bands, block_width, steps) in [(11, 2, 16, &good[..]), (11, 1, 8, &good), (12, 1, 16, &good[..1])] {
        tried.refused("razvolk_decode_v0_bands", number, lent(), |l| {
            let (samples, scratch) = (&mut l.samples, &mut l.bytes);
            razvolk::decode_v0_bands(&stream, &offsets, 32, 3, samples, scratch, bands, block_width, steps).err()
        });
    }
}

/// Streams that V2 refuses, each number where nothing was written before it, and after a block or a row; with the height at
/// width 32.
fn v2_faults() -> [(u32, usize, Vec<u8>); 7] {
    // With option 2 a bit tells the motion, 7 or 3, and with option 4 there is no scale; then the lengths bit, 1 for none.
    let (flat, upward, long) = ([(0, 1), (1, 1)], [(1, 1)], [(0, 1), (0, 1), (0xff, 8), (15, 4)]);
    let row = [flat, flat].concat();
    // Without option 2, the motion follows in 3 bits.
    let (seven, outside) = ([(0, 1), (7, 3), (1, 1)], [(0, 1), (0, 3)]);
    let sevens = [seven, seven].concat();
    [
        (5, 1, v2(1, 6, &[&upward])),
        (5, 1, v2(1, 6, &[&[&flat[..], &upward].concat()])),
        (6, 3, v2(1, 4, &[&sevens, &sevens, &outside])),
        (7, 1, v2(1, 6, &[&long])),
        (7, 1, v2(1, 6, &[&[&flat[..], &long].concat()])),
        (7, 2, v2(1, 6, &[&row, &long])),
        (8, 1, vec![0; 16]),
    ]
}

fn v2_frames(tried: &mut Tried) {
    let early = [too_large(), plain(2, 31, 1, |_| {}), plain(2, 32, 0, |_| {}), short_samples(), short_map()];
    let early = early.map(|(number, width, height, lent)| (number, width, height, vec![0; 16], lent));
    let begun = v2_faults().map(|(number, height, stream)| (number, 32, height, stream, lent()));
    for (number, width, height, stream, lent) in early.into_iter().chain(begun) {
        if number != 4 {
            tried.refused("razvolk_decode_v2", number, lent.clone(), |l| {
                razvolk::decode_v2(&stream, width, height, &mut l.samples).err()
            });
            tried.refused("Decoder::decode_v2", number, lent.clone(), |l| {
                Decoder::new().decode_v2(&stream, width, height, &mut l.samples).err()
            });
        }
        tried.refused("razvolk_decode_v2_map", number, lent, |l| {
            razvolk::decode_v2_map(&stream, width, height, &mut l.samples, &mut l.bytes).err()
        });
    }
}

fn planes(tried: &mut Tried) {
    for (number, width, height, lent) in [too_large(), short_samples()] {
        tried.refused("razvolk_to_planes", number, lent.clone(), |l| {
            razvolk::to_planes(&[5; 99], width, height, &mut l.samples).err()
        });
        tried.refused("razvolk_from_planes", number, lent, |l| {
            razvolk::from_planes(&[5; 99], width, height, &mut l.samples).err()
        });
    }
}

fn written(tried: &mut Tried) {
    let bright = [0, 0, 16_384];
    for (number, samples, width, bytes, rows) in [
        (1, &[][..], 16_385, 99, 1),
        (3, &[0; 2], 3, 99, 1),
        (9, &bright, 3, 99, 1),
        (10, &[0; 3], 3, 3, 1),
        (10, &[0; 3], 3, 99, 0),
    ] {
        let lent = Lent { stream: vec![9; bytes], offsets: vec![9; rows], ..lent() };
        tried.refused("razvolk_write_v0", number, lent, |l| {
            razvolk::write_v0(samples, width, 1, &mut l.stream, &mut l.offsets).err()
        });
    }
}

/// A map of 32 samples that marks the first.
fn marked() -> [u8; 32] {
    let mut map = [0; 32];
    map[0] = 1;
    map
}

fn blanked(tried: &mut Tried) {
    let marked = marked();
    let short_list = plain(13, 32, 1, |lent| lent.runs.truncate(2));
    let cases = [too_large(), short_samples(), plain(4, 32, 1, |_| {}), plain(14, 32, 1, |_| {}), short_list];
    for (number, width, height, lent) in cases {
        let map = match number {
            4 => &marked[..31],
            14 => &[4; 32],
            _ => &marked,
        };
        tried.refused("razvolk_blank", number, lent.clone(), |l| {
            razvolk::blank(&mut l.samples, map, width, height, &mut l.runs).err()
        });
        tried.refused("razvolk_blank_with", number, lent.clone(), |l| {
            razvolk::blank_with(&mut l.samples, map, width, height, 5, &mut l.runs).err()
        });
        tried.refused("razvolk_export_v0", number, lent, |l| {
            let Lent { samples, runs, stream, offsets, .. } = l;
            razvolk::export_v0(samples, map, width, height, runs, stream, offsets).err()
        });
    }
}

/// Blanking by a kept decoder, and what the export refuses after it has blanked the frame.
fn blanked_before(tried: &mut Tried) {
    let mut decoder = Decoder::new();
    decoder.decode_v0_direct(&[], &[0], 32, 1, &mut [7; 32]).expect("done, and all of it marked");
    let (.., short) = short_samples();
    tried.refused("Decoder::blank", 3, short.clone(), |l| decoder.blank(&mut l.samples).err());
    tried.refused("Decoder::blank_with", 3, short, |l| decoder.blank_with(5, &mut l.samples).err());
    let bright = Lent { samples: vec![16_384; 32], ..lent() };
    for (number, lent) in [(9, bright), (10, Lent { stream: vec![9; 3], ..lent() })] {
        tried.refused("razvolk_export_v0", number, lent, |l| {
            let Lent { samples, runs, stream, offsets, .. } = l;
            razvolk::export_v0(samples, &marked(), 32, 1, runs, stream, offsets).expect("blanked").written.err()
        });
    }
}

fn converted(tried: &mut Tried) {
    let early = [too_large(), plain(2, 31, 1, |_| {}), short_samples(), short_map(), plain(15, 40, 1, |_| {})];
    let early = early.map(|(number, width, height, lent)| (number, V0::flat().sized(width, height), lent));
    let short = Lent { stream: vec![9; 16], ..lent() };
    let late = [(16, V0::upward(), lent()), (9, V0::bright(), lent()), (10, V0::flat(), short)];
    for (number, frame, lent) in early.into_iter().chain(late) {
        let V0 { stream: src, offsets, width, height } = frame;
        tried.refused("razvolk_v0_to_v2", number, lent, |l| {
            let Lent { samples, bytes: map, stream, .. } = l;
            razvolk::v0_to_v2(&src, &offsets, width, height, samples, map, stream).err()
        });
    }
}

fn packed(tried: &mut Tried) {
    let flat = [128; 32];
    let wide = Lent { samples: vec![7; 160], ..lent() };
    let short = Lent { samples: vec![7; 31], ..lent() };
    let (longer, _) = write_v0_to_vecs(&[0; 32], 32, 1).expect("no sample is above 16,383");
    let cases = [
        (1, V0::flat().sized(16_385, 1), &flat[..], lent()),
        (3, V0::flat(), &flat[..31], lent()),
        (9, V0::flat(), &[16_384; 32], lent()),
        (3, V0::flat(), &flat, short),
        (17, V0::upward(), &flat, lent()),
        (18, V0::long(), &[128; 160], wide),
        (19, V0::cut(), &[128; 48], lent()),
        (21, V0 { stream: longer, ..V0::flat() }, &flat, lent()),
        (20, V0::flat(), &[129; 32], lent()),
    ];
    for (number, frame, meant, lent) in cases {
        let V0 { stream, offsets, width, height } = frame;
        tried.refused("razvolk_check_packed", number, lent, |l| {
            razvolk::check_packed(&stream, &offsets, width, height, meant, &mut l.samples).err()
        });
    }
}

/// What the header says of each call: its numbers but done, and whether they write nothing.
fn header() -> BTreeMap<(String, u32), bool> {
    let path = concat!(env!("CARGO_MANIFEST_DIR"), "/../include/razvolk.h");
    let text = std::fs::read_to_string(path).expect("the header");
    let mut said = BTreeMap::new();
    // The lines of the last comment; functions that follow each other share it.
    let mut lines: Vec<(Vec<u32>, bool)> = Vec::new();
    for line in text.lines() {
        if line.starts_with("/*") {
            lines.clear();
        } else if let Some((numbers, left)) = line.strip_prefix(" * ").and_then(|line| line.split_once("  ")) {
            let unchanged = left.trim_start().starts_with("nothing is written");
            lines.extend(listed(numbers).map(|numbers| (numbers, unchanged)));
        } else if let Some((_, name)) = line.split_once(" razvolk_").filter(|_| line.starts_with("razvolk_")) {
            let name = format!("razvolk_{}", name.split('(').next().expect("a name"));
            for (numbers, unchanged) in &lines {
                said.extend(numbers.iter().filter(|&&n| n != 0).map(|&n| ((name.clone(), n), *unchanged)));
            }
        }
    }
    said
}

/// The numbers of a list as `1, 3, 17 to 19` or `17..19`; none if it is no such list.
fn listed(text: &str) -> Option<Vec<u32>> {
    let mut numbers = Vec::new();
    for part in text.split(',').map(str::trim) {
        let (first, last) = part.split_once(" to ").or_else(|| part.split_once("..")).unwrap_or((part, part));
        numbers.extend(first.parse::<u32>().ok()?..=last.parse().ok()?);
    }
    Some(numbers)
}

fn all() -> Tried {
    let mut tried = Tried::default();
    for calls in [direct, clean, two_phase, v2_frames, planes, written, blanked, blanked_before, converted, packed] {
        calls(&mut tried);
    }
    tried
}

#[test]
fn has_begun_tells_whether_a_buffer_was_changed() {
    for ((name, number), cases) in all().0 {
        let begun = cases[0].0.has_begun();
        for &(refusal, changed) in &cases {
            assert_eq!(refusal.has_begun(), begun, "{name}: {refusal:?}");
            assert!(begun || !changed, "{name} has changed a buffer, and {refusal:?} tells that it has not");
        }
        let changed = cases.iter().any(|&(_, changed)| changed);
        assert!(changed || !begun, "{name} changes nothing by {number}, which tells that it may have");
    }
}

#[test]
fn every_refusal_of_every_call_was_tried_and_is_as_the_header_says() {
    let exports = all().0.into_iter().filter(|((name, _), _)| name.starts_with("razvolk_"));
    let tried = exports.map(|((name, number), cases)| ((name.into(), number), !cases[0].0.has_begun()));
    let (tried, said) = (tried.collect::<BTreeMap<(String, u32), bool>>(), header());
    assert!(said.len() > 60, "{} refusals are found in the header", said.len());
    for (pair, unchanged) in &said {
        assert_eq!(tried.get(pair), Some(unchanged), "the header says of {pair:?}: nothing is written: {unchanged}");
    }
    for pair in tried.keys() {
        assert!(said.contains_key(pair), "the header doesn't list {pair:?}");
    }
    let ffi = include_str!("../src/ffi.rs");
    for name in ffi.split("\n    fn ").skip(1).filter_map(|line| line.split('(').next()) {
        let refuses = !["razvolk_get", "razvolk_reset_at"].contains(&name);
        assert_eq!(tried.keys().any(|(tried, _)| tried == name), refuses, "{name}");
    }
}
