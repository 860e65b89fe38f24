//! A plain converter of V0 into V2 in Rust, of its own: the comparison's own V0 decoder with its map, then the tests, then a V2
//! writer. It has a fault where wanted, and the comparison must find each fault out.

use crate::call::{self, Answer, Decoder, Lent};
use crate::refusals::V2_LEAST;
use crate::v0::model;
use crate::write::plain::Written;
use streams::bits::{self, Writer};

crate::faults::faults!(
    NoFifteen,
    FifteenBeforeThree,
    FifteenAfterDecoding,
    SixteenPastTheFrame,
    NoSixteen,
    NineBeforeSixteen,
    TenBeforeNine,
    NineAt16383,
    SamplesKeptUnderSixteen,
    MapClearedUnderSixteen,
    StreamTouchedUnderNine,
    StreamTouchedUnderTen,
    WantsOneByteMore,
    LengthWhereRefused,
    ClearsTheTail,
    Depth15,
    Options6,
    Initial128,
    PadsToAWord,
    PadsWithOnes,
    EvensFirstInOddRows,
    PredictsFromTheNextBlock,
    BlocksStartFresh,
    LengthsFromOne,
    OneLengthForAll,
);

/// What is lent to be written.
pub struct Buffers<'a> {
    pub samples: &'a mut [u16],
    pub map: &'a mut [u8],
    pub stream: &'a mut [u8],
}

/// Refusals 1 to 4, with V2's 2, and 15, in this order.
fn early(fault: Fault, ask: &call::Ask, lent: &Buffers) -> Option<u32> {
    let (width, height) = (ask.width, ask.height);
    let n = width.saturating_mul(height);
    let uneven = !width.is_multiple_of(16) && fault != Fault::NoFifteen && fault != Fault::FifteenAfterDecoding;
    let tests = [
        (1, width > 16_384 || height > 16_384),
        (2, width < V2_LEAST.0 || height < V2_LEAST.1),
        (15, fault == Fault::FifteenBeforeThree && uneven),
        (3, lent.samples.len() < n || ask.offsets.len() < height),
        (4, lent.map.len() < n),
        (15, uneven),
    ];
    tests.iter().find(|(_, holds)| *holds).map(|&(number, _)| number)
}

/// Refusals 16, 9 and 10 of a decoded frame, in this order.
fn late(fault: Fault, ask: &call::Ask, lent: &Buffers, bytes: usize) -> Option<u32> {
    let n = ask.n();
    let marks = if fault == Fault::SixteenPastTheFrame { &lent.map[..] } else { &lent.map[..n] };
    let most = if fault == Fault::NineAt16383 { 16_382 } else { 16_383 };
    let more = usize::from(fault == Fault::WantsOneByteMore);
    let mut tests = [
        (16, marks.iter().any(|&mark| mark != 0) && fault != Fault::NoSixteen),
        (9, lent.samples[..n].iter().any(|&sample| sample > most)),
        (10, lent.stream.len() < bytes + more),
    ];
    match fault {
        Fault::NineBeforeSixteen => tests.swap(0, 1),
        Fault::TenBeforeNine => tests.swap(1, 2),
        _ => {}
    }
    let uneven = fault == Fault::FifteenAfterDecoding && !ask.width.is_multiple_of(16);
    let first = tests.iter().find(|(_, holds)| *holds).map(|&(number, _)| number);
    if uneven { Some(15) } else { first }
}

/// Converts a frame.
pub fn convert(fault: Fault, ask: &call::Ask, lent: &mut Buffers) -> Written {
    let refused = |number, length| Written { answer: Answer::refused(number), length };
    if let Some(number) = early(fault, ask, lent) {
        return refused(number, 0);
    }
    let old = lent.samples.to_vec();
    let work = &mut Lent { samples: &mut *lent.samples, map: &mut *lent.map, scratch: &mut [] };
    model::decode(model::Fault::None, Decoder::Direct, true, ask, work);
    let bytes = coded(fault, &lent.samples[..ask.n()], ask.width, ask.height);
    let number = late(fault, ask, lent, bytes.len());
    match (fault, number) {
        (Fault::SamplesKeptUnderSixteen, Some(16)) => lent.samples.copy_from_slice(&old),
        (Fault::MapClearedUnderSixteen, Some(16)) => lent.map[..ask.n()].fill(0),
        (Fault::StreamTouchedUnderNine, Some(9)) | (Fault::StreamTouchedUnderTen, Some(10)) => lent.stream.fill(0),
        _ => {}
    }
    if let Some(number) = number {
        return refused(number, if fault == Fault::LengthWhereRefused { bytes.len() } else { 0 });
    }
    let (written, tail) = lent.stream.split_at_mut(bytes.len());
    written.copy_from_slice(&bytes);
    if fault == Fault::ClearsTheTail {
        tail.fill(0);
    }
    Written { answer: Answer::DONE, length: bytes.len() }
}

/// The V2 stream of a frame whose width is a multiple of 16.
pub fn plain(samples: &[u16], width: usize, height: usize) -> Vec<u8> {
    coded(Fault::None, samples, width, height)
}

fn coded(fault: Fault, samples: &[u16], width: usize, height: usize) -> Vec<u8> {
    let mut writer = Writer::default();
    let depth = if fault == Fault::Depth15 { 14 } else { 13 };
    let options = if fault == Fault::Options6 { 6 } else { 7 };
    let initial = if fault == Fault::Initial128 { 128 } else { 0 };
    let fields = [(0, 20), (depth, 4), (0, 8), (0, 32), (0, 20), (options, 4), (0, 26), (initial, 14)];
    for (value, bits) in fields {
        writer.put(value, bits);
    }
    for row in 0..height {
        write_row(fault, &samples[row * width..][..width], row, &mut writer);
        writer.put(u32::MAX, if fault == Fault::PadsWithOnes { writer.to_a_word() } else { 0 });
        writer.align(if fault == Fault::PadsToAWord { 4 } else { 16 });
    }
    writer.finish()
}

fn write_row(fault: Fault, samples: &[u16], row: usize, writer: &mut Writer) {
    let mut before = [0, 0];
    for block in samples.chunks_exact(16) {
        let odd_first = row % 2 == 1 && fault != Fault::EvensFirstInOddRows;
        let first = usize::from(odd_first);
        let order: Vec<usize> = (first..16).step_by(2).chain((1 - first..16).step_by(2)).collect();
        let numbers: Vec<i32> = order.iter().map(|&i| i32::from(block[i]) - i32::from(before[i % 2])).collect();
        let least = u32::from(fault == Fault::LengthsFromOne);
        let mut lengths: Vec<u32> = numbers
            .chunks_exact(4)
            .map(|four| four.iter().map(|&number| bits::length(number)).max().unwrap_or(0).max(least))
            .collect();
        if fault == Fault::OneLengthForAll {
            lengths = vec![lengths.iter().copied().max().unwrap_or(0); 4];
        }
        writer.put(0xff, 9);
        lengths.iter().for_each(|&length| writer.put(length, 4));
        for (k, &number) in numbers.iter().enumerate() {
            writer.put(number as u32, lengths[k / 4]);
        }
        before = match fault {
            Fault::PredictsFromTheNextBlock => [block[0], block[1]],
            Fault::BlocksStartFresh => [0, 0],
            _ => [block[14], block[15]],
        };
    }
}
