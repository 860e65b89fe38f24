//! A plain V0 writer in Rust, of its own: the exchange of places, then row by row blocks of direction 0 and four operations 3,
//! each length the smallest that holds its four residuals, and each row padded with zero bits to a whole word. It has a fault
//! where wanted, and the comparison must find each fault out.

use crate::call::Answer;
use streams::bits::{self, Writer};
use streams::v0::order;

crate::faults::faults!(
    NoExchange,
    ExchangesTheLastColumn,
    PredictsInsideTheBlock,
    PredictsOddsFromTwoBefore,
    NoConstant,
    OnePastTheEnd,
    NextRowPastTheEnd,
    Upward,
    LengthsFromOne,
    LengthsOneMore,
    OneLengthForAll,
    LengthsMixedUp,
    KeepsLengths,
    OddsFirst,
    PadsWithOnes,
    PadsTo16Bytes,
    HighestByteFirst,
    GapBetweenRows,
    OffsetOfTheNextRow,
    OffsetsInWords,
    LengthOfTheBuffer,
    LengthWhereRefused,
    NineAt16383,
    NineAbove16384,
    NinePastTheFrame,
    TenBeforeNine,
    NineBeforeThree,
    ShortOffsetsAreThree,
    WantsOneByteMore,
    WantsOneOffsetMore,
    WritesBeforeTen,
    OffsetsBeforeTen,
    ClearsTheStreamsTail,
    ClearsTheOffsetsTail,
);

/// What is to be written.
#[derive(Clone, Copy, Debug)]
pub struct Ask<'a> {
    pub samples: &'a [u16],
    pub width: usize,
    pub height: usize,
}

/// An answer, and the stream's length where it is done.
#[derive(Clone, Copy, Debug, PartialEq, Eq)]
pub struct Written {
    pub answer: Answer,
    pub length: usize,
}

/// Writes into lent buffers: the refusals in their order, then the frame.
pub fn write(fault: Fault, ask: &Ask, stream: &mut [u8], offsets: &mut [u32]) -> Written {
    let Ask { samples, width, height } = *ask;
    let large = width > 16_384 || height > 16_384;
    let short = !large && samples.len() < width * height;
    let (bytes, rows) = if large || short { (vec![], vec![]) } else { coded(fault, samples, width, height) };
    let more = [Fault::WantsOneByteMore, Fault::WantsOneOffsetMore].map(|wants| usize::from(fault == wants));
    let mut tests = [
        (1, large),
        (3, short || fault == Fault::ShortOffsetsAreThree && offsets.len() < height),
        (9, too_bright(fault, ask)),
        (10, stream.len() < bytes.len() + more[0] || offsets.len() < rows.len() + more[1]),
    ];
    match fault {
        Fault::NineBeforeThree => tests.swap(1, 2),
        Fault::TenBeforeNine => tests.swap(2, 3),
        _ => {}
    }
    if let Some(&(number, _)) = tests.iter().find(|(_, holds)| *holds) {
        touch(fault, number, &bytes, stream, offsets);
        let length = if fault == Fault::LengthWhereRefused { bytes.len() } else { 0 };
        return Written { answer: Answer::refused(number), length };
    }
    leave(fault, &bytes, &rows, stream, offsets);
    let length = if fault == Fault::LengthOfTheBuffer { stream.len() } else { bytes.len() };
    Written { answer: Answer::DONE, length }
}

/// Whether one of the frame's samples, as far as they are lent, is above 16,383.
fn too_bright(fault: Fault, ask: &Ask) -> bool {
    let n = ask.width.saturating_mul(ask.height).min(ask.samples.len());
    let seen = if fault == Fault::NinePastTheFrame { ask.samples } else { &ask.samples[..n] };
    let most = match fault {
        Fault::NineAt16383 => 16_382,
        Fault::NineAbove16384 => 16_384,
        _ => 16_383,
    };
    seen.iter().any(|&sample| sample > most)
}

/// What a refusal must not do.
fn touch(fault: Fault, number: u32, bytes: &[u8], stream: &mut [u8], offsets: &mut [u32]) {
    match (fault, number) {
        (Fault::WritesBeforeTen, 10) => stream.iter_mut().zip(bytes).for_each(|(to, byte)| *to = *byte),
        (Fault::OffsetsBeforeTen, 10) => offsets.iter_mut().take(1).for_each(|offset| *offset = 0),
        _ => {}
    }
}

fn leave(fault: Fault, bytes: &[u8], rows: &[u32], stream: &mut [u8], offsets: &mut [u32]) {
    let (written, tail) = stream.split_at_mut(bytes.len());
    let (table, rest) = offsets.split_at_mut(rows.len());
    written.copy_from_slice(bytes);
    table.copy_from_slice(rows);
    match fault {
        Fault::ClearsTheStreamsTail => tail.fill(0),
        Fault::ClearsTheOffsetsTail => rest.fill(0),
        _ => {}
    }
}

/// The stream and the offsets of a frame, of the first samples. Without a fault this is what the timings take.
pub fn plain(samples: &[u16], width: usize, height: usize) -> (Vec<u8>, Vec<u32>) {
    coded(Fault::None, samples, width, height)
}

/// Inlined, and so are the functions below: the tests for faults are left out where there is none.
#[inline(always)]
fn coded(fault: Fault, samples: &[u16], width: usize, height: usize) -> (Vec<u8>, Vec<u32>) {
    let stored = exchanged(fault, &samples[..width * height], width, height);
    let (mut writer, mut offsets) = (Writer::default(), Vec::with_capacity(height));
    for row in 0..height {
        offsets.push(writer.len() as u32);
        write_row(fault, &stored, width, row, &mut writer);
        writer.put(u32::MAX, if fault == Fault::PadsWithOnes { writer.to_a_word() } else { 0 });
        writer.align(if fault == Fault::PadsTo16Bytes { 16 } else { 4 });
        if fault == Fault::GapBetweenRows {
            writer.put(0, 32);
        }
        match fault {
            Fault::OffsetOfTheNextRow => offsets[row] = writer.len() as u32,
            Fault::OffsetsInWords => offsets[row] /= 4,
            _ => {}
        }
    }
    let mut bytes = writer.finish();
    if fault == Fault::HighestByteFirst {
        bytes.chunks_exact_mut(4).for_each(<[u8]>::reverse);
    }
    (bytes, offsets)
}

/// The frame after the exchange of places.
#[inline(always)]
fn exchanged(fault: Fault, samples: &[u16], width: usize, height: usize) -> Vec<u16> {
    let mut stored = samples.to_vec();
    let last = usize::from(fault != Fault::ExchangesTheLastColumn);
    for row in (0..height).step_by(2).filter(|row| row + 1 < height && fault != Fault::NoExchange) {
        for col in (0..width).step_by(2).filter(|col| col + last < width) {
            stored.swap(row * width + col + 1, (row + 1) * width + col);
        }
    }
    stored
}

#[inline(always)]
fn write_row(fault: Fault, stored: &[u16], width: usize, row: usize, writer: &mut Writer) {
    let mut before = [u32::MAX; 4];
    for col in (0..width).step_by(16) {
        let residuals = residuals(fault, stored, width, row, col);
        let lengths = lengths(fault, &residuals);
        writer.put(u32::from(fault == Fault::Upward), 1);
        for (length, before) in lengths.iter().zip(&before) {
            writer.put(if fault == Fault::KeepsLengths && length == before { 0 } else { 3 }, 2);
        }
        for (length, before) in lengths.iter().zip(&before) {
            writer.put(*length, if fault == Fault::KeepsLengths && length == before { 0 } else { 4 });
        }
        before = lengths;
        let odds = if fault == Fault::OddsFirst { 8 } else { 0 };
        for (c, j) in order().cycle().skip(odds).take(16) {
            writer.put(residuals[c] as u32, lengths[j]);
        }
    }
}

/// The residuals of a block; columns past the row's end have 0.
#[inline(always)]
fn residuals(fault: Fault, stored: &[u16], width: usize, row: usize, col: usize) -> [i32; 16] {
    let first = row * width + col;
    let mut residuals = [if fault == Fault::OnePastTheEnd { 1 } else { 0 }; 16];
    let end = if fault == Fault::NextRowPastTheEnd { stored.len() - first } else { width - col };
    for (c, residual) in residuals.iter_mut().enumerate().take(end) {
        let predictor = match fault {
            Fault::PredictsInsideTheBlock if c >= 2 => stored[first + c - 2],
            Fault::PredictsOddsFromTwoBefore if col > 0 => stored[first - 2],
            Fault::NoConstant if col == 0 => 0,
            _ if col == 0 => 128,
            _ => stored[first - 2 + c % 2],
        };
        *residual = i32::from(stored[first + c]) - i32::from(predictor);
    }
    residuals
}

/// The smallest length that holds each four residuals.
#[inline(always)]
fn lengths(fault: Fault, residuals: &[i32; 16]) -> [u32; 4] {
    let mut lengths = [if fault == Fault::LengthsFromOne { 1 } else { 0 }; 4];
    for (c, j) in order() {
        let j = if fault == Fault::LengthsMixedUp { [0, 2, 1, 3][j] } else { j };
        lengths[j] = lengths[j].max(bits::length(residuals[c]));
    }
    match fault {
        Fault::LengthsOneMore => lengths.map(|length| (length + 1).min(15)),
        Fault::OneLengthForAll => [lengths.into_iter().max().unwrap_or(0); 4],
        _ => lengths,
    }
}
