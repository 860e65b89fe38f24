//! The verdict on a proposal in plain Rust: the plain verdict on clean frames, the plain writer, and samsung.rs's own decoder; with a
//! fault where wanted, which the comparison must find out.

use super::proposals::Proposal;
use crate::call::Answer;
use crate::clean::model as clean;
use crate::write::plain::plain;
use streams::Frame;

crate::faults::faults!(
    SamplesBeforeLength,
    DecodesBeforeTheLength,
    LongerByOneTaken,
    LongerByLessThanAWordTaken,
    AsLongIsLonger,
    TableInPlaceOfStream,
    LengthOfTheMeantSamples,
    FirstRowAlone,
    AllButTheLast,
    PastTheFrame,
    BrightAfterClean,
    BrightBeforeShort,
    BrightAfterScratch,
    BrightPastTheFrame,
    BrightAt16383,
    CleanAfterLength,
    NoClean,
    NoRow,
    ScratchKeptByOther,
    ScratchKept,
    ScratchsTailCleared,
    DecodesBeforeTheProfile,
);

/// The verdict, and what it leaves in the scratch.
pub fn check(fault: Fault, proposal: &Proposal, scratch: &mut [u16]) -> Answer {
    let Proposal { frame, meant } = proposal;
    let Frame { width, height, ref stream, ref offsets, .. } = *frame;
    if let Some(number) = refusal(fault, proposal, scratch.len()) {
        return Answer::refused(number);
    }
    let told = told(fault, frame);
    let long = is_longer(fault, stream, offsets, meant, (width, height));
    let long = long.then_some(Answer::refused(21));
    let bright = fault == Fault::BrightAfterClean && is_bright(fault, meant, width * height);
    let before = match fault {
        Fault::CleanAfterLength => long.or(told),
        Fault::SamplesBeforeLength => told,
        _ => told.or(bright.then_some(Answer::refused(9))).or(long),
    };
    let decodes = match fault {
        Fault::DecodesBeforeTheLength => told.is_none(),
        Fault::DecodesBeforeTheProfile => true,
        _ => before.is_none(),
    };
    let kept = scratch.to_vec();
    if decodes {
        reference::decode_v0_reference(stream, offsets, width, height, scratch).expect("V0 is done");
    }
    if let Some(answer) = before {
        return answer;
    }
    let same = is_same(fault, proposal, scratch);
    match fault {
        Fault::ScratchKept => scratch.copy_from_slice(&kept),
        Fault::ScratchKeptByOther if !same => scratch.copy_from_slice(&kept),
        Fault::ScratchsTailCleared => scratch[width * height..].fill(0),
        _ => {}
    }
    match (same, long) {
        (false, _) => Answer::refused(20),
        (true, Some(answer)) if fault == Fault::SamplesBeforeLength => answer,
        _ => Answer::DONE,
    }
}

/// Refusals 1, 3, 9, and 3 again: of the samples meant, and then of the scratch and the table.
fn refusal(fault: Fault, Proposal { frame, meant }: &Proposal, scratch: usize) -> Option<u32> {
    let Frame { width, height, ref offsets, .. } = *frame;
    if width > 16_384 || height > 16_384 {
        return Some(1);
    }
    let n = width * height;
    let bright = is_bright(fault, meant, n);
    let mut early = [(3, meant.len() < n), (9, bright), (3, scratch < n || offsets.len() < height)];
    match fault {
        Fault::BrightBeforeShort => early.swap(0, 1),
        Fault::BrightAfterScratch => early.swap(1, 2),
        Fault::BrightAfterClean => early[1].1 = false,
        _ => {}
    }
    early.iter().find(|(_, holds)| *holds).map(|&(number, _)| number)
}

/// The refusal of a frame that is not clean.
fn told(fault: Fault, frame: &Frame) -> Option<Answer> {
    let (number, row, _) = clean::verdict(clean::Fault::None, frame).filter(|_| fault != Fault::NoClean)?;
    let row = if fault == Fault::NoRow { 0 } else { row as u32 };
    Some(Answer { number, row, filler: 0 })
}

/// Whether the samples decoded are those that are meant.
fn is_same(fault: Fault, Proposal { frame, meant }: &Proposal, scratch: &[u16]) -> bool {
    let n = frame.width * frame.height;
    let compared = match fault {
        Fault::FirstRowAlone => frame.width.min(n),
        Fault::AllButTheLast => n.saturating_sub(1),
        Fault::PastTheFrame => scratch.len().min(meant.len()),
        _ => n,
    };
    scratch[..compared] == meant[..compared]
}

/// Whether a sample that is meant is above 16,383.
fn is_bright(fault: Fault, meant: &[u16], n: usize) -> bool {
    let seen = if fault == Fault::BrightPastTheFrame { meant } else { &meant[..n.min(meant.len())] };
    let most = if fault == Fault::BrightAt16383 { 16_382 } else { 16_383 };
    seen.iter().any(|&sample| sample > most)
}

/// Whether the stream has more bytes than what the writer makes of the samples meant.
fn is_longer(fault: Fault, stream: &[u8], offsets: &[u32], meant: &[u16], (width, height): (usize, usize)) -> bool {
    let most = plain(meant, width, height).0.len();
    match fault {
        Fault::LongerByOneTaken => stream.len() > most + 1,
        Fault::LongerByLessThanAWordTaken => stream.len() > most + 3,
        Fault::AsLongIsLonger => stream.len() >= most && most > 0,
        Fault::TableInPlaceOfStream => offsets.len() > most,
        Fault::LengthOfTheMeantSamples => stream.len() > 2 * width * height,
        _ => stream.len() > most,
    }
}
