//! The verdict on clean frames in plain loops, and a decoder over it, with a fault where wanted: the comparison must find each out.

use crate::v0::parse::{Head, heads};
use razvolk::Refusal;
use streams::Frame;

crate::faults::faults!(
    LengthsBeforeDirections,
    SeventeenAllowed,
    MinusOneAllowed,
    FirstLengthAlone,
    LengthsBeforeTheOperations,
    FillerBeforeTheResiduals,
    FillerOfEarlyRowsAlone,
    NoDirections,
    UpwardInRowTwo,
    LastFault,
    NextRow,
    WritesBeforeTheLastRow,
    MapLeft,
);

/// What is wrong with a block, or 0.
fn block(fault: Fault, head: &Head) -> u32 {
    let early = if fault == Fault::UpwardInRowTwo { 3 } else { 2 };
    let upward = head.row < early && head.direction == 1 && fault != Fault::NoDirections;
    let least = if fault == Fault::MinusOneAllowed { -1 } else { 0 };
    let most = if fault == Fault::SeventeenAllowed { 17 } else { 16 };
    let lengths = if fault == Fault::LengthsBeforeTheOperations { head.before } else { head.lengths };
    let tested = if fault == Fault::FirstLengthAlone { &lengths[..1] } else { &lengths[..] };
    let outside = tested.iter().any(|length| !(least..=most).contains(length));
    let filler = match fault {
        Fault::FillerBeforeTheResiduals => head.missing_after_head,
        Fault::FillerOfEarlyRowsAlone => head.missing_by_end && head.row < 2,
        _ => head.missing_by_end,
    };
    match (upward, outside, filler) {
        (_, true, _) if fault == Fault::LengthsBeforeDirections => 18,
        (true, _, _) => 17,
        (_, true, _) => 18,
        (_, _, true) => 19,
        _ => 0,
    }
}

/// The verdict on a frame: the first fault's number with its row and its block; none of a clean frame.
pub fn verdict(fault: Fault, frame: &Frame) -> Option<(u32, usize, usize)> {
    let mut found = None;
    heads(frame, |head| {
        let number = block(fault, &head);
        if number > 0 && (found.is_none() || fault == Fault::LastFault) {
            found = Some((number, head.row, head.col / 16));
        }
    });
    found
}

/// Decodes a frame if it is clean.
pub fn decode(fault: Fault, frame: &Frame, samples: &mut [u16], map: Option<&mut [u8]>) -> Result<(), Refusal> {
    let Frame { width, height, ref stream, ref offsets, .. } = *frame;
    let found = verdict(fault, frame);
    let writes = found.is_none_or(|(_, row, _)| fault == Fault::WritesBeforeTheLastRow && row + 1 == height);
    if writes {
        razvolk::decode_v0_reference(stream, offsets, width, height, samples)?;
    }
    match found {
        Some((number, row, _)) => {
            let row = row + usize::from(fault == Fault::NextRow);
            Err(Refusal::of(number, row as u32, 0).expect("not done"))
        }
        None => {
            if let Some(map) = map.filter(|_| fault != Fault::MapLeft) {
                map[..frame.samples()].fill(0);
            }
            Ok(())
        }
    }
}
