//! A decoder in bands of its own, with a fault where wanted: the comparison must find each fault out.

use super::Cut;
use super::cut::most_bands;
use crate::call::{Answer, Ask, Decoder, Entry, Lent};
use crate::refusals;
use crate::v0;

crate::faults::faults!(
    ReadyWithoutTheLeft,
    ReadyWithoutTheOneAbove,
    AboveInAnyBand,
    TakesAStepTwice,
    TakesAShortList,
    TakesALongList,
    TakesAnyNumber,
    TakesAListWithoutRows,
    RefusesAWideBlock,
    RefusesOneBand,
    BandsOfOneRow,
    SixtyFiveBands,
    NoBands,
    BlocksOfEight,
    TwelveBeforeEleven,
    ElevenBeforeFour,
    TwelveBeforeThree,
    TwelveWithARow,
    SamplesChangedByEleven,
    SamplesChangedByTwelve,
    ScratchChangedByTwelve,
    LastStepNotDone,
    ScratchNotLeft,
    MapWritten,
);

/// The entry of a decoder in bands with a fault.
pub fn entry(fault: Fault) -> Entry {
    Entry::new("a decoder in bands of its own", Decoder::Bands, false, move |ask, lent| decode(fault, ask, lent))
}

fn decode(fault: Fault, ask: &Ask, lent: &mut Lent) -> Answer {
    let &Ask { width, height, cut, .. } = ask;
    let lens = refusals::Lens::of(ask, lent);
    let first = refusals::number(Decoder::Bands, false, width, height, lens);
    let (eleven, twelve) = (!fits(fault, width, height, cut), !is_good(fault, width, height, cut));
    let number = match first {
        Some(4) if fault == Fault::ElevenBeforeFour && eleven => Some(11),
        Some(3) if fault == Fault::TwelveBeforeThree && !eleven && twelve => Some(12),
        None if fault == Fault::TwelveBeforeEleven && twelve => Some(12),
        None if eleven => Some(11),
        None if twelve => Some(12),
        first => first,
    };
    let Some(number) = number else {
        return done(fault, ask, lent);
    };
    match fault {
        Fault::SamplesChangedByEleven if number == 11 => lent.samples.fill(0),
        Fault::SamplesChangedByTwelve if number == 12 => lent.samples.fill(0),
        Fault::ScratchChangedByTwelve if number == 12 => lent.scratch.fill(0),
        _ => {}
    }
    Answer { row: u32::from(fault == Fault::TwelveWithARow && number == 12), ..Answer::refused(number) }
}

/// Whether the frame may be cut so.
fn fits(fault: Fault, width: usize, height: usize, cut: &Cut) -> bool {
    let most = match fault {
        Fault::BandsOfOneRow => height.saturating_sub(2).clamp(1, 64),
        Fault::SixtyFiveBands if most_bands(height) == 64 => 65,
        _ => most_bands(height),
    };
    let least = match fault {
        Fault::NoBands => 0,
        Fault::RefusesOneBand if height < 4 => 2,
        _ => 1,
    };
    let multiple = if fault == Fault::BlocksOfEight { 8 } else { 16 };
    let narrow = fault == Fault::RefusesAWideBlock && cut.block_width > width.max(16);
    (least..=most).contains(&cut.bands) && cut.block_width > 0 && cut.block_width.is_multiple_of(multiple) && !narrow
}

/// Whether the list is good, by how many blocks of each band are done.
fn is_good(fault: Fault, width: usize, height: usize, cut: &Cut) -> bool {
    let blocks = if cut.block_width == 0 { 0 } else { cut.blocks(width, height) };
    let (len, total) = (cut.steps.len(), cut.bands.saturating_mul(blocks));
    let length = match fault {
        Fault::TakesAShortList => len <= total,
        Fault::TakesALongList => len >= total,
        Fault::TakesAListWithoutRows => len == total || blocks == 0,
        _ => len == total,
    };
    if !length {
        return false;
    }
    let mut done = vec![0; cut.bands.min(cut.steps.len()) + 1];
    let steps = cut.steps.iter().map(|&step| step as usize).take(total);
    for step in steps {
        let step = if fault == Fault::TakesAnyNumber { step % total } else { step };
        let (band, block) = (step / blocks, step % blocks);
        if step >= total {
            return false;
        }
        let above = match fault {
            _ if band == 0 => true,
            Fault::ReadyWithoutTheOneAbove => true,
            Fault::AboveInAnyBand => done[..band].iter().any(|&done| block < done),
            _ => block < done[band - 1],
        };
        let left = match fault {
            Fault::ReadyWithoutTheLeft => true,
            Fault::TakesAStepTwice => block <= done[band],
            _ => block == done[band],
        };
        if !left || !above {
            return false;
        }
        done[band] = block + 1;
    }
    true
}

/// Decodes the frame as the decoder in two phases does, which a good list makes no difference to.
fn done(fault: Fault, ask: &Ask, lent: &mut Lent) -> Answer {
    let (samples, scratch) = (lent.samples.to_vec(), lent.scratch.to_vec());
    let answer = v0::model::decode(v0::model::Fault::None, Decoder::TwoPhase, false, ask, lent);
    match fault {
        Fault::LastStepNotDone if !ask.cut.steps.is_empty() => {
            let last = ask.n() - 1;
            lent.samples[last] = samples[last];
        }
        Fault::ScratchNotLeft => lent.scratch.copy_from_slice(&scratch),
        Fault::MapWritten => lent.map.fill(0),
        _ => {}
    }
    answer
}
