//! A V0 decoder of its own, written from the rules: it gives what samsung.rs does not tell, which samples rest on missing words.
//! With a fault where wanted: the comparisons must find each fault out.

use crate::call::{Answer, Ask, Decoder, Entry, Lent};
use crate::refusals;
use streams::bits::Reader;
use streams::v0::{order, skipped};

crate::faults::faults!(
    SkippedReadsBits,
    PredictsInsideTheBlock,
    OddsFirst,
    LengthsMixedUp,
    LongLengthsWrap,
    NegativeLengthsRead,
    OneFreshLength,
    UnsignedResiduals,
    UpTheOtherWay,
    NoConstant,
    DroppedSpill,
    NoExchange,
    ExchangesTheLastColumn,
    ExchangesOneRowLess,
    SaturatingSum,
    WritesPastTheFrame,
    ClearsTheBuffer,
    PaintsSkipped,
    RefusesOverrun,
    MapAllOld,
    MapAllNew,
    MapNotExchanged,
    MapKeptFromEntry,
    MapPastTheFrame,
    MapWithoutSpill,
    MarkedConstant,
    TouchesAMapNotLent,
    ShortDirections,
    LongDirections,
    DirectionsOfAllRows,
    SpillOverResiduals,
    CountsNothing,
    CountsRows,
    CountsTheLastRow,
    CountsNoLeftover,
    CountsInTwoPhases,
    NoSkipBound,
    ConstantSkipped,
    FillerNotMarked,
    FillerBeforeTheBlock,
    FillerOfTheRow,
    FillerOfTheFrame,
    FillerAtItsOwnSamples,
    SkippedGainsNoFiller,
    SkippedGainsOldToo,
    FillerNotInherited,
    FillerNotExchanged,
    SpillWithoutFiller,
    FillerKeptAtAWrite,
);

/// The entry of a decoder with a fault.
pub fn entry(fault: Fault, decoder: Decoder, map: bool) -> Entry {
    Entry::new("a decoder of its own", decoder, map, move |ask, lent| decode(fault, decoder, map, ask, lent))
}

/// A sample and its map byte.
type Cell = (u16, u8);

/// The parts of a map byte.
const OLD: u8 = 1;
const FILLER: u8 = 2;

/// The frame while it is decoded.
struct Work<'a> {
    fault: Fault,
    ask: &'a Ask<'a>,
    /// As long as the lent samples; the frame is the first N.
    cells: Vec<Cell>,
    /// One for each block read.
    directions: Vec<u8>,
    /// How many words were missing in the rows before.
    filler: u64,
}

pub fn decode(fault: Fault, decoder: Decoder, map: bool, ask: &Ask, lent: &mut Lent) -> Answer {
    let lens = refusals::Lens::of(ask, lent);
    if let Some(number) = refusals::number(decoder, map, ask.width, ask.height, lens) {
        return Answer::refused(number);
    }
    let n = ask.n();
    if fault == Fault::ClearsTheBuffer {
        lent.samples[..n].fill(0);
    }
    let mark = |i: usize| if map && fault == Fault::MapKeptFromEntry { lent.map[i] } else { OLD };
    let cells = lent.samples.iter().enumerate().map(|(i, &s)| (s, if i < n { mark(i) } else { 0 })).collect();
    let mut work = Work { fault, ask, cells, directions: Vec::new(), filler: 0 };
    let filler = work.rows(decoder);
    if fault == Fault::RefusesOverrun && filler > 0 {
        return Answer::refused(8);
    }
    let before = work.cells.clone();
    work.exchange();
    for (sample, cell) in lent.samples.iter_mut().zip(&work.cells) {
        *sample = cell.0;
    }
    if map || fault == Fault::TouchesAMapNotLent && lent.map.len() >= n {
        leave_marks(fault, &work.cells[..n], &before, lent.map);
    }
    if decoder.in_phases() {
        leave_directions(fault, ask, &work.directions, lent.scratch);
    }
    let told = decoder == Decoder::Direct || fault == Fault::CountsInTwoPhases;
    Answer::done_with(if told { filler } else { 0 })
}

fn leave_marks(fault: Fault, cells: &[Cell], before: &[Cell], map: &mut [u8]) {
    for (byte, (cell, before)) in map.iter_mut().zip(cells.iter().zip(before)) {
        *byte = match fault {
            Fault::MapAllOld => OLD,
            Fault::MapAllNew => 0,
            Fault::MapNotExchanged => before.1,
            Fault::FillerNotExchanged => cell.1 & OLD | before.1 & FILLER,
            Fault::FillerNotMarked => cell.1 & OLD,
            _ => cell.1,
        };
    }
    if fault == Fault::MapPastTheFrame && map.len() > cells.len() {
        map[cells.len()] ^= 1;
    }
}

fn leave_directions(fault: Fault, ask: &Ask, directions: &[u8], scratch: &mut [u8]) {
    let first = ask.width.div_ceil(16) * ask.height.min(2);
    let late = match fault {
        Fault::DirectionsOfAllRows => directions,
        _ => &directions[first..],
    };
    let len = late.len().min(scratch.len()) - usize::from(fault == Fault::ShortDirections && !late.is_empty());
    scratch[..len].copy_from_slice(&late[..len]);
    if fault == Fault::LongDirections && scratch.len() > late.len() {
        scratch[late.len()] = 0;
    }
}

/// Where a sample stands, and in a block of which direction.
#[derive(Clone, Copy)]
struct Place {
    row: usize,
    col: usize,
    c: usize,
    direction: u32,
    /// Whether the row is one of phase one: nothing in it is skipped, and its spill is dropped.
    late: bool,
}

impl Work<'_> {
    /// Reads all rows, and tells how many words were missing.
    fn rows(&mut self, decoder: Decoder) -> u64 {
        let mut filler = 0;
        for row in 0..self.ask.height {
            let words = self.row(row, decoder.in_phases() && row >= 2);
            self.filler += words;
            filler = match self.fault {
                Fault::CountsNothing => 0,
                Fault::CountsRows => filler + words.min(1),
                Fault::CountsTheLastRow => words,
                _ => filler + words,
            };
        }
        if self.fault == Fault::SpillOverResiduals && self.ask.height > 2 {
            let directions = self.directions.len();
            self.row(1, false);
            self.directions.truncate(directions);
        }
        filler
    }

    fn row(&mut self, row: usize, late: bool) -> u64 {
        let mut reader = Reader::new(self.ask.src, u64::from(self.ask.offsets[row]));
        let fresh = if row < 2 && self.fault != Fault::OneFreshLength { 7 } else { 4 };
        let mut lengths = [fresh; 4];
        for col in (0..self.ask.width).step_by(16) {
            let before = reader.filler();
            let direction = reader.get(1);
            self.directions.push(direction as u8);
            let operations = [0; 4].map(|_| reader.get(2));
            for (length, operation) in lengths.iter_mut().zip(operations) {
                match operation {
                    3 => *length = reader.get(4) as i32,
                    2 => *length -= 1,
                    1 => *length += 1,
                    _ => {}
                }
            }
            let odds = if self.fault == Fault::OddsFirst { 8 } else { 0 };
            for (c, j) in order().cycle().skip(odds).take(16) {
                let j = if self.fault == Fault::LengthsMixedUp { [0, 2, 1, 3][j] } else { j };
                self.sample(Place { row, col, c, direction, late }, lengths[j], &mut reader);
            }
            let filler = match self.fault {
                Fault::FillerBeforeTheBlock => before,
                Fault::FillerOfTheFrame => self.filler + reader.filler(),
                Fault::FillerAtItsOwnSamples => 0,
                _ => reader.filler(),
            };
            if filler > 0 && !late {
                (0..16).for_each(|c| self.fill(Place { row, col, c, direction, late }));
            }
        }
        if self.fault == Fault::FillerOfTheRow && reader.filler() > 0 {
            (0..self.ask.width).for_each(|col| self.fill(Place { row, col, c: 0, direction: 0, late }));
        }
        // Where some bytes of a word are left, that word is not counted.
        let leftover = self.fault == Fault::CountsNoLeftover && !self.ask.src.len().is_multiple_of(4);
        reader.filler().saturating_sub(leftover.into())
    }

    /// A sample of a block by whose end a word was missing, written or skipped.
    fn fill(&mut self, place: Place) {
        let Ask { width, height, .. } = *self.ask;
        let at = place.row * width + place.col + place.c;
        let skips = skipped(width, height, place.row, place.col, place.c, place.direction);
        let kept = match self.fault {
            Fault::SkippedGainsNoFiller => skips,
            Fault::SpillWithoutFiller => place.col + place.c >= width,
            _ => false,
        };
        if at < self.ask.n() && !kept {
            self.cells[at].1 |= if skips && self.fault == Fault::SkippedGainsOldToo { FILLER | OLD } else { FILLER };
        }
    }

    fn sample(&mut self, place: Place, length: i32, reader: &mut Reader) {
        let (fault, n) = (self.fault, self.ask.n());
        let Ask { width, height, .. } = *self.ask;
        let bits = match fault {
            Fault::LongLengthsWrap => (length.max(0) % 33) as u32,
            Fault::NegativeLengthsRead => length.abs().min(32) as u32,
            _ => length.clamp(0, 32) as u32,
        };
        let at = place.row * width + place.col + place.c;
        let skips = match fault {
            Fault::NoSkipBound => place.direction == 1 && place.row < 1 + place.c % 2,
            Fault::ConstantSkipped if at >= width * (height + 7) => true,
            _ => skipped(width, height, place.row, place.col, place.c, place.direction),
        };
        if !place.late && skips {
            if fault == Fault::SkippedReadsBits {
                reader.get(bits);
            }
            if fault == Fault::PaintsSkipped && at < n {
                self.cells[at] = (0, 0);
            }
            return;
        }
        let residual = match fault {
            Fault::UnsignedResiduals => i64::from(reader.get(bits)),
            _ => reader.signed(bits),
        };
        let outside = place.col + place.c >= width;
        let dropped = outside && (place.late || fault == Fault::DroppedSpill);
        let end = if fault == Fault::WritesPastTheFrame { self.cells.len() } else { n };
        if !dropped && at < end {
            let keeps_mark = outside && fault == Fault::MapWithoutSpill;
            self.write(at, self.predicted(place), residual, keeps_mark);
            if fault == Fault::FillerAtItsOwnSamples && reader.filler() > 0 {
                self.fill(place);
            }
        }
    }

    fn write(&mut self, at: usize, (value, mark): Cell, residual: i64, keeps_mark: bool) {
        let sum = match self.fault {
            Fault::SaturatingSum => (i64::from(value) + residual).clamp(0, 65_535) as u16,
            _ => value.wrapping_add(residual as u16),
        };
        let old = self.cells[at].1;
        let mark = match self.fault {
            _ if keeps_mark => old,
            Fault::FillerNotInherited => mark & OLD,
            Fault::FillerKeptAtAWrite => mark | old & FILLER,
            _ => mark,
        };
        self.cells[at] = (sum, mark);
    }

    /// The cell that a sample is predicted from. One that lies past the frame counts as 0; so does the sample then, which is
    /// not written.
    fn predicted(&self, place: Place) -> Cell {
        let Place { row, col, c, direction, .. } = place;
        let (odd, first) = (c % 2, row * self.ask.width + col);
        let at = match self.fault {
            Fault::UpTheOtherWay if direction == 1 && row >= 2 => first + c - (2 - odd) * self.ask.width,
            _ if direction == 1 => first + c - (1 + odd) * self.ask.width,
            Fault::PredictsInsideTheBlock if c >= 2 => first + c - 2,
            Fault::NoConstant if col == 0 => return (0, 0),
            Fault::MarkedConstant if col == 0 => return (128, OLD),
            _ if col == 0 => return (128, 0),
            _ => first + odd - 2,
        };
        if at < self.ask.n() { self.cells[at] } else { (0, 0) }
    }

    fn exchange(&mut self) {
        let Ask { width, height, .. } = *self.ask;
        let last = usize::from(self.fault != Fault::ExchangesTheLastColumn);
        let rows = height - usize::from(self.fault == Fault::ExchangesOneRowLess && height > 0);
        for row in (0..rows).step_by(2).filter(|row| row + 1 < rows) {
            for col in (0..width).step_by(2).filter(|col| col + last < width) {
                let (right, below) = (row * width + col + 1, (row + 1) * width + col);
                if self.fault != Fault::NoExchange && right < self.ask.n() {
                    self.cells.swap(right, below);
                }
            }
        }
    }
}
