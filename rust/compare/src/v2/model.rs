//! A V2 decoder of its own, written from the rules: it gives what samsung.rs does not tell, the row of each refusal and the
//! marks. With a fault where wanted: the comparison must find each fault out.

use crate::call::{Answer, Ask, Decoder, Entry, Lent};
use crate::refusals;
use streams::bits::Reader;
use streams::v2::colour;

crate::faults::faults!(
    OverrunFirst,
    FaultyBlockWritten,
    LastRowWithheld,
    TailPainted,
    NoHold,
    HoldToSixteenBits,
    AverageRoundsDown,
    AverageOfNeighbours,
    RepeatsOneSample,
    InitialInEveryBlock,
    RemembersTheLast,
    RemembersNoLengths,
    ScaleKept,
    MotionKept,
    LateLengths,
    EvenOrder,
    ScaleByOne,
    ScaleAtEachBlock,
    TighterLengths,
    AlignsToFour,
    MotionThreeAlways,
    StraightGreen,
    WrongOffset,
    WrongRow,
    StrayCountsAsZero,
    ClearsTheBuffer,
    WritesPastTheFrame,
    MapAllOld,
    MapAllNew,
    MapKeptFromEntry,
    MapOfTheFirst,
    MapOfOneInAverage,
    MapAfterDoneOnly,
    MapPastTheFrame,
    TouchesAMapNotLent,
    CountsNothing,
    CountsRows,
    CountsOverrunAlone,
    HeaderNotCounted,
    LengthsReadAhead,
    OverrunOfOneWord,
    FillerNotMarked,
    FillerBeforeTheBlock,
    FillerOfTheRow,
    FaultyBlockFilled,
    TailFilled,
);

/// The entry of a decoder with a fault.
pub fn entry(fault: Fault, map: bool) -> Entry {
    Entry::new("a decoder of its own", Decoder::V2, map, move |ask, lent| decode(fault, map, ask, lent))
}

/// The parts of a map byte.
const OLD: u8 = 1;
const FILLER: u8 = 2;

const OFFSETS: [i64; 7] = [-4, -2, -2, 0, 0, 2, 4];

/// What a stream makes use of.
#[derive(Clone, Debug, Default, PartialEq, Eq)]
pub struct Used {
    /// Blocks with each motion, lengths by each flag, and blocks without lengths.
    pub motions: [u64; 8],
    pub flags: [u64; 4],
    pub none: u64,
    /// The lowest and the highest scale.
    pub scales: [i64; 2],
    /// Samples held to 0 and to the top.
    pub held: [u64; 2],
}

impl Used {
    /// Adds what another stream makes use of.
    pub fn add(&mut self, other: &Used) {
        let pairs = self.motions.iter_mut().zip(other.motions).chain(self.flags.iter_mut().zip(other.flags));
        for (mine, others) in pairs.chain(self.held.iter_mut().zip(other.held)) {
            *mine += others;
        }
        self.none += other.none;
        self.scales = [self.scales[0].min(other.scales[0]), self.scales[1].max(other.scales[1])];
    }
}

struct Work<'a> {
    fault: Fault,
    ask: &'a Ask<'a>,
    depth: u32,
    options: u32,
    initial: u16,
    samples: &'a mut [u16],
    marks: Vec<u8>,
    /// How many words were missing in the header and the rows before.
    filler: u64,
    used: Used,
}

/// What a row's blocks hand on.
struct Row {
    row: usize,
    motion: u32,
    scale: i64,
    mode: [[u32; 2]; 3],
}

/// Decodes a frame that is not refused by 1 to 4, and gives the marks and what was made use of.
pub fn marked(fault: Fault, ask: &Ask, samples: &mut [u16]) -> (Answer, Vec<u8>, Used) {
    let mut header = Reader::new(ask.src, 0);
    header.get(20);
    let depth = header.get(4) + 1;
    header.get(32);
    header.get(28);
    let options = header.get(4);
    header.get(26);
    let initial = header.get(14) as u16;
    let filler = if fault == Fault::HeaderNotCounted { 0 } else { header.filler() };
    let (marks, used) = (vec![OLD; ask.n()], Used::default());
    let mut work = Work { fault, ask, depth, options, initial, samples, marks, filler, used };
    let answer = work.rows();
    (Answer { filler: told(fault, answer), ..answer }, work.marks, work.used)
}

/// How many words a decoder with a fault says were missing.
fn told(fault: Fault, answer: Answer) -> u64 {
    match fault {
        Fault::CountsNothing => 0,
        Fault::CountsRows => answer.filler.min(1),
        Fault::CountsOverrunAlone if answer.number != 8 => 0,
        _ => answer.filler,
    }
}

pub fn decode(fault: Fault, map: bool, ask: &Ask, lent: &mut Lent) -> Answer {
    let lens = refusals::Lens::of(ask, lent);
    if let Some(number) = refusals::number(Decoder::V2, map, ask.width, ask.height, lens) {
        return Answer::refused(number);
    }
    let n = ask.n();
    match fault {
        Fault::ClearsTheBuffer => lent.samples[..n].fill(0),
        Fault::WritesPastTheFrame if lent.samples.len() > n => lent.samples[n] ^= 1,
        Fault::MapPastTheFrame if map && lent.map.len() > n => lent.map[n] ^= 1,
        _ => {}
    }
    let (answer, marks, _) = marked(fault, ask, lent.samples);
    let untouched = fault == Fault::MapAfterDoneOnly && answer != Answer::DONE;
    if (map || fault == Fault::TouchesAMapNotLent && lent.map.len() >= n) && !untouched {
        for (byte, mark) in lent.map.iter_mut().zip(marks) {
            *byte = match fault {
                Fault::MapAllOld => 1,
                Fault::MapAllNew => 0,
                Fault::MapKeptFromEntry if mark == OLD => *byte,
                _ => mark,
            };
        }
    }
    answer
}

impl Work<'_> {
    fn rows(&mut self) -> Answer {
        let (mut start, mut motion, mut scale) = (16, 7, 0);
        for row in 0..self.ask.height {
            let fresh = if row < 2 && self.fault != Fault::LateLengths { 7 } else { 4 };
            let mut state = Row { row, motion, scale, mode: [[fresh; 2]; 3] };
            let mut reader = Reader::new(self.ask.src, start);
            let before = match self.fault {
                Fault::LastRowWithheld => self.samples[row * self.ask.width..][..self.ask.width].to_vec(),
                _ => Vec::new(),
            };
            if let Err(refused) = self.blocks(&mut state, &mut reader) {
                return refused;
            }
            if self.fault == Fault::TailPainted {
                let tail = self.ask.width / 16 * 16;
                self.samples[row * self.ask.width..][tail..self.ask.width].fill(0);
            }
            self.filler += reader.filler();
            self.fill_wrongly(row);
            if self.filler > 0 && (self.filler == 1 || self.fault != Fault::OverrunOfOneWord) {
                self.samples[row * self.ask.width..][..before.len()].copy_from_slice(&before);
                return Answer { number: 8, row: row as u32, filler: self.filler };
            }
            start = reader.pos().next_multiple_of(if self.fault == Fault::AlignsToFour { 4 } else { 16 });
            motion = if self.fault == Fault::MotionKept { state.motion } else { 7 };
            scale = if self.fault == Fault::ScaleKept { state.scale } else { 0 };
        }
        Answer::DONE
    }

    /// A row's blocks, up to a refusal. Those by whose end a word was missing, in the header or since, get a filler part.
    fn blocks(&mut self, state: &mut Row, reader: &mut Reader) -> Result<(), Answer> {
        for col in (0..self.ask.width / 16).map(|block| 16 * block) {
            let before = self.filler + reader.filler();
            let outcome = self.block(state, col, reader);
            let filler = self.filler + reader.filler();
            let marked = match self.fault {
                Fault::FillerBeforeTheBlock => before,
                Fault::FillerNotMarked => 0,
                _ => filler,
            };
            if marked > 0 && (outcome.is_ok() || self.fault == Fault::FaultyBlockFilled) {
                let first = state.row * self.ask.width + col;
                self.marks[first..first + 16].iter_mut().for_each(|mark| *mark |= FILLER);
            }
            outcome.map_err(|number| {
                let row = state.row as u32 + u32::from(self.fault == Fault::WrongRow);
                let number = if self.fault == Fault::OverrunFirst && filler > 0 { 8 } else { number };
                Answer { number, row, filler }
            })?;
        }
        Ok(())
    }

    /// Filler parts for more of a row than its blocks, by a fault.
    fn fill_wrongly(&mut self, row: usize) {
        let from = match self.fault {
            Fault::FillerOfTheRow => 0,
            Fault::TailFilled => self.ask.width / 16 * 16,
            _ => return,
        };
        if self.filler > 0 {
            let row = &mut self.marks[row * self.ask.width..][from..self.ask.width];
            row.iter_mut().for_each(|mark| *mark |= FILLER);
        }
    }

    fn block(&mut self, state: &mut Row, col: usize, reader: &mut Reader) -> Result<(), u32> {
        self.scale(state, col, reader);
        self.motion(state, reader);
        let base = self.base(state, col)?;
        let first = state.row * self.ask.width + col;
        let lengths = self.lengths(state, reader).inspect_err(|_| {
            if self.fault == Fault::FaultyBlockWritten {
                self.samples[first] = base[0].0;
            }
        })?;
        let mut differences = [0; 16];
        for k in 0..16 {
            let odd = state.row % 2 == 1 && self.fault != Fault::EvenOrder;
            let position = if odd { 2 * (k % 8) + 1 - k / 8 } else { 2 * (k % 8) + k / 8 };
            differences[position] = reader.signed(lengths[k / 4]);
        }
        for (i, (sample, mark)) in base.into_iter().enumerate() {
            let value = i64::from(sample) + differences[i] * (2 * state.scale + 1) + state.scale;
            self.samples[first + i] = self.held(value);
            self.marks[first + i] = mark;
        }
        Ok(())
    }

    fn held(&mut self, value: i64) -> u16 {
        let top = match self.fault {
            Fault::HoldToSixteenBits => 65_535,
            _ => (1 << self.depth) - 1,
        };
        self.used.held[0] += u64::from(value < 0);
        self.used.held[1] += u64::from(value > top);
        if self.fault == Fault::NoHold { value as u16 } else { value.clamp(0, top) as u16 }
    }

    fn scale(&mut self, state: &mut Row, col: usize, reader: &mut Reader) {
        let every = if self.fault == Fault::ScaleAtEachBlock { 16 } else { 64 };
        if self.options & 4 != 0 || !col.is_multiple_of(every) {
            return;
        }
        let step = if self.fault == Fault::ScaleByOne { 1 } else { 2 };
        match reader.get(2) {
            0 => {}
            1 => state.scale -= step,
            2 => state.scale += step,
            _ => state.scale = i64::from(reader.get(12)),
        }
        self.used.scales = [self.used.scales[0].min(state.scale), self.used.scales[1].max(state.scale)];
    }

    fn motion(&mut self, state: &mut Row, reader: &mut Reader) {
        if self.options & 2 != 0 {
            let up = reader.get(1) == 1 || self.fault == Fault::MotionThreeAlways && state.row >= 2;
            state.motion = if up { 3 } else { 7 };
        } else if reader.get(1) == 0 {
            state.motion = reader.get(3);
        }
        self.used.motions[state.motion as usize] += 1;
    }

    /// The base of each sample, with its mark.
    fn base(&self, state: &Row, col: usize) -> Result<[(u16, u8); 16], u32> {
        if state.motion == 7 {
            return Ok(self.repeated(state.row * self.ask.width + col, col));
        }
        if state.row < 2 {
            return Err(5);
        }
        let mut base = [(0, 0); 16];
        for (i, b) in base.iter_mut().enumerate() {
            *b = match self.referred(state, col, i) {
                None if self.fault == Fault::StrayCountsAsZero => (0, 0),
                None => return Err(6),
                Some(cell) => cell,
            };
        }
        Ok(base)
    }

    /// The two samples before the block, again and again; at column 0 the initial sample.
    fn repeated(&self, first: usize, col: usize) -> [(u16, u8); 16] {
        let mut base = [(self.initial, 0); 16];
        if col == 0 || self.fault == Fault::InitialInEveryBlock {
            return base;
        }
        for (i, b) in base.iter_mut().enumerate() {
            let before = if self.fault == Fault::RepeatsOneSample { 1 } else { 2 - i % 2 };
            *b = self.cell(first - before);
            if self.fault == Fault::MapOfTheFirst {
                b.1 = self.marks[first - 2];
            }
        }
        base
    }

    fn cell(&self, at: usize) -> (u16, u8) {
        (self.samples[at], self.marks[at])
    }

    /// What sample `i` refers to in the rows above; nothing where that lies outside the frame.
    fn referred(&self, state: &Row, col: usize, i: usize) -> Option<(u16, u8)> {
        let average = [2, 4].contains(&state.motion);
        let offset = match self.fault {
            Fault::WrongOffset if state.motion == 5 => 4,
            _ => OFFSETS[state.motion as usize],
        };
        let width = self.ask.width as i64;
        let side = 1 - 2 * (i as i64 % 2);
        let (up, side) = match (state.row + i) % 2 {
            1 => (2 * width, 0),
            _ if self.fault == Fault::StraightGreen => (width, 0),
            _ => (width, side),
        };
        let at = (state.row * self.ask.width + col + i) as i64 - up + offset + side;
        if at < 0 || at + if average { 2 } else { 0 } >= self.ask.n() as i64 {
            return None;
        }
        let one = self.cell(at as usize);
        if !average {
            return Some(one);
        }
        let other = self.cell(at as usize + if self.fault == Fault::AverageOfNeighbours { 1 } else { 2 });
        let round = u32::from(self.fault != Fault::AverageRoundsDown);
        let mark = if self.fault == Fault::MapOfOneInAverage { one.1 } else { one.1 | other.1 };
        Some((((u32::from(one.0) + u32::from(other.0) + round) / 2) as u16, mark))
    }

    fn lengths(&mut self, state: &mut Row, reader: &mut Reader) -> Result<[u32; 4], u32> {
        let mut lengths = [0; 4];
        if self.options & 1 == 0 && reader.get(1) == 1 {
            self.used.none += 1;
            if self.fault == Fault::RemembersNoLengths {
                state.mode = [[0; 2]; 3];
            }
            return Ok(lengths);
        }
        let flags = [0; 4].map(|_| reader.get(2));
        for (j, flag) in flags.into_iter().enumerate() {
            self.used.flags[flag as usize] += 1;
            let mode = &mut state.mode[colour(state.row, j)];
            let first = if self.fault == Fault::RemembersTheLast { mode[1] } else { mode[0] };
            let length = match flag {
                0 => first,
                1 => first.wrapping_add(1),
                2 => first.wrapping_sub(1),
                _ => reader.get(4),
            };
            *mode = [mode[1], length];
            let most = self.depth + u32::from(self.fault != Fault::TighterLengths);
            if length > most {
                if self.fault == Fault::LengthsReadAhead {
                    reader.get(4 * flags[j + 1..].iter().filter(|&&flag| flag == 3).count() as u32);
                }
                return Err(7);
            }
            lengths[j] = length;
        }
        Ok(lengths)
    }
}
