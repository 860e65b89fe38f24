//! V2 streams: a writer that follows the rules, so that a stream is accepted or is refused just where it is meant to be.

use super::{colour, fresh_length};
use crate::bits::Writer;
use crate::random::Random;
use crate::{Frame, Version};

/// The fields of a header that count.
#[derive(Clone, Copy, Debug)]
pub struct Header {
    /// 1 to 16.
    pub depth: u32,
    /// 0 to 15.
    pub options: u32,
    /// 14 bits.
    pub initial: u32,
}

impl Header {
    pub fn any(random: &mut Random, options: u32) -> Header {
        Header { depth: 1 + random.below(16) as u32, options, initial: random.below(1 << 14) as u32 }
    }

    /// The other fields are random: they are ignored.
    pub fn write(&self, random: &mut Random, writer: &mut Writer) {
        let rest = random.number() as u32;
        writer.put(rest, 20);
        writer.put(self.depth - 1, 4);
        for width in [8, 16, 16, 16, 4] {
            writer.put(rest.rotate_left(width), width);
        }
        writer.put(self.options, 4);
        for width in [16, 8, 2] {
            writer.put(rest.rotate_left(width), width);
        }
        writer.put(self.initial, 14);
    }
}

/// How a row's scale goes: it stays 0, sinks or rises as far as it can, or does anything.
#[derive(Clone, Copy, Debug)]
pub enum Scale {
    Still,
    Sinks,
    Rises,
    Any,
}

/// How blocks are written.
#[derive(Clone, Copy, Debug)]
pub struct Style {
    pub header: Header,
    pub scale: Scale,
    /// Of 8 blocks, how many set a motion, and how many have no lengths.
    pub motions: u64,
    pub none: u64,
    /// The favoured flag, and how often of 8 times it is taken.
    pub flag: u32,
    pub favour: u64,
    /// Whether differences are any bits, or near 0.
    pub any: bool,
}

impl Style {
    pub fn any(random: &mut Random, options: u32) -> Style {
        Style {
            header: Header::any(random, options),
            scale: [Scale::Still, Scale::Sinks, Scale::Rises, Scale::Any][random.index(4)],
            motions: [0, 1, 4, 8][random.index(4)],
            none: [0, 1, 7][random.index(3)],
            flag: random.below(4) as u32,
            favour: [0, 4, 7][random.index(3)],
            any: random.below(2) == 0,
        }
    }
}

/// A refusal that a stream is to meet, 5 to 7, in a block of a row.
#[derive(Clone, Copy, Debug)]
pub struct Planted {
    pub number: u32,
    pub row: usize,
    pub block: usize,
}

/// The state of a row, as a decoder has it.
struct Row {
    row: usize,
    motion: u32,
    mode: [[u32; 2]; 3],
}

/// Writes a stream; the rows after a planted refusal are as if it were not there.
pub fn written(random: &mut Random, style: &Style, width: usize, height: usize, planted: Option<Planted>) -> Frame {
    let mut writer = Writer::default();
    style.header.write(random, &mut writer);
    let mut offsets = Vec::with_capacity(height);
    for row in 0..height {
        offsets.push(writer.len() as u32);
        let mut state = Row { row, motion: 7, mode: [[fresh_length(row); 2]; 3] };
        for block in 0..width / 16 {
            let here = planted.filter(|p| p.row == row && p.block == block).map(|p| p.number);
            let soon = planted.is_some_and(|p| p.number == 7 && p.row == row && p.block == block + 1);
            write_scale(random, style, &mut writer, 16 * block);
            write_motion(random, style, &mut writer, &mut state, block, here);
            write_lengths_and_differences(random, style, &mut writer, &mut state, here, soon);
        }
        writer.align(16);
    }
    Frame { version: Version::V2, width, height, stream: writer.finish(), offsets }
}

fn write_scale(random: &mut Random, style: &Style, writer: &mut Writer, col: usize) {
    if style.header.options & 4 != 0 || !col.is_multiple_of(64) {
        return;
    }
    let (code, value) = match style.scale {
        Scale::Still => (0, 0),
        Scale::Sinks => (1, 0),
        Scale::Rises if col == 0 => (3, 4_095),
        Scale::Rises => (2, 0),
        Scale::Any => (random.below(4) as u32, (random.number() as u32 & 0xfff) >> random.below(13)),
    };
    writer.put(code, 2);
    if code == 3 {
        writer.put(value, 12);
    }
}

fn write_motion(
    random: &mut Random,
    style: &Style,
    writer: &mut Writer,
    state: &mut Row,
    block: usize,
    planted: Option<u32>,
) {
    let early = state.row < 2 && planted != Some(5);
    if style.header.options & 2 != 0 {
        let up = !early && (planted == Some(5) || random.below(8) < style.motions);
        writer.put(u32::from(up), 1);
        state.motion = if up { 3 } else { 7 };
        return;
    }
    let stray = state.row == 2 && block == 0;
    let motion = match planted {
        Some(5) => random.below(7) as u32,
        Some(6) if stray => random.below(3) as u32,
        _ if random.below(8) >= style.motions => return writer.put(1, 1),
        _ if early => 7,
        // Motions 0 to 2 would refer to before the frame.
        _ if stray => 3 + random.below(5) as u32,
        _ => random.below(8) as u32,
    };
    writer.put(0, 1);
    writer.put(motion, 3);
    state.motion = motion;
}

fn write_lengths_and_differences(
    random: &mut Random,
    style: &Style,
    writer: &mut Writer,
    state: &mut Row,
    planted: Option<u32>,
    soon: bool,
) {
    let always = style.header.options & 1 != 0;
    if !always {
        let none = planted != Some(7) && !soon && random.below(8) < style.none;
        writer.put(u32::from(none), 1);
        if none {
            return;
        }
    }
    let mut fields = [(0, 0); 4];
    for (j, field) in fields.iter_mut().enumerate() {
        let mode = &mut state.mode[colour(state.row, j)];
        let (flag, length) = match (planted, soon) {
            (Some(7), _) => too_long(mode[0], style.header.depth + 1),
            (_, true) => (3, 0),
            _ => fitting(random, style, mode[0]),
        };
        *mode = [mode[1], length];
        *field = (flag, length);
    }
    for (flag, _) in fields {
        writer.put(flag, 2);
    }
    for (_, length) in fields.into_iter().filter(|field| field.0 == 3) {
        writer.put(length, 4);
    }
    for (_, length) in fields.into_iter().filter(|field| field.1 <= style.header.depth + 1) {
        for _ in 0..4 {
            let bits = random.number() as u32;
            writer.put(if style.any { bits } else { (bits % 5).wrapping_sub(2) }, length);
        }
    }
}

/// The length that a flag gives; flag 3 reads one.
fn flagged(flag: u32, first: u32) -> u32 {
    [first, first.wrapping_add(1), first.wrapping_sub(1)][flag as usize]
}

/// A flag and a length that is not refused.
fn fitting(random: &mut Random, style: &Style, first: u32) -> (u32, u32) {
    let most = style.header.depth + 1;
    let flag = if random.below(8) < style.favour { style.flag } else { random.below(4) as u32 };
    if flag < 3 && flagged(flag, first) <= most {
        return (flag, flagged(flag, first));
    }
    (3, random.below(u64::from(most.min(15)) + 1) as u32)
}

/// A flag and a length that is refused, where there is one.
fn too_long(first: u32, most: u32) -> (u32, u32) {
    if let Some(flag) = (0..3).find(|&flag| flagged(flag, first) > most) {
        return (flag, flagged(flag, first));
    }
    if most < 15 { (3, 15) } else { (0, first) }
}
