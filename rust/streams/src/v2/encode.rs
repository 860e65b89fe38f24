//! A V2 encoder: the better of repeating and of motion 3 for each block, and the lengths that take the fewest bits.

use super::any::Header;
use super::{colour, fresh_length, position};
use crate::bits::{self, Writer};
use crate::{Frame, Version};

/// Encodes an image of 14 bits a sample. The last columns, which make no whole block, are not coded.
pub fn encode(image: &[u16], width: usize, height: usize) -> Frame {
    let header = Header { depth: 14, options: 0, initial: 4_000 };
    let mut writer = Writer::default();
    // As the format's fields are: version and format, depth, unit and ratio, size, tile, options, overlap and the like, initial.
    let fields = [(0, 20), (header.depth - 1, 4), (0, 8), (width as u32, 16), (height as u32, 16), (0, 16), (0, 4)];
    let more = [(header.options, 4), (0, 26), (header.initial, 14)];
    fields.into_iter().chain(more).for_each(|(value, bits)| writer.put(value, bits));
    let mut offsets = Vec::new();
    for row in 0..height {
        offsets.push(writer.len() as u32);
        encode_row(image, width, row, &header, &mut writer);
        writer.align(16);
    }
    Frame { version: Version::V2, width, height, stream: writer.finish(), offsets }
}

fn encode_row(image: &[u16], width: usize, row: usize, header: &Header, writer: &mut Writer) {
    let mut mode = [[fresh_length(row); 2]; 3];
    let mut motion = 7;
    for col in (0..width / 16 * 16).step_by(16) {
        if col % 64 == 0 {
            writer.put(0, 2);
        }
        let repeated = differences(image, width, row, col, 7, header);
        let weight = |d: &[i32; 16]| d.iter().map(|d| d.unsigned_abs()).sum::<u32>();
        let above = (row >= 2).then(|| differences(image, width, row, col, 3, header));
        let (wanted, differences) = match above {
            Some(above) if weight(&above) < weight(&repeated) => (3, above),
            _ => (7, repeated),
        };
        writer.put(u32::from(wanted == motion), 1);
        if wanted != motion {
            writer.put(wanted, 3);
            motion = wanted;
        }
        writer.put(0, 1);
        encode_differences(&differences, row, &mut mode, writer);
    }
}

/// The differences in the order of the stream.
fn differences(image: &[u16], width: usize, row: usize, col: usize, motion: u32, header: &Header) -> [i32; 16] {
    let first = row * width + col;
    let mut differences = [0; 16];
    for (k, difference) in differences.iter_mut().enumerate() {
        let i = position(row, k);
        let base = match motion {
            7 if col == 0 => header.initial as u16,
            7 => image[first + i % 2 - 2],
            _ if (row + i) % 2 == 1 => image[first + i - 2 * width],
            _ if i.is_multiple_of(2) => image[first + i - width + 1],
            _ => image[first + i - width - 1],
        };
        *difference = i32::from(image[first + i]) - i32::from(base);
    }
    differences
}

fn encode_differences(differences: &[i32; 16], row: usize, mode: &mut [[u32; 2]; 3], writer: &mut Writer) {
    let mut told = [(0, 0); 4];
    for (j, four) in differences.chunks_exact(4).enumerate() {
        let need = four.iter().map(|&d| bits::length(d)).max().unwrap_or(0);
        let mode = &mut mode[colour(row, j)];
        let near = [(0, mode[0]), (1, mode[0] + 1), (2, mode[0].wrapping_sub(1))];
        let near = near.into_iter().filter(|&(_, length)| length >= need && length <= 15);
        told[j] =
            near.chain([(3, need)]).min_by_key(|&(flag, l)| 4 * l + if flag == 3 { 4 } else { 0 }).expect("flag 3");
        *mode = [mode[1], told[j].1];
    }
    for (flag, _) in told {
        writer.put(flag, 2);
    }
    for (_, length) in told.into_iter().filter(|told| told.0 == 3) {
        writer.put(length, 4);
    }
    for (k, &difference) in differences.iter().enumerate() {
        writer.put(difference as u32, told[k / 4].1);
    }
}
