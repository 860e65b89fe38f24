//! The strip below a picture that says what its tints mean, and how much is tinted.

use crate::form::Decoded;
use crate::picture::{Image, tinted};
use crate::verdict::percent;

/// A glyph's rows, of five bits each, the leftmost highest, and how far it is to the next.
type Glyph = [u8; 7];
const STEP: usize = 6;
const LINE: usize = 11;
const PAPER: [u8; 3] = [24; 3];
const INK: [u8; 3] = [235; 3];

/// The picture with the strip, if something of the frame is marked and the words have room.
pub fn below(mut image: Image, frame: Decoded) -> Image {
    let items = items(frame);
    let widest = items.iter().map(|(_, text)| (text.chars().count() + 3) * STEP).max();
    let Some(scale) =
        widest.map(|widest| (image.width / widest).min(image.width.div_ceil(480))).filter(|&scale| scale > 0)
    else {
        return image;
    };
    let mut strip = Strip { width: image.width, scale, pixels: Vec::new() };
    let (mut x, mut line) = (image.width, None);
    for (colour, text) in items {
        let long = (text.chars().count() + 3) * STEP * scale;
        if x + long > image.width {
            line = Some(line.map_or(0, |line| line + 1));
            x = 0;
        }
        strip.write(x, line.unwrap_or(0), colour, &text);
        x += long;
    }
    image.pixels.append(&mut strip.pixels);
    image
}

/// Each tint, and what it means.
fn items(frame: Decoded) -> Vec<([u8; 3], String)> {
    let bytes = frame.marks.bytes();
    let having = |mark: u8| bytes.iter().filter(|&&byte| byte == mark).count();
    let told = [(1, "of another picture"), (2, "missing"), (3, "both")];
    let item = |(mark, name): (u8, &str)| {
        let count = having(mark);
        let ending = if frame.blanked { ", blanked" } else { "" };
        let colour = if frame.blanked { [128; 3] } else { tinted(200, mark) };
        (count > 0).then(|| (colour, format!("{} {name}{ending}", percent(count, bytes.len()))))
    };
    told.into_iter().filter_map(item).collect()
}

/// Lines that grow as they are written.
struct Strip {
    width: usize,
    scale: usize,
    pixels: Vec<[u8; 3]>,
}

impl Strip {
    /// A patch of the colour and a text behind it, from a column on, in a line.
    fn write(&mut self, x: usize, line: usize, colour: [u8; 3], text: &str) {
        let rows = (line + 1) * LINE * self.scale;
        if self.pixels.len() < rows * self.width {
            self.pixels.resize(rows * self.width, PAPER);
        }
        self.glyph(x + 2 * self.scale, line, [0, 31, 31, 31, 31, 31, 31], colour);
        for (i, c) in text.chars().enumerate() {
            self.glyph(x + ((i + 1) * STEP + 4) * self.scale, line, glyph(c), INK);
        }
    }

    fn glyph(&mut self, x: usize, line: usize, rows: Glyph, colour: [u8; 3]) {
        for (row, bits) in rows.into_iter().enumerate() {
            for column in (0..5).filter(|column| bits >> (4 - column) & 1 == 1) {
                for down in 0..self.scale {
                    let y = (line * LINE + 2 + row) * self.scale + down;
                    let from = y * self.width + x + column * self.scale;
                    self.pixels[from..from + self.scale].fill(colour);
                }
            }
        }
    }
}

/// The glyphs of what is said here; anything else is a blank.
fn glyph(c: char) -> Glyph {
    match c {
        'a' => [0, 0, 14, 1, 15, 17, 15],
        'b' => [16, 16, 22, 25, 17, 17, 30],
        'c' => [0, 0, 14, 16, 16, 17, 14],
        'd' => [1, 1, 13, 19, 17, 17, 15],
        'e' => [0, 0, 14, 17, 31, 16, 14],
        'f' => [6, 9, 8, 28, 8, 8, 8],
        'g' => [0, 15, 17, 17, 15, 1, 14],
        'h' => [16, 16, 22, 25, 17, 17, 17],
        'i' => [4, 0, 12, 4, 4, 4, 14],
        'k' => [16, 16, 18, 20, 24, 20, 18],
        'l' => [12, 4, 4, 4, 4, 4, 14],
        'm' => [0, 0, 26, 21, 21, 17, 17],
        'n' => [0, 0, 22, 25, 17, 17, 17],
        'o' => [0, 0, 14, 17, 17, 17, 14],
        'p' => [0, 0, 30, 17, 30, 16, 16],
        'r' => [0, 0, 22, 25, 16, 16, 16],
        's' => [0, 0, 14, 16, 14, 1, 30],
        't' => [8, 8, 28, 8, 8, 9, 6],
        'u' => [0, 0, 17, 17, 17, 19, 13],
        'v' => [0, 0, 17, 17, 17, 10, 4],
        '0' => [14, 17, 19, 21, 25, 17, 14],
        '1' => [4, 12, 4, 4, 4, 4, 14],
        '2' => [14, 17, 1, 2, 4, 8, 31],
        '3' => [31, 2, 4, 2, 1, 17, 14],
        '4' => [2, 6, 10, 18, 31, 2, 2],
        '5' => [31, 16, 30, 1, 1, 17, 14],
        '6' => [6, 8, 16, 30, 17, 17, 14],
        '7' => [31, 1, 2, 4, 8, 8, 8],
        '8' => [14, 17, 17, 14, 17, 17, 14],
        '9' => [14, 17, 17, 15, 1, 2, 12],
        '%' => [24, 25, 2, 4, 8, 19, 3],
        ',' => [0, 0, 0, 0, 12, 4, 8],
        _ => [0; 7],
    }
}

#[cfg(test)]
mod tests {
    use super::*;

    #[test]
    fn every_letter_that_is_said_has_a_glyph() {
        let said = "under over of another picture, missing, both, blanked 0123456789 %";
        assert!(said.chars().all(|c| c == ' ' || glyph(c) != [0; 7]));
        let letters = said.chars().filter(|c| *c != ' ').collect::<std::collections::BTreeSet<char>>();
        assert_eq!(letters.iter().map(|&c| glyph(c)).collect::<std::collections::BTreeSet<_>>().len(), letters.len());
    }
}
