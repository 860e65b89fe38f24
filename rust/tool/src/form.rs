//! What a frame is written as.

use crate::picture::{Image, picture};
use crate::planes::side_by_side;
use crate::png_file::png_file;
use crate::worker::Memory;
use crate::{pgm, v0, v2};
use razvolk::Marks;
use razvolk::srw::Frame;
use std::mem;

/// The forms of an output.
#[derive(Clone, Copy, Debug, PartialEq, Eq, clap::ValueEnum)]
pub enum Form {
    /// A picture that shows the marks.
    Png,
    /// The samples, 16 bits each.
    Pgm,
    /// A picture of the four colour planes, side by side.
    Planes,
    /// The samples as V0, to be decoded again.
    V0,
    /// A V0 frame as V2, to be decoded again.
    V2,
}

impl Form {
    /// Whether it stores the frame, to be decoded again: a refused one would pass for a whole one.
    pub fn is_stored(self) -> bool {
        matches!(self, Form::V0 | Form::V2)
    }

    /// How the name of such an output ends in a folder, after the name of its frame.
    pub fn ending(self) -> &'static str {
        match self {
            Form::Pgm => ".pgm",
            Form::Png => ".png",
            Form::Planes => "-planes.png",
            Form::V0 => "-v0.srw",
            Form::V2 => "-v2.srw",
        }
    }
}

/// How a picture is made.
#[derive(Clone, Copy, Debug, Default, PartialEq, Eq, clap::Args)]
#[command(next_help_heading = "Pictures")]
pub struct Picture {
    /// The sensor's own grid in grey, a pixel a sample; else a pixel for each square of four, in colour where the file tells
    /// its colour filter
    #[arg(long)]
    pub full: bool,
    /// Draw a thin line around what --blank has set
    #[arg(long, requires = "blank")]
    pub outline: bool,
    /// The sample that is white; else one that 199 of 200 don't exceed
    #[arg(long, value_name = "NUMBER")]
    pub white: Option<u16>,
    /// Brightness in proportion to the sample; else a gamma curve of 1/2.2
    #[arg(long)]
    pub linear: bool,
}

/// A decoded frame.
#[derive(Clone, Copy)]
pub struct Decoded<'a> {
    /// The frame as it is coded.
    pub coded: &'a Frame<'a>,
    pub samples: &'a [u16],
    pub marks: Marks<'a>,
    /// Whether nothing is marked.
    pub clean: bool,
    /// Whether the marked samples are blanked: there is nothing to show of them then.
    pub blanked: bool,
    pub width: usize,
    pub height: usize,
    /// The bits of a sample, where they are known.
    pub depth: Option<u32>,
    /// The camera's.
    pub model: Option<&'a str>,
}

/// A decoded frame in a form, or why it has none.
pub fn file(form: Form, frame: Decoded, how: Picture, memory: &mut Memory) -> Result<Vec<u8>, String> {
    let Decoded { samples, marks, blanked, width, .. } = frame;
    if !form.is_stored() && samples.is_empty() {
        return Err("a frame of no samples makes no picture".into());
    }
    Ok(match form {
        Form::Pgm => pgm::file(samples, width, frame.depth),
        Form::Png => as_png(picture(frame, how, mem::take(&mut memory.pixels)), memory)?,
        Form::Planes => {
            let marks: Vec<u16> = marks.bytes().iter().map(|&mark| if blanked { 0 } else { mark.into() }).collect();
            let marks: Vec<u8> = side_by_side(&marks, width).iter().map(|&mark| mark as u8).collect();
            as_png(Image::grey(&side_by_side(samples, width), &marks, 2 * width, how), memory)?
        }
        Form::V0 => v0::file(frame).map_err(|refusal| format!("can't be written as V0: {refusal}"))?,
        Form::V2 => v2::file(frame)?,
    })
}

fn as_png(image: Image, memory: &mut Memory) -> Result<Vec<u8>, String> {
    png_file(image, memory).map_err(|fault| format!("can't be written as PNG: {fault}"))
}
