//! `frames FOLDER` writes frames to look at with `razvolk`, in a camera's container:
//!
//! - `sitting.srw`: V0, what a worker decoded before;
//! - `christening.srw`: V0, whose first 24 rows are upward blocks: they show what the buffer held;
//! - `corner.srw`: the same but for its first 96 columns, which are coded;
//! - `upload.srw`: V0, a file of a frame that breaks off at half its height;
//! - `christening-v2.srw`: V2, of a width that 16 does not divide;
//! - `small.srw`, `small-v2.srw`: a V0 frame of 20 by 5, and a V2 frame that breaks off in row 37, to damage;
//! - in `large`, the first four in colour, three times as wide and high.

use razvolk::srw::{self, Coding, Colour};
use std::path::Path;
use std::{env, fs, io};
use streams::images::{christening, sitting};
use streams::{Frame, Version, v0, v2};

fn main() -> io::Result<()> {
    let folder = env::args_os().nth(1).ok_or_else(|| io::Error::other("usage: frames FOLDER"))?;
    let folder = Path::new(&folder);
    fs::create_dir_all(folder.join("large"))?;
    let v2 = v2::encode(&christening(646, 436), 646, 436);
    for (name, frame) in [
        ("christening-v2.srw", v2.clone()),
        ("small.srw", v0::encode::with_band(&christening(20, 5), 20, 5, 1)),
        ("small-v2.srw", v2.cut(3_000)),
    ] {
        fs::write(folder.join(name), file(frame, None))?;
    }
    four(folder, 1, |image| image, None)?;
    let filter = [Colour::Red, Colour::Green, Colour::Green, Colour::Blue];
    four(&folder.join("large"), 3, coloured, Some(filter))
}

/// The four frames that show what there is to see, so many times as large.
fn four(
    folder: &Path,
    times: usize,
    look: impl Fn(Vec<u16>) -> Vec<u16>,
    filter: Option<[Colour; 4]>,
) -> io::Result<()> {
    let (width, height) = (320 * times, 200 * times);
    let [sitting, christening] = [sitting(width, height), christening(width, height)].map(look);
    let (band, corner) = (24 * times, 96 * times);
    let whole = v0::encode(&christening, width, height);
    let missing = whole.stream.len() - whole.row(height / 2).start;
    let put = |name: &str, frame: Frame| fs::write(folder.join(name), file(frame, filter));
    put("sitting.srw", v0::encode(&sitting, width, height))?;
    put("christening.srw", v0::encode::with_band(&christening, width, height, band))?;
    put("corner.srw", v0::encode::with_corner(&christening, width, height, band, corner))?;
    let mut upload = file(whole, filter);
    upload.truncate(upload.len() - missing);
    fs::write(folder.join("upload.srw"), upload)
}

/// A drawing of 960 columns through a colour filter: what is light is warm, what is dark is cool, and the sensor sees green best.
fn coloured(image: Vec<u16>) -> Vec<u16> {
    let part = |(at, sample): (usize, u16)| {
        let colours = if sample > 7_800 { [1.0, 0.88, 0.66] } else { [0.66, 0.8, 1.0] };
        let channel = at / 960 % 2 + at % 960 % 2;
        let seen = f64::from(sample) * colours[channel] * [0.6, 1.0, 0.7][channel];
        // Film grain, so that it doesn't look like a drawing.
        let grain = (at.wrapping_mul(2_654_435_761) >> 7) % 240;
        (seen + grain as f64) as u16
    };
    image.into_iter().enumerate().map(part).collect()
}

fn file(frame: Frame, filter: Option<[Colour; 4]>) -> Vec<u8> {
    let coding = if frame.version == Version::V0 { Coding::V0(frame.offsets) } else { Coding::V2 };
    let mut coded = srw::Frame::new(coding, frame.width, frame.height, &frame.stream);
    coded.colour_filter = filter;
    coded.to_file()
}
