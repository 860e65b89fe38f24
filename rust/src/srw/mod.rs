//! A camera's `.srw` file: a TIFF file with a directory that names the compression, the size, the strip and, in V0, the table
//! of row offsets. [`frame`] finds the frame in a file's bytes; [`Frame::to_file`] writes such a file.
//!
//! Nothing that a file says is believed beyond the file's own end, and nothing is allocated but the offset table, which is no
//! longer than the file: any bytes may be handed in.
//!
//! ```
//! use razvolk::srw::{self, Coding};
//! use razvolk::{Decoder, write_v0_to_vecs};
//!
//! // A file as it could come from a camera.
//! let (stream, offsets) = write_v0_to_vecs(&[100, 200, 300, 400], 2, 2)?;
//! let file = srw::Frame::new(Coding::V0(offsets), 2, 2, &stream).to_file();
//!
//! let frame = srw::frame(&file).expect("a frame");
//! let mut samples = vec![0; frame.width * frame.height];
//! let mut decoder = Decoder::new();
//! let marks = match &frame.coding {
//!     Coding::V0(offsets) => decoder.decode_v0_direct(frame.stream, offsets, frame.width, frame.height, &mut samples)?,
//!     Coding::V2 => decoder.decode_v2(frame.stream, frame.width, frame.height, &mut samples)?,
//! };
//! assert!(marks.is_clean() && frame.missing == 0);
//! assert_eq!(samples, [100, 200, 300, 400]);
//! # Ok::<(), razvolk::Refusal>(())
//! ```
//!
//! Width and height come from the file, and a few bytes can claim any: look at them before you ask for memory.

mod colour;
mod tag;
mod tiff;
mod write;

use crate::MAX_SIDE;
use crate::bits::{self, Bits};
use std::{error, fmt, iter};
use tiff::{Directory, Tiff};

pub use colour::Colour;

/// How a frame is coded.
#[derive(Clone, Debug, PartialEq, Eq)]
pub enum Coding {
    /// With the offset of each row in the stream. A height above [`MAX_SIDE`], which every decoder refuses, gets none.
    V0(Vec<u32>),
    /// One stream.
    V2,
}

impl fmt::Display for Coding {
    fn fmt(&self, f: &mut fmt::Formatter<'_>) -> fmt::Result {
        f.write_str(if *self == Coding::V2 { "V2" } else { "V0" })
    }
}

/// A frame to decode.
#[derive(Clone, Debug, PartialEq, Eq)]
#[non_exhaustive]
pub struct Frame<'a> {
    /// How it is coded.
    pub coding: Coding,
    /// The width, margins included.
    pub width: usize,
    /// The height, margins included.
    pub height: usize,
    /// The stream, as far as the file has it.
    pub stream: &'a [u8],
    /// How many bytes of the stream the file says to have and has not: an upload that broke off.
    pub missing: usize,
    /// The bits of a sample, where the file tells them.
    pub bits: Option<u32>,
    /// The camera's model, where the file tells it.
    pub model: Option<&'a str>,
    /// The sensor's colour filter, where the file tells one of 2 by 2: the colours of rows 0 and 1 in columns 0 and 1, row by row.
    /// The frame repeats them.
    pub colour_filter: Option<[Colour; 4]>,
    /// How the picture is to be turned, where the file tells it: 1 to 8, as TIFF counts. 1 is as it is, 3 upside down; 6 is shown
    /// turned right by 90 degrees, 8 left; 2, 4, 5 and 7 are mirrored as well.
    pub orientation: Option<u8>,
}

/// What V2's stream says of its frame in its own header. The decoders go by the depth alone.
#[derive(Clone, Copy, Debug, PartialEq, Eq)]
pub struct V2Header {
    /// The width; 0 in some files that are written.
    pub width: usize,
    /// The height; 0 in some files that are written.
    pub height: usize,
    /// The bits of a sample.
    pub depth: u32,
}

impl<'a> Frame<'a> {
    /// A frame that no file tells of: no byte is missing, and neither bits, model, colour filter nor orientation are known.
    pub const fn new(coding: Coding, width: usize, height: usize, stream: &'a [u8]) -> Frame<'a> {
        Frame {
            coding,
            width,
            height,
            stream,
            missing: 0,
            bits: None,
            model: None,
            colour_filter: None,
            orientation: None,
        }
    }

    /// What V2's header says; none in V0, or where the stream ends in the header.
    ///
    /// ```
    /// use razvolk::srw::{Coding, Frame, V2Header};
    /// let stream = [0x00, 0x0d, 0x00, 0x00, 0xb4, 0x01, 0x86, 0x02, 0, 0, 0, 0, 0, 0, 0, 0];
    /// let header = Frame::new(Coding::V2, 646, 436, &stream).v2_header();
    /// assert_eq!(header, Some(V2Header { width: 646, height: 436, depth: 14 }));
    /// ```
    pub fn v2_header(&self) -> Option<V2Header> {
        if !matches!(self.coding, Coding::V2) || self.stream.len() < 16 {
            return None;
        }
        let mut reader = Bits::new(0);
        let mut field = |width| {
            let got = bits::get(self.stream, reader, width);
            reader = got.bits;
            got.value
        };
        // Version and format; depth; unit and ratio; width; height.
        let [_, depth, _, width, height] = [20, 4, 8, 16, 16].map(&mut field);
        Some(V2Header { width: width as usize, height: height as usize, depth: depth + 1 })
    }
}

/// Why a file holds no frame that can be decoded.
#[derive(Clone, Debug, PartialEq, Eq)]
#[non_exhaustive]
pub enum Fault {
    /// Not a TIFF file.
    NotTiff,
    /// No directory has V0 or V2; the compressions that there are.
    NoFrame(Vec<u32>),
    /// V0's number without a table of row offsets: the samples are not compressed.
    Uncompressed,
    /// V1, which is not decoded.
    V1,
    /// V2's number, which is PackBits elsewhere, and nothing says that the file is a Samsung camera's.
    PackBits,
    /// The raw directory lacks a tag that is needed.
    Missing(u16),
    /// The frame is in so many strips, not in one.
    Strips(u32),
    /// The table of row offsets ends after so many rows.
    Table {
        /// The rows that it has.
        rows: usize,
        /// The rows of the frame.
        height: usize,
    },
}

impl fmt::Display for Fault {
    fn fmt(&self, f: &mut fmt::Formatter<'_>) -> fmt::Result {
        match self {
            Fault::NotTiff => write!(f, "not a TIFF file"),
            Fault::NoFrame(found) if found.is_empty() => write!(f, "a TIFF file of no compression"),
            Fault::NoFrame(found) => {
                let found: Vec<String> = found.iter().map(u32::to_string).collect();
                write!(f, "no Samsung V0 (32770) or V2 (32773): the file has compression {}", found.join(", "))
            }
            Fault::Uncompressed => {
                write!(f, "compression 32770 without tag 40976 is uncompressed: there is nothing to decode")
            }
            Fault::V1 => write!(f, "compression 32772 (V1) is not decoded"),
            Fault::PackBits => {
                write!(f, "compression 32773 is PackBits, since neither maker nor tag 40976 says Samsung")
            }
            Fault::Missing(tag) => write!(f, "the raw directory has no number in tag {tag}"),
            Fault::Strips(strips) => write!(f, "the frame is in {strips} strips, not in one"),
            Fault::Table { rows, height } => write!(f, "the table of row offsets ends after {rows} of {height} rows"),
        }
    }
}

impl error::Error for Fault {}

/// The frame of a camera's file: of the first directory that has one.
///
/// # Errors
///
/// Where there is none, or what it needs is not there. A stream that breaks off is no fault: [`Frame::missing`] tells it.
///
/// ```
/// assert_eq!(razvolk::srw::frame(b"GIF89a").unwrap_err().to_string(), "not a TIFF file");
/// ```
pub fn frame<'a>(file: &'a [u8]) -> Result<Frame<'a>, Fault> {
    let tiff = Tiff::open(file).ok_or(Fault::NotTiff)?;
    let directories = tiff.directories();
    let text = |tag| directories.iter().find_map(|&directory| tiff.text(directory, tag));
    let told = |found: Result<Frame<'a>, Fault>, directory| {
        let turned = iter::once(&directory).chain(&directories).find_map(|&directory| orientation(&tiff, directory));
        found.map(|frame| Frame { model: text(tag::MODEL), orientation: turned, ..frame })
    };
    let samsung = text(tag::MAKE).is_some_and(|make| make.to_ascii_uppercase().starts_with("SAMSUNG"));
    let (mut nearest, mut found) = (None, Vec::new());
    for &directory in &directories {
        let Some(compression) = tiff.number(directory, tag::COMPRESSION) else { continue };
        let tagged = tiff.entry(directory, tag::ROW_OFFSETS).is_some();
        match compression {
            tag::V0 if tagged => return told(raw(&tiff, directory, true), directory),
            tag::V2 if tagged || samsung => return told(raw(&tiff, directory, false), directory),
            tag::V0 => nearest = Some(Fault::Uncompressed),
            tag::V1 => nearest = Some(Fault::V1),
            tag::V2 => nearest = Some(Fault::PackBits),
            _ if found.contains(&compression) => {}
            _ => found.push(compression),
        }
    }
    Err(nearest.unwrap_or(Fault::NoFrame(found)))
}

/// The frame of the raw directory, but for what other directories may tell of it.
fn raw<'a>(tiff: &Tiff<'a>, directory: Directory, v0: bool) -> Result<Frame<'a>, Fault> {
    let need = |tag| tiff.number(directory, tag).map(|number| number as usize).ok_or(Fault::Missing(tag));
    let (width, height) = (need(tag::WIDTH)?, need(tag::HEIGHT)?);
    let strips = tiff.entry(directory, tag::STRIP_OFFSETS).map_or(0, |entry| entry.count);
    if strips > 1 {
        return Err(Fault::Strips(strips));
    }
    // What an upload that broke off still has.
    let rest = tiff.bytes.get(need(tag::STRIP_OFFSETS)?..).unwrap_or_default();
    let told = tiff.number(directory, tag::STRIP_BYTES).map_or(rest.len(), |told| told as usize);
    let stream = &rest[..told.min(rest.len())];
    let coding = if v0 { Coding::V0(table(tiff.bytes, need(tag::ROW_OFFSETS)?, height)?) } else { Coding::V2 };
    let bits = tiff.number(directory, tag::BITS);
    let colour_filter = colour::filter(tiff, directory);
    let missing = told - stream.len();
    Ok(Frame { missing, bits, colour_filter, ..Frame::new(coding, width, height, stream) })
}

/// What a directory says of how its picture is to be turned; none where that is no number from 1 to 8.
fn orientation(tiff: &Tiff, directory: Directory) -> Option<u8> {
    let number = tiff.number(directory, tag::ORIENTATION)?;
    u8::try_from(number).ok().filter(|number| (1..=8).contains(number))
}

/// The row offsets, 4 bytes each, lowest byte first whatever the file's order is. A height above the limit is refused by the
/// decoder, and needs none.
fn table(file: &[u8], at: usize, height: usize) -> Result<Vec<u32>, Fault> {
    let rows = if height > MAX_SIDE { 0 } else { height };
    let rest = file.get(at..).unwrap_or_default();
    let words = rest.as_chunks().0.iter().take(rows);
    let table: Vec<u32> = words.map(|&word| u32::from_le_bytes(word)).collect();
    if table.len() < rows { Err(Fault::Table { rows: table.len(), height }) } else { Ok(table) }
}
