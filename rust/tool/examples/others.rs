//! `others FOLDER` writes files that other readers of a camera's files should read as this one does, for `tests/other-readers`:
//!
//! - frames of V0 and V2 of several sizes, smooth and noisy, with every sample coded but the columns that V2 leaves out, in the
//!   container that the crate writes;
//! - the same frames in containers that share nothing with it: either order of bytes, the frame's directory below the first one
//!   or behind it, a small picture beside the frame, sizes in two bytes or four, the table of row offsets before the strip or
//!   behind it.

use razvolk::srw::{self, Coding};
use std::path::Path;
use std::{env, fs, io};
use streams::images::{christening, photo};
use streams::{Frame, Version, v0, v2};

fn main() -> io::Result<()> {
    let folder = env::args_os().nth(1).ok_or_else(|| io::Error::other("usage: others FOLDER"))?;
    fs::create_dir_all(&folder)?;
    let put = |name: String, file: Vec<u8>| fs::write(Path::new(&folder).join(name), file);
    for (width, height) in [(64, 32), (320, 200), (333, 101), (648, 437), (1_616, 1_084)] {
        let images = [christening(width, height), photo(width, height, 16.0, 1), photo(width, height, 300.0, 2)];
        for (i, image) in images.iter().enumerate() {
            let name = |version: &str| format!("{version}-{width}x{height}-{i}.srw");
            // By the encoder here, with every kind of block, and by the writer.
            let encoded = v0::encode(image, width, height);
            put(name("v0"), own(Coding::V0(encoded.offsets), width, height, &encoded.stream))?;
            let (stream, offsets) = razvolk::write_v0_to_vecs(image, width, height).map_err(io::Error::other)?;
            put(name("v0-written"), own(Coding::V0(offsets), width, height, &stream))?;
            // Other readers may refuse smaller ones, as samsung.rs does.
            if width >= 646 {
                put(name("v2"), own(Coding::V2, width, height, &v2::encode(image, width, height).stream))?;
            }
        }
    }
    let image = photo(656, 438, 60.0, 3);
    for frame in [v0::encode(&image, 656, 438), v2::encode(&image, 656, 438)] {
        for kind in 0..32 {
            put(format!("{:?}-container-{kind}.srw", frame.version), Container::of(kind).file(&frame))?;
        }
    }
    Ok(())
}

/// In the container that the crate writes.
fn own(coding: Coding, width: usize, height: usize, stream: &[u8]) -> Vec<u8> {
    srw::Frame::new(coding, width, height, stream).to_file()
}

/// A container by hand.
struct Container {
    highest_first: bool,
    /// The frame's directory lies behind the first one, not below it.
    behind: bool,
    /// The first directory has a small picture of its own.
    with_picture: bool,
    /// Sizes in two bytes.
    short: bool,
    /// The table of row offsets lies behind the strip.
    table_last: bool,
}

const ASCII: u16 = 2;
const SHORT: u16 = 3;
const LONG: u16 = 4;

impl Container {
    fn of(kind: u32) -> Container {
        let bit = |i: u32| kind >> i & 1 == 1;
        let (highest_first, behind, with_picture) = (bit(0), bit(1), bit(2));
        Container { highest_first, behind, with_picture, short: bit(3), table_last: bit(4) }
    }

    fn file(&self, frame: &Frame) -> Vec<u8> {
        let table: Vec<u8> = frame.offsets.iter().flat_map(|offset| offset.to_le_bytes()).collect();
        // Places of the parts: both directories, the texts and the small picture before them, then table and strip.
        let (first, raw, texts, picture, after) = (8, 300, 600, 700, 1_000);
        let (table_at, strip_at) =
            if self.table_last { (after + frame.stream.len(), after) } else { (after, after + table.len()) };
        let mut file = vec![0; after];
        file[..4].copy_from_slice(if self.highest_first { b"MM\0*" } else { b"II*\0" });
        self.put(&mut file, 4, first as u32, 4);
        file[texts..texts + 16].copy_from_slice(b"SAMSUNG\0NX-test\0");
        let mut entries = vec![(271, ASCII, 8, texts as u32), (272, ASCII, 8, texts as u32 + 8)];
        if self.with_picture {
            file[picture..picture + 4].copy_from_slice(b"\xff\xd8\xff\xd9");
            let size = [(256, SHORT, 1, 16), (257, SHORT, 1, 16), (259, SHORT, 1, 6)];
            entries.extend(size.into_iter().chain([(513, LONG, 1, picture as u32), (514, LONG, 1, 4)]));
        }
        if !self.behind {
            entries.push((330, LONG, 1, raw as u32));
        }
        self.directory(&mut file, first, entries, if self.behind { raw as u32 } else { 0 });
        let side = if self.short { SHORT } else { LONG };
        let compression = if frame.version == Version::V0 { 32_770 } else { 32_773 };
        let entries = vec![
            (256, side, 1, frame.width as u32),
            (257, side, 1, frame.height as u32),
            (258, SHORT, 1, 14),
            (259, SHORT, 1, compression),
            (262, SHORT, 1, 32_803),
            (273, LONG, 1, strip_at as u32),
            (277, SHORT, 1, 1),
            (278, side, 1, frame.height as u32),
            (279, LONG, 1, frame.stream.len() as u32),
            (40_976, LONG, 1, table_at as u32),
        ];
        self.directory(&mut file, raw, entries, 0);
        let parts = if self.table_last { [&frame.stream, &table] } else { [&table, &frame.stream] };
        [&file[..], parts[0], parts[1]].concat()
    }

    /// Writes a number of two or four bytes at a place.
    fn put(&self, file: &mut [u8], at: usize, number: u32, size: usize) {
        let bytes = number.to_be_bytes();
        file[at..at + size].copy_from_slice(&bytes[4 - size..]);
        if !self.highest_first {
            file[at..at + size].reverse();
        }
    }

    /// Writes a directory at a place: tag, type, count and value of each entry, and where the next one is.
    fn directory(&self, file: &mut [u8], at: usize, mut entries: Vec<(u32, u16, u32, u32)>, next: u32) {
        entries.sort_unstable();
        self.put(file, at, entries.len() as u32, 2);
        for (i, &(tag, kind, count, value)) in entries.iter().enumerate() {
            let at = at + 2 + 12 * i;
            self.put(file, at, tag, 2);
            self.put(file, at + 2, kind.into(), 2);
            self.put(file, at + 4, count, 4);
            self.put(file, at + 8, value, if kind == SHORT { 2 } else { 4 });
        }
        self.put(file, at + 2 + 12 * entries.len(), next, 4);
    }
}
