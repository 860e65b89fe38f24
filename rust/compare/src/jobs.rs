//! Inputs of the job program with the texts that it must write. Samples come from samsung.rs, marks from runs of samsung.rs over
//! two sets of old values and from the comparison's own decoder: nothing here comes from the program that is tested.

use crate::v0::compare::{both_parts, marks, rust};
use std::fmt::Write as _;
use std::path::Path;
use std::{fs, io};
use streams::random::Random;
use streams::{Frame, Version, v0};

const MOST_INPUT: usize = 32_768;
const MOST_SAMPLES: usize = 8_192;

/// An input: mark, version, size, offsets, stream.
pub fn input(frame: &Frame) -> Vec<u8> {
    let mut bytes = b"SMR".to_vec();
    for number in [1, frame.width, frame.height] {
        bytes.extend((number as u16).to_le_bytes());
    }
    for offset in &frame.offsets[..frame.height] {
        bytes.extend(offset.to_le_bytes());
    }
    bytes.extend(&frame.stream);
    bytes
}

/// The text that the job program must write.
pub fn text(input: &[u8]) -> String {
    let number = |at: usize| usize::from(u16::from_le_bytes([input[at], input[at + 1]]));
    if input.len() > MOST_INPUT {
        return "job 3\n".into();
    }
    if input.len() < 9 {
        return "job 2\n".into();
    }
    if &input[..3] != b"SMR" || number(3) != 1 {
        return "job 1\n".into();
    }
    let (width, height) = (number(5), number(7));
    let Some(stream) = input.get(9 + 4 * height..) else {
        return "job 2\n".into();
    };
    if width * height > MOST_SAMPLES {
        return "job 3\n".into();
    }
    if width > 16_384 || height > 16_384 {
        return "refused 1\n".into();
    }
    let table = input[9..9 + 4 * height].chunks_exact(4);
    let offsets = table.map(|four| u32::from_le_bytes(four.try_into().expect("four bytes"))).collect();
    rows(&Frame { version: Version::V0, width, height, stream: stream.to_vec(), offsets })
}

fn rows(frame: &Frame) -> String {
    let n = frame.samples();
    let (zeros, ones) = (rust(frame, &vec![0; n]), rust(frame, &vec![1; n]));
    let old = marks(n, &zeros, &ones).expect("a sample rises with the old values or stays");
    let marks = both_parts(frame, &vec![0; n], &zeros, &old).expect("the decoder of its own is samsung.rs's equal");
    let mut text = String::from("done\n");
    for row in 0..frame.height {
        write!(text, "{row}:").expect("a string takes all");
        for i in row * frame.width..(row + 1) * frame.width {
            write!(text, " {}{}", zeros[i], if marks[i] != 0 { "*" } else { "" }).expect("a string takes all");
        }
        text.push('\n');
    }
    text
}

/// A frame without rows' data, of a size.
fn bare(width: usize, height: usize) -> Frame {
    Frame { offsets: vec![0; height], ..Frame::new(Version::V0, width, height) }
}

/// The document's frames: one whose first row is skipped, one with spill, one of a single sample.
fn documents() -> [Frame; 3] {
    let skipped = vec![0, 0, 0, 0x80, 0x18, 0x20, 0xa0, 0x7f, 0, 0, 0x70, 0];
    let spill = vec![0x18, 0x20, 0xa0, 0x7f, 0, 0, 0x70, 0, 0x08, 0, 0xa0, 0xff, 0, 0, 0, 0];
    let two = |stream, second| Frame { stream, offsets: vec![0, second], ..bare(2, 2) };
    [two(skipped, 4), two(spill, 8), bare(1, 1)]
}

/// Every input: the document's, every fault, in every order of two faults, sizes at their limits, and frames of every kind.
pub fn inputs() -> Vec<Vec<u8>> {
    let mut random = Random::new(1);
    let mut inputs: Vec<Vec<u8>> = documents().iter().map(input).collect();
    inputs.extend(faults());
    inputs.extend(limits(&mut random));
    for i in 0..60 {
        let (width, height) = (random.index(36), random.index(7));
        inputs.push(match i % 3 {
            0 => input(&v0::any::written(&mut random, width, height)),
            _ => input(&v0::any(&mut random, width, height)),
        });
    }
    inputs
}

fn faults() -> Vec<Vec<u8>> {
    let whole = input(&documents()[0]);
    // Under 9 bytes, with and without the mark.
    let mut inputs: Vec<Vec<u8>> = [0, 1, 3, 8].map(|len| whole[..len].to_vec()).into();
    inputs.push(b"XYZ".to_vec());
    // Mark and version; then with a cut table and with too many samples.
    for (at, byte) in [(0, b's'), (1, b'N'), (2, 0), (3, 0), (3, 2), (4, 1)] {
        let mut other = whole.clone();
        other[at] = byte;
        inputs.push(other);
    }
    inputs.push(b"SMS\x01\x00\x02\x00\x02\x00".to_vec());
    inputs.push(b"SMR\x02\x00\xff\xff\x01\x00\x00\x00\x00\x00".to_vec());
    // A cut table; then with too many samples.
    inputs.extend([9, 10, 13, 16].map(|len| whole[..len].to_vec()));
    inputs.push(b"SMR\x01\x00\xff\xff\xff\xff".to_vec());
    inputs.push(input(&bare(91, 91))[..9 + 4 * 90].to_vec());
    // Too many samples.
    inputs.extend([(8_193, 1), (91, 91), (2, 4_097), (16_385, 1), (65_535, 1)].map(|(w, h)| input(&bare(w, h))));
    inputs
}

fn limits(random: &mut Random) -> Vec<Vec<u8>> {
    // Frames that are refused, the widest that isn't, and other empty ones, up to the most rows.
    let sizes = [(16_385, 0), (65_535, 0), (16_384, 0), (0, 0), (0, 1), (1, 0), (0, 8_189)];
    let mut inputs: Vec<Vec<u8>> = sizes.map(|(w, h)| input(&bare(w, h))).into();
    // One byte too long, whatever it holds; the most samples; the longest input.
    inputs.push(long(b"SMR\x01\x00".to_vec(), MOST_INPUT + 1, random));
    inputs.push(vec![0; MOST_INPUT + 1]);
    for (width, height) in [(8_192, 1), (4_096, 2), (128, 64), (3, 2_730)] {
        inputs.push(input(&fitting(random, width, height)));
    }
    let frame = v0::any::written(random, 61, 17);
    inputs.push(long(input(&frame), MOST_INPUT, random));
    inputs
}

/// Bytes that begin as given, and are random from there on.
fn long(first: Vec<u8>, len: usize, random: &mut Random) -> Vec<u8> {
    let rest = random.bytes(len - first.len());
    [first, rest].concat()
}

/// A written frame whose input is short enough.
fn fitting(random: &mut Random, width: usize, height: usize) -> Frame {
    loop {
        let frame = v0::any::written(random, width, height);
        if input(&frame).len() <= MOST_INPUT {
            return frame;
        }
    }
}

/// The files of all cases, by name: the inputs below `data`, their names a line each in `args`, and all texts in `stdout`.
pub fn files() -> Vec<(String, Vec<u8>)> {
    let inputs = inputs();
    let names: Vec<String> = (0..inputs.len()).map(|i| format!("{i:03}.job")).collect();
    let lines: String = names.iter().map(|name| format!("{name}\n")).collect();
    let texts: String = inputs.iter().map(|input| text(input)).collect();
    let data = names.iter().zip(inputs).map(|(name, input)| (format!("data/{name}"), input));
    data.chain([("args".into(), lines.into_bytes()), ("stdout".into(), texts.into_bytes())]).collect()
}

/// Writes the files into a folder.
pub fn write(folder: &Path) -> io::Result<usize> {
    fs::create_dir_all(folder.join("data"))?;
    let files = files();
    for (name, bytes) in &files {
        fs::write(folder.join(name), bytes)?;
    }
    Ok(files.len())
}

/// What keeps the folder's files from those that would be written: a line for each.
pub fn differences(folder: &Path) -> io::Result<Vec<String>> {
    let files = files();
    let mut found = Vec::new();
    for (name, bytes) in &files {
        match fs::read(folder.join(name)) {
            Ok(read) if read == *bytes => {}
            Ok(_) => found.push(format!("{name} is another")),
            Err(e) => found.push(format!("{name}: {e}")),
        }
    }
    for entry in fs::read_dir(folder.join("data"))? {
        let name = format!("data/{}", entry?.file_name().to_string_lossy());
        if !files.iter().any(|(known, _)| *known == name) {
            found.push(format!("{name} is none of the cases"));
        }
    }
    Ok(found)
}
