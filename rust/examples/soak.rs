//! `soak FRAMES`: a worker's day. Decodes so many frames into one buffer with one decoder, V0 and V2 of several sizes, whole,
//! broken off and damaged, and ends with a fault if the process has grown since every frame was seen once.

use razvolk::Decoder;
use std::process::ExitCode;
use std::time::Instant;
use std::{env, fs};
use streams::images::{christening, sitting};
use streams::{Frame, Version, v0, v2};

/// What may be held more at the end, in KiB.
const SLACK: u64 = 512;

fn main() -> ExitCode {
    let Some(most) = env::args().nth(1).and_then(|word| word.parse().ok()) else {
        eprintln!("usage: soak FRAMES");
        return ExitCode::from(2);
    };
    let frames = frames();
    let largest = frames.iter().map(Frame::samples).max().expect("frames");
    let (mut samples, mut decoder) = (vec![0; largest], Decoder::new());
    let (mut done, mut refused, mut marked, mut warm) = (0, 0, 0u64, None);
    let began = Instant::now();
    for i in 0..most {
        let &Frame { version, width, height, ref stream, ref offsets } = &frames[i % frames.len()];
        let result = match version {
            Version::V0 => decoder.decode_v0_direct(stream, offsets, width, height, &mut samples),
            Version::V2 => decoder.decode_v2(stream, width, height, &mut samples),
        };
        match result {
            Ok(marks) => {
                done += 1;
                marked += marks.count() as u64;
            }
            Err(_) => refused += 1,
        }
        if i + 1 == frames.len() {
            warm = held();
        }
        if (i + 1) % 1_000 == 0 {
            println!("{} frames, {:.1} s, {} KiB held", i + 1, began.elapsed().as_secs_f64(), held().unwrap_or(0));
        }
    }
    println!("{done} done, {refused} refused, {marked} samples rested on old values");
    match (warm, held()) {
        (Some(before), Some(after)) if after <= before + SLACK => {
            println!("memory flat: {before} KiB after {} frames, {after} KiB after {most}", frames.len());
            ExitCode::SUCCESS
        }
        told => {
            println!("memory not flat, or not told: {told:?} KiB");
            ExitCode::FAILURE
        }
    }
}

/// What the process holds in memory, in KiB.
fn held() -> Option<u64> {
    let status = fs::read_to_string("/proc/self/status").ok()?;
    let line = status.lines().find_map(|line| line.strip_prefix("VmRSS:"))?;
    line.trim().strip_suffix(" kB")?.parse().ok()
}

fn frames() -> Vec<Frame> {
    let mut frames = Vec::new();
    for (width, height) in [(320, 200), (1_500, 1_000), (33, 7), (646, 436), (1_000, 700)] {
        let scene = sitting(width, height);
        let whole = v0::encode(&scene, width, height);
        let band = v0::encode::with_band(&christening(width, height), width, height, 24.min(height));
        frames.extend([cut(&whole), damaged(&whole), whole, band]);
        let whole = v2::encode(&scene, width, height);
        frames.extend([cut(&whole), damaged(&whole), whole]);
    }
    frames
}

/// Broken off after two thirds.
fn cut(frame: &Frame) -> Frame {
    frame.cut(frame.stream.len() * 2 / 3)
}

/// With a bit turned in every thousandth byte.
fn damaged(frame: &Frame) -> Frame {
    let mut stream = frame.stream.clone();
    stream.iter_mut().skip(500).step_by(1_000).for_each(|byte| *byte ^= 0x10);
    frame.with_stream(stream)
}
