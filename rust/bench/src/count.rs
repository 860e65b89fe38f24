//! Instructions, counted by valgrind: the same for the same build and frame, whatever else the machine does. The program runs
//! itself under it, once with a contender and once without.

use crate::contenders::{self, Buffers};
use crate::converters::Converted;
use crate::measure::Contender;
use crate::writers::Written;
use std::env;
use std::process::Command;
use streams::images::photo;
use streams::{Frame, v0, v2};

const V0: (usize, usize) = (1_000, 400);
const V2: (usize, usize) = (992, 440);

/// How what is worked on is made: a frame that is decoded, an image of V0's size that is written, or one of V2's that is turned from
/// V0 into V2.
#[derive(Clone, Copy)]
enum Make {
    Frame(fn() -> Frame),
    Image(fn() -> Vec<u16>),
    Converted(fn() -> Vec<u16>),
}

/// What instructions are counted on: small, since a program runs some fifty times as long under valgrind.
const FRAMES: [(&str, Make); 6] = [
    ("V0, like a photograph", Make::Frame(|| v0::encode(&photo(V0.0, V0.1, 16.0, 1), V0.0, V0.1))),
    ("V0, noisy", Make::Frame(|| v0::encode(&photo(V0.0, V0.1, 260.0, 1), V0.0, V0.1))),
    ("V0, lengths to 32 bits", Make::Frame(|| v0::hostile::long_lengths(V0.0, V0.1))),
    ("V2, like a photograph", Make::Frame(|| v2::encode(&photo(V2.0, V2.1, 90.0, 2), V2.0, V2.1))),
    ("V0 written, like a photograph", Make::Image(|| photo(V0.0, V0.1, 16.0, 1))),
    ("into V2, like a photograph", Make::Converted(|| photo(V2.0, V2.1, 16.0, 1))),
];

/// Makes a frame, and hands on who works on it and how many samples it has.
fn on(make: Make, then: impl FnOnce(&mut [Contender], usize)) {
    match make {
        Make::Frame(frame) => {
            let frame = frame();
            let buffers = Buffers::new(&frame);
            then(&mut contenders::of(&frame, &buffers), frame.samples());
        }
        Make::Image(image) => {
            let written = Written::new(image(), V0.0, V0.1);
            then(&mut written.contenders(), written.frame.samples());
        }
        Make::Converted(image) => {
            let converted = Converted::new(image(), V2.0, V2.1);
            then(&mut converted.contenders(), converted.frame.samples());
        }
    }
}

/// What is counted: the frame made, and the contender run once if there is one of that number.
pub fn once(frame: usize, contender: usize) {
    on(FRAMES[frame].1, |contenders, _| {
        if let Some(contender) = contenders.get_mut(contender) {
            (contender.run)();
        }
    });
}

/// The instructions of `once`, where valgrind is installed.
fn counted(frame: usize, contender: usize) -> Option<u64> {
    let mut command = Command::new("valgrind");
    command.args(["--tool=callgrind", "--callgrind-out-file=/dev/null"]);
    command.arg(env::current_exe().ok()?).args(["once", &frame.to_string(), &contender.to_string()]);
    let said = command.output().ok()?.stderr;
    String::from_utf8_lossy(&said).lines().find_map(|line| line.split_once("Collected : ")?.1.trim().parse().ok())
}

/// Prints the instructions that each contender takes for a sample, of the frames whose name starts with `only`.
pub fn print(only: &str) {
    for (number, (name, make)) in FRAMES.iter().enumerate().filter(|(_, (name, _))| name.starts_with(only)) {
        let Some(without) = counted(number, usize::MAX) else {
            println!("{name}: instructions are not counted, since valgrind does not run here");
            continue;
        };
        println!("{name}: instructions a sample, by callgrind");
        on(*make, |contenders, samples| {
            for (i, contender) in contenders.iter().enumerate() {
                if let Some(with) = counted(number, i) {
                    println!("  {:<34} {:>9.1}", contender.name, (with - without) as f64 / samples as f64);
                }
            }
        });
    }
}
