//! `bench [V0 | V2 | planes | write | blank | into] [RUNS [PART]]`: Razvolk and samsung.rs in turn on the same frames, in one process, the best of
//! RUNS runs each (20); then the instructions that they take, where valgrind is installed. PART divides each side of the frames, for
//! a quick look; a name leaves out the others.

use bench::contenders::{self, Buffers, alike};
use bench::converters::Converted;
use bench::count;
use bench::measure::{best, print};
use bench::writers::Written;
use std::fs;
use streams::images::photo;
use streams::random::Random;
use streams::v0::hostile;
use streams::{Frame, Version, v0, v2};

const USAGE: &str = "usage: bench [V0 | V2 | planes | write | blank | into] [RUNS [PART]]";

/// Times some frames, with so many runs, their sides divided by a number.
type Time = fn(usize, usize);

/// What is timed, by name.
const TIMED: [(&str, Time); 6] = [
    ("V0", time_v0),
    ("V2", time_v2),
    ("planes", time_planes),
    ("write", time_writers),
    ("blank", time_blanking),
    ("into", time_converters),
];

fn main() {
    let mut words = std::env::args().skip(1).peekable();
    let once = words.next_if(|word| word == "once").is_some();
    let named = TIMED.iter().find(|(name, _)| words.next_if(|word| word == name).is_some());
    let mut numbers = words.map(|word| word.parse().expect(USAGE));
    if once {
        return count::once(numbers.next().expect("a frame"), numbers.next().expect("a contender"));
    }
    let (runs, part) = (numbers.next().unwrap_or(20), numbers.next().unwrap_or(1));
    tell_how(runs);
    for (_, time) in TIMED.iter().filter(|(name, _)| named.is_none_or(|(only, _)| only == name)) {
        time(runs, part);
    }
    count::print(named.map_or("", |(name, _)| name));
}

/// Frames of a camera's size.
const V0: (usize, usize) = (5_000, 3_500);
const V2: (usize, usize) = (6_496, 4_336);

fn tell_how(runs: usize) {
    let cpus = fs::read_to_string("/proc/cpuinfo").unwrap_or_default();
    let model = cpus.lines().find_map(|line| line.strip_prefix("model name\t: ")).unwrap_or("unknown");
    println!(
        "{model}; best of {runs} runs in turn, processor time of one thread; buffers are not cleared between runs"
    );
    println!(
        "ratio: time divided by samsung.rs's, decode_v0_reference for direct and for writers, decode_v0_with(.., false) for \
         two-phase, decode_v0_reference and decode_v2 together for v0_to_v2; of decode_v0_bands, with 8 bands and blocks of \
         256 columns, by decode_v0's; of decode_v0_clean by decode_v0_reference's, both Razvolk's; of blank by \
         blank_with's"
    );
}

fn time_v0(runs: usize, part: usize) {
    let (width, height) = (V0.0 / part, V0.1 / part);
    let photo_v0 = |width, height, noise| v0::encode(&photo(width, height, noise, 1), width, height);
    time("V0, like a photograph", &photo_v0(width, height, 16.0), runs);
    time("V0, noisy", &photo_v0(width, height, 260.0), runs);
    time("V0, lengths to 32 bits", &hostile::long_lengths(width, height), runs);
    time("V0, empty stream", &hostile::empty(width, height), runs);
    time("V0, random bytes", &hostile::random(width, height), runs);
    for part in [2 * part, 4 * part] {
        time("V0, like a photograph, smaller", &photo_v0(V0.0 / part, V0.1 / part, 16.0), runs);
    }
}

fn time_planes(runs: usize, part: usize) {
    bench::planes::time(V0.0 / part, V0.1 / part, runs);
}

fn time_blanking(runs: usize, part: usize) {
    bench::blank::time(V0.0 / part, V0.1 / part, runs);
}

/// Whether samsung.rs decodes V2 of this size, and there is a time to compare with.
fn the_rust_takes(width: usize, height: usize) -> bool {
    width >= 646 && height >= 436
}

fn time_v2(runs: usize, part: usize) {
    for part in [part, 2 * part, 4 * part] {
        let (width, height) = (V2.0 / part / 16 * 16, V2.1 / part);
        if the_rust_takes(width, height) {
            time("V2, like a photograph", &v2::encode(&photo(width, height, 90.0, 2), width, height), runs);
        }
    }
    let empty = Frame::new(Version::V2, V2.0, V2.1);
    time("V2, empty stream: refused", &empty, runs);
    time("V2, random bytes: refused", &empty.with_stream(Random::new(5).bytes(1 << 20)), runs);
}

fn time_writers(runs: usize, part: usize) {
    for part in [part, 2 * part, 4 * part] {
        time_written("V0 written, like a photograph", (V0.0 / part, V0.1 / part), 16.0, runs);
    }
    time_written("V0 written, noisy", (V0.0 / part, V0.1 / part), 260.0, runs);
}

fn time_written(name: &str, (width, height): (usize, usize), noise: f64, runs: usize) {
    let written = Written::new(photo(width, height, noise, 1), width, height);
    let mut contenders = written.contenders();
    written.check(&mut contenders);
    let best = best(&mut contenders, runs);
    print(&heading(name, &written.frame), Some(written.frame.samples()), &contenders, &best);
}

fn time_converters(runs: usize, part: usize) {
    for part in [part, 2 * part] {
        let (width, height) = (V0.0 / part / 16 * 16, V0.1 / part);
        if the_rust_takes(width, height) {
            let converted = Converted::new(photo(width, height, 16.0, 1), width, height);
            let mut contenders = converted.contenders();
            converted.check(&mut contenders);
            let best = best(&mut contenders, runs);
            let name = heading("into V2, like a photograph", &converted.frame);
            print(&name, Some(converted.frame.samples()), &contenders, &best);
        }
    }
}

fn time(name: &str, frame: &Frame, runs: usize) {
    let buffers = Buffers::new(frame);
    let mut contenders = contenders::of(frame, &buffers);
    let samples = alike(&mut contenders, &buffers).then_some(frame.samples());
    let best = best(&mut contenders, runs);
    print(&heading(name, frame), samples, &contenders, &best);
}

fn heading(name: &str, frame: &Frame) -> String {
    let &Frame { width, height, .. } = frame;
    let bits = frame.stream.len() as f64 * 8.0 / frame.samples() as f64;
    format!("{name}: {width} by {height}, {bits:.2} bits a sample")
}
