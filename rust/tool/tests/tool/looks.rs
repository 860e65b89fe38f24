//! What is printed of a frame, and written of it.

use crate::folder::{Folder, Ran, bad, complaint, done, marked, misused, refused, srw, unreadable};
use std::fs;
use std::process::Command;
use streams::images::{christening, photo, sitting};
use streams::v0::encode::with_band;
use streams::{Frame, Version, v0, v2};

#[test]
fn a_frame_over_another() {
    let folder = Folder::new("over");
    folder.put("first.srw", srw(&v0::encode(&sitting(40, 6), 40, 6)));
    folder.put("next.srw", srw(&with_band(&christening(40, 6), 40, 6, 2)));
    let verdict = "next.srw  HOLD BACK  33 % of another picture (rows 0 to 1)\n";
    let details = "  over first.srw: V0, 40 by 6, 408 bytes of stream, decoded to the end\n  V0, 40 by 6, 200 bytes of stream\n  \
        decoded to the end\n  of another picture: 80 of 240 samples\n    rows 0 to 1: 40 of 40 each\n";
    let line = "--over first.srw next.srw --pgm next.pgm --png next.png --planes planes.png";
    assert_eq!(folder.run(line), marked(verdict));
    assert_eq!(folder.run(&format!("-v --force {line}")), marked(&format!("{verdict}{details}")));
    assert_eq!(folder.run(&format!("-q --force {line}")), marked(verdict));
    assert_eq!(folder.run("-q first.srw"), done(""), "what is clean needs no care");
    let pgm = folder.get("next.pgm").expect("samples");
    assert_eq!((&pgm[..13], pgm.len()), (&b"P5\n40 6\n16383"[..], 14 + 480));
    for (name, width, height) in [("next.png", 20, 3), ("planes.png", 80, 3)] {
        let picture = folder.get(name).expect("a picture");
        assert!(picture.starts_with(b"\x89PNG\r\n\x1a\n"));
        assert_eq!(picture[16..24], [0, 0, 0, width, 0, 0, 0, height], "{name}");
    }
}

#[test]
fn what_others_packed() {
    let folder = Folder::new("packed");
    let image = photo(40, 6, 3.0, 1);
    let found = v0::pack(&image, 40, 6);
    let (written, offsets) = razvolk::write_v0_to_vecs(&image, 40, 6).expect("up to 14 bits");
    let [short, long] = [found.stream.len(), written.len()];
    folder.put("meant.srw", srw(&v0::encode(&image, 40, 6)));
    folder.put("found.srw", srw(&found));
    let taken = format!("found.srw  TAKEN  {short} bytes, where the writer makes {long}\n");
    assert!(short < long);
    assert_eq!(folder.run("--check-packed meant.srw found.srw"), done(&taken));

    // A sample differs; a byte more than the writer's; row 0 looks up.
    let mut other = image.clone();
    other[2 * 40 + 7] += 1;
    folder.put("other.srw", srw(&v0::pack(&other, 40, 6)));
    let (is, meant) = (other[87], image[87]);
    let what = format!("a sample isn't the one that is meant: row 2, column 7 is {is}, where {meant} is meant");
    let other = format!("other.srw  REFUSED  {what}\n");
    assert_eq!(folder.run("--check-packed meant.srw other.srw"), refused(&other));
    let longer = [&written[..], &[0]].concat();
    folder.put("longer.srw", srw(&Frame { version: Version::V0, width: 40, height: 6, stream: longer, offsets }));
    let what =
        format!("the stream is longer than what the writer makes: {} bytes, where the writer makes {long}", long + 1);
    let longer = format!("longer.srw  REFUSED  {what}\n");
    assert_eq!(folder.run("--check-packed meant.srw longer.srw"), refused(&longer));
    let mut upward = found.clone();
    upward.stream[3] |= 0x80;
    folder.put("upward.srw", srw(&upward));
    let upward = "upward.srw  REFUSED  row 0 isn't clean: a block looks up to rows that do not exist\n";
    assert_eq!(folder.run("--check-packed=meant.srw upward.srw"), refused(upward));

    // All at once, and in JSON.
    let all = format!("{taken}{longer}{other}{upward}4 frames: 1 taken, 3 refused\n");
    let all = all.replace("found.srw ", "found.srw  ").replace("other.srw ", "other.srw  ");
    assert_eq!(folder.run("--check-packed meant.srw found.srw longer.srw other.srw upward.srw"), refused(&all));
    let (status, text, _) = folder.run("--json --check-packed meant.srw upward.srw");
    assert!(status == 1 && text.contains("\"answer\":17,\"row\":0"), "{text}");

    // What can't be checked.
    folder.put("small.srw", srw(&v0::encode(&image[..80], 40, 2)));
    let text = "small.srw  UNREADABLE  40 by 2, where meant.srw is 40 by 6\n";
    assert_eq!(folder.run("--check-packed meant.srw small.srw"), unreadable(text));
    folder.put("marked.srw", srw(&with_band(&image, 40, 6, 2)));
    let text = "marked.srw: samples of it are of another picture or missing, so that they say nothing";
    assert_eq!(folder.run("--check-packed marked.srw found.srw"), bad(text));
    folder.put("v2.srw", srw(&v2::encode(&photo(646, 436, 3.0, 1), 646, 436)));
    assert_eq!(
        folder.run("--check-packed meant.srw v2.srw"),
        unreadable("v2.srw  UNREADABLE  V2, where V0 is checked\n")
    );
}

#[test]
fn bare_streams() {
    let folder = Folder::new("bare");
    folder.put("v0", [0, 0, 0, 0x80, 0x18, 0x20, 0xa0, 0x7f, 0, 0, 0x70, 0]);
    folder.put("offsets", "0 4\n");
    let text = "v0  HOLD BACK  50 % of another picture (column 0)\n";
    assert_eq!(folder.run("--v0 2x2 --offsets offsets v0 --pgm v0.pgm"), marked(text));
    assert_eq!(folder.get("v0.pgm").expect("samples"), b"P5\n2 2\n16383\n\0\0\0\x83\0\0\0\x7e");
    folder.put("v0", [0x18, 0x20, 0xa0, 0x7f, 0, 0, 0x70, 0, 0x08, 0, 0xa0, 0xff, 0, 0, 0, 0]);
    folder.put("offsets", "0,8");
    let text = "v0  CLEAN\n  V0, 2 by 2, 16 bytes of stream\n  decoded to the end\n  all 4 samples are determined by the file\n";
    assert_eq!(folder.run("-v --v0 2x2 --offsets offsets v0"), done(text));
    folder.put("v2", [0; 16]);
    let text = "v2  REFUSED  row 0: the file breaks off\n  V2, 646 by 436, 16 bytes of stream\n  \
        refused 8, row 0: the stream ends in row 0\n  of another picture: 281016 of 281656 samples\n    row 0: 6 of 646\n    \
        rows 1 to 435: 646 of 646 each\n  missing: 640 of 281656 samples; 28 bytes were read past the end\n    row 0: 640 of 646\n";
    assert_eq!(folder.run("-v --v2 646x436 v2 --png v2.png"), refused(text));
    assert!(folder.get("v2.png").is_some(), "what was decoded before the refusal can be looked at");
}

/// Writes a frame as V0 beside its samples, and reads the new file.
fn stored(folder: &Folder, line: &str) -> (Ran, Ran) {
    let first = folder.run(&format!("{line} --pgm first.pgm --write-v0 stored.srw"));
    (first, folder.run("stored.srw --pgm again.pgm"))
}

#[test]
fn a_frame_written_as_v0_is_read_again() {
    for (width, height) in [(40, 6), (33, 7), (1, 5), (320, 200)] {
        let folder = Folder::new(&format!("stored_{width}"));
        folder.put("a.srw", srw(&v0::encode(&sitting(width, height), width, height)));
        let (first, again) = stored(&folder, "a.srw");
        assert!(first.0 == 0 && first.2.is_empty(), "{first:?}");
        let file = folder.get("stored.srw").expect("a file");
        let stored = razvolk::srw::frame(&file).expect("a frame");
        assert_eq!((stored.width, stored.height, again), (width, height, done("stored.srw  CLEAN\n")));
        assert!(folder.get("again.pgm") == folder.get("first.pgm") && folder.get("again.pgm").is_some());
    }
}

#[test]
fn a_v0_frame_written_as_v2_is_read_again() {
    let folder = Folder::new("to_v2");
    folder.put("a.srw", srw(&v0::encode(&sitting(656, 436), 656, 436)));
    let (status, _, fault) = folder.run("a.srw --pgm first.pgm --to-v2 b.srw");
    assert_eq!((status, fault.as_str()), (0, ""));
    let (status, text, fault) = folder.run("b.srw --pgm again.pgm");
    assert_eq!((status, fault.as_str()), (0, ""));
    assert_eq!(text, "b.srw  CLEAN\n");
    assert!(folder.run("-v b.srw").1.contains("\n  V2, 656 by 436, "));
    let samples = |name| folder.get(name).expect("a file").split_off(15);
    assert!(samples("first.pgm").ends_with(&samples("again.pgm")[9..]), "the samples are the same");

    let (status, _, fault) = folder.run("b.srw --to-v2 c.srw");
    assert_eq!((status, fault), (2, complaint("c.srw: is V2 already")));
    let refused = [(655, 436, "the width is no multiple of 16"), (16, 9, "the frame is smaller than 32 by 1")];
    for (width, height, why) in refused {
        folder.put("odd.srw", srw(&v0::encode(&sitting(width, height), width, height)));
        let (status, _, fault) = folder.run("odd.srw --to-v2 c.srw");
        assert_eq!((status, fault), (2, complaint(&format!("c.srw: can't be written as V2: {why}"))));
        assert!(folder.get("c.srw").is_none());
    }
    folder.put("crop.srw", srw(&v0::encode(&sitting(48, 9), 48, 9)));
    assert_eq!(folder.run("crop.srw --to-v2 c.srw").0, 0);
    let (status, text, _) = folder.run("-v c.srw");
    assert!(status == 0 && text.starts_with("c.srw  CLEAN\n  V2, 48 by 9, "), "{text}");
    assert!(text.ends_with("\n  all 432 samples are determined by the file\n"), "{text}");
}

#[test]
fn a_frame_of_no_samples_is_written_as_v0() {
    let folder = Folder::new("stored_none");
    folder.put("none", []);
    folder.put("offsets", "7 7 7");
    for size in ["5x0", "0x3"] {
        let (status, ..) = folder.run(&format!("--v0 {size} --offsets offsets none --write-v0 stored.srw --force"));
        let (width, height) = size.split_once('x').expect("a size");
        let text = format!(
            "stored.srw  CLEAN\n  V0, {width} by {height}, 0 bytes of stream\n  decoded to the end\n  all 0 samples are \
             determined by the file\n"
        );
        assert_eq!((status, folder.run("-v stored.srw")), (0, done(&text)));
    }
}

#[test]
fn samples_that_rest_on_old_values_are_stored_and_told_of() {
    let folder = Folder::new("stored_marked");
    folder.put("v2.srw", srw(&v2::encode(&christening(646, 436), 646, 436)));
    let ((status, text, fault), again) = stored(&folder, "v2.srw");
    assert!(status == 3 && fault.is_empty());
    let told = "  stored.srw: 2616 samples of another picture or missing are stored, and not marked";
    assert_eq!(text.lines().last(), Some(told));
    assert_eq!(again, done("stored.srw  CLEAN\n"));
    assert!(folder.get("again.pgm") == folder.get("first.pgm"));
}

#[test]
fn what_cannot_be_written_as_v0() {
    let folder = Folder::new("not_stored");
    // A sample above 16,383: refusal 9, and nothing is written, the samples neither.
    let bright: Vec<u16> = (0..240).map(|i| if i == 77 { 16_384 } else { 1_000 }).collect();
    folder.put("bright.srw", srw(&v0::encode(&bright, 40, 6)));
    let (status, text, fault) = folder.run("bright.srw --pgm x.pgm --write-v0 x.srw");
    assert_eq!((status, text.as_str()), (2, "bright.srw  CLEAN\n"));
    assert_eq!(fault, complaint("x.srw: can't be written as V0: a sample is above 16,383"));
    assert_eq!(folder.names(), ["bright.srw"]);
    // A frame that is refused: its picture is written, and no frame that would pass for a whole one.
    folder.put("v2", [0; 16]);
    let (status, text, fault) = folder.run("--v2 646x436 v2 --pgm x.pgm --write-v0 x.srw");
    assert_eq!((status, fault.as_str()), (1, ""));
    assert_eq!(text.lines().last(), Some("  x.srw: not written, since the frame is refused"));
    assert_eq!(folder.names(), ["bright.srw", "v2", "x.pgm"]);
    let (status, text, _) = folder.run("--v2 31x1 v2 --write-v0 x.srw");
    assert_eq!((status, text.lines().last()), (1, Some("  x.srw: not written, since the frame is refused")));
    assert!(folder.get("x.srw").is_none());
}

#[test]
fn refusals() {
    let folder = Folder::new("refusals");
    folder.put("stream", []);
    folder.put("offsets", "0 0");
    let text = "stream  REFUSED  the frame is smaller than 32 by 1\n";
    assert_eq!(folder.run("--v2 31x1 stream --png none.png"), refused(text));
    assert!(folder.get("none.png").is_none());
    let details =
        "  V2, 31 by 1, 0 bytes of stream\n  refused 2: the frame is smaller than 32 by 1\n  nothing was decoded\n";
    assert_eq!(folder.run("-v --v2 31x1 stream"), refused(&format!("{text}{details}")));
    let text = "stream  REFUSED  width or height is above 16,384\n";
    assert_eq!(folder.run("--v0 18446744073709551615x5 --offsets offsets stream"), refused(text));
    let text = "stream  REFUSED  the sample buffer or the offset table is too short\n";
    assert_eq!(folder.run("--v0 5x5 --offsets offsets stream"), refused(text));
    let text = "stream  REFUSED  row 0: predicts from rows that do not exist\n";
    assert_eq!(folder.run("--v2 646x436 stream"), refused(text));
}

#[test]
fn bad_input() {
    let folder = Folder::new("bad");
    folder.put("text", "no TIFF");
    folder.put("offsets", "0 x");
    folder.put("none", []);
    assert_eq!(folder.run("text"), unreadable("text  UNREADABLE  not a TIFF file\n"));
    assert_eq!(folder.run("--over text none"), bad("text: not a TIFF file"));
    assert_eq!(folder.run("gone"), unreadable("gone  UNREADABLE  No such file or directory (os error 2)\n"));
    assert_eq!(folder.run("."), bad(".: no .srw file is in this folder"));
    assert_eq!(folder.run("--v0 2x2 --offsets offsets text"), bad("offsets: x is no number below 2^32"));
    misused(&folder, "--what", "--what");
    misused(&folder, "", "<FILE.srw|FOLDER|->");
    let text = "UNREADABLE  a frame of 16384 by 16384 is too large to look at: the limit is 67108864 samples\n";
    assert_eq!(folder.run("--v2 16384x16384 none"), unreadable(&format!("none  {text}")));
    folder.put("large.srw", srw(&Frame::new(Version::V2, 16_384, 16_384)));
    assert_eq!(folder.run("large.srw"), unreadable(&format!("large.srw  {text}")));
}

#[test]
fn output_that_cannot_be_written() {
    let folder = Folder::new("output");
    folder.put("v2.srw", srw(&Frame { stream: vec![0; 16], ..Frame::new(Version::V2, 646, 436) }));
    let (status, _, fault) = folder.run("v2.srw --pgm gone/x.pgm");
    assert_eq!((status, fault), (2, complaint("gone/x.pgm: No such file or directory (os error 2)")));
    folder.put("offsets", "");
    let (status, text, fault) = folder.run("--v0 5x0 --offsets offsets offsets --png x.png");
    assert_eq!((status, text.as_str()), (2, "offsets  CLEAN\n"));
    assert_eq!(fault, complaint("x.png: a frame of no samples makes no picture"));
}

#[test]
fn help_and_version() {
    let folder = Folder::new("help");
    for word in ["-h", "--help"] {
        let (status, text, fault) = folder.run(word);
        assert!(
            status == 0 && fault.is_empty() && text.contains("Usage: razvolk") && text.contains("Exit status"),
            "{text}"
        );
        assert!([0, 1, 2, 3].iter().all(|status| text.contains(&format!("\n  {status}  "))), "each status is listed");
        let longest = text.lines().max_by_key(|line| line.chars().count()).expect("lines");
        assert!(longest.chars().count() <= 100, "{longest}");
        assert!(text.contains("It doesn't mean undamaged"), "{text}");
        assert!(!["rests on", "filler word"].iter().any(|word| text.contains(word)), "a photographer's words");
    }
    for word in ["--version", "-V"] {
        assert_eq!(folder.run(word), done(concat!("razvolk ", env!("CARGO_PKG_VERSION"), "\n")));
    }
    for shell in ["bash", "zsh", "fish"] {
        let (status, text, _) = folder.run(&format!("--completions {shell}"));
        assert!(status == 0 && text.contains("skip-existing"), "{shell}");
    }
}

#[test]
fn damaged_files_end_with_an_answer() {
    let folder = Folder::new("damaged");
    let file = srw(&with_band(&christening(20, 5), 20, 5, 1));
    for i in 0..60 {
        let mut damaged = file.clone();
        let at = i * 37 % damaged.len();
        damaged[at] ^= 0xff;
        damaged.truncate(file.len() - i * 5 % 200);
        folder.put("damaged.srw", damaged);
        let (status, _, fault) = folder.run("damaged.srw");
        assert!((0..=3).contains(&status) && fault.is_empty(), "{i}: {status} {fault}");
    }
}

/// A V0 frame that is cut at two thirds is not called clean: its lower rows are made of missing words.
#[test]
fn a_frame_that_is_cut_is_not_clean() {
    let folder = Folder::new("cut");
    let whole = srw(&v0::encode(&sitting(320, 200), 320, 200));
    folder.put("cut.srw", &whole[..whole.len() * 2 / 3]);
    let (status, text, fault) = folder.run("cut.srw");
    assert_eq!((status, fault.as_str()), (3, ""));
    let verdict = text.strip_prefix("cut.srw  INCOMPLETE  ").and_then(|text| text.strip_suffix(" on missing\n"));
    let (part, row) = verdict.and_then(|verdict| verdict.split_once(" % final, from row ")).expect("a verdict");
    let (part, row): (usize, usize) = (part.parse().expect("a number"), row.parse().expect("a number"));
    assert!((60..75).contains(&part) && part.abs_diff(row / 2) < 2, "{part} % of 200 rows, from row {row}");
    let (_, text, _) = folder.run("-v cut.srw");
    assert!(text.contains(" more are missing\n") && text.contains("\n  missing: "), "{text}");
    assert!(text.ends_with(" to 199: 320 of 320 each\n"), "{text}");
}

/// Where the file lacks bytes, nothing is called to rest on the stream, though none of them was read.
#[test]
fn missing_bytes_that_nobody_reads_are_told() {
    let folder = Folder::new("padded");
    let mut made = v0::encode(&sitting(40, 6), 40, 6);
    made.stream.extend([0; 100]);
    let file = srw(&made);
    folder.put("a.srw", &file[..file.len() - 60]);
    let text = "a.srw  INCOMPLETE  100 % final, 60 bytes at the end missing, and not needed\n  V0, 40 by 6, 448 bytes of stream, \
        60 more are missing\n  decoded to the end\n  all 240 samples are final: none of the missing bytes was needed\n";
    assert_eq!(folder.run("-v a.srw"), marked(text));
}

/// Words of the command line and of a table, too, are printed so that they don't steer the terminal.
#[test]
fn words_do_not_steer_the_terminal() {
    let folder = Folder::new("words");
    folder.put("offsets", "0 \u{1b}[31mx\u{7}");
    folder.put("stream", []);
    let fault = "offsets: \\u{1b}[31mx\\u{7} is no number below 2^32";
    assert_eq!(folder.run("--v0 2x2 --offsets offsets stream"), bad(fault));
    misused(&folder, "--\u{1b}c", "--\\u{1b}c");
    misused(&folder, "--v2 \u{9b}x2 stream", "\\u{9b}x2");
}

/// Where nobody reads what is told, it ends, with a word on standard error and no fault of its own.
#[test]
fn a_pipe_that_is_closed() {
    let folder = Folder::new("pipe");
    for i in 0..4 {
        folder.put(&format!("{i}.srw"), srw(&v0::encode(&sitting(40, 6), 40, 6)));
    }
    let tool = env!("CARGO_BIN_EXE_razvolk");
    for line in [".", "--json .", "--help"] {
        // The reader is gone before the tool begins.
        let line = format!("{{ sleep 0.2; {tool} {line}; echo $? > status; }} | :");
        let (_, _, fault) = folder.ran(Command::new("sh").args(["-c", &line]));
        assert_eq!(fault, complaint("standard output: Broken pipe (os error 32)"));
        assert_eq!(folder.get("status").as_deref(), Some(&b"2\n"[..]));
    }
}

/// With `--clean` a V0 frame is decoded if nothing in it is inherited or missing, and else the first fault is told, by rows; V2
/// goes on as it does.
#[test]
fn clean_frames_alone() {
    let folder = Folder::new("clean");
    let whole = srw(&v0::encode(&sitting(320, 200), 320, 200));
    folder.put("whole.srw", &whole);
    let (status, text, fault) = folder.run("--clean whole.srw");
    assert_eq!((status, fault.as_str()), (0, ""));
    assert_eq!(text, "whole.srw  CLEAN\n");
    folder.put("cut.srw", &whole[..whole.len() * 2 / 3]);
    let (status, text, _) = folder.run("--clean --pgm out.pgm cut.srw");
    assert!(text.starts_with("cut.srw  REFUSED  row ") && text.ends_with(": the stream ends in it\n"), "{text}");
    assert!(status == 1 && folder.get("out.pgm").is_none(), "{text}");
    let mut up = Frame::new(Version::V0, 4, 1);
    up.push_row(&[0, 0, 0x80, 0xff]);
    folder.put("up.srw", srw(&up));
    let (status, text, _) = folder.run("--clean --json up.srw");
    assert!(status == 1 && text.contains("\"answer\":17,\"row\":0,"), "{text}");
    folder.put("v2.srw", srw(&v2::encode(&sitting(656, 436), 656, 436)));
    assert_eq!(folder.run("--clean v2.srw").0, folder.run("v2.srw").0);
}

#[test]
fn names_do_not_steer_the_terminal() {
    let folder = Folder::new("names");
    let name = "a\u{1b}[2J\nb.srw";
    folder.put(name, srw(&v0::encode(&sitting(40, 6), 40, 6)));
    let tool = env!("CARGO_BIN_EXE_razvolk");
    let (status, text, _) = folder.ran(Command::new(tool).arg(name));
    assert!(status == 0 && text == "a\\u{1b}[2J\\nb.srw  CLEAN\n", "{text}");
    let (_, text, _) = folder.ran(Command::new(tool).args(["--json", name]));
    assert!(text.starts_with("{\"file\":\"a\\u001b[2J\\nb.srw\","), "{text}");
    let (status, text, _) = folder.ran(Command::new(tool).arg("gone\r"));
    assert!(status == 2 && text.starts_with("gone\\r  UNREADABLE  "), "{text}");
}

#[test]
fn an_object_for_each_frame() {
    let folder = Folder::new("json");
    folder.put("a.srw", srw(&with_band(&christening(40, 6), 40, 6, 2)));
    folder.put("b", "no TIFF");
    folder.put("c.srw", srw(&Frame { stream: vec![0; 16], ..Frame::new(Version::V2, 646, 436) }));
    let (status, text, fault) = folder.run("--json a.srw b c.srw");
    assert_eq!((status, fault.as_str()), (2, ""));
    let lines: Vec<&str> = text.lines().collect();
    let a = "{\"file\":\"a.srw\",\"status\":\"hold_back\",\"clean\":false,\"version\":\"V0\",\"width\":40,\"height\":6,\"bits\":14,\"stream_bytes\":200,\"missing_bytes\":0,\
        \"missing_words\":0,\"answer\":0,\"row\":0,\"text\":\"done\",\"samples\":240,\"old\":80,\"old_rows\":[{\"first\":0,\"last\":1,\"samples\":40}],\
        \"filler\":0,\"filler_rows\":[],\"runs\":[[0,0,40],[1,0,40]]}";
    let b = "{\"file\":\"b\",\"status\":\"unreadable\",\"clean\":false,\"error\":\"b: not a TIFF file\"}";
    assert_eq!(lines[..2], [a, b]);
    assert!(
        lines[2].contains("\"missing_words\":7,\"answer\":8,\"row\":0,\"text\":\"the stream ends in row 0\""),
        "{}",
        lines[2]
    );
    assert_eq!(lines.len(), 3);
    let (status, text, _) = folder.run("--v2 32x0 --json b");
    assert!(status == 1 && text.contains("\"answer\":2,\"row\":0") && !text.contains("\"old\""), "{text}");
}

#[test]
fn files_and_folders_at_once() {
    let folder = Folder::new("several");
    for i in 0..9 {
        let frame =
            if i % 3 == 0 { with_band(&christening(40, 6), 40, 6, 2) } else { v0::encode(&sitting(40, 6), 40, 6) };
        folder.put(&format!("{i}.SRW"), srw(&frame));
    }
    folder.put("other.txt", "no frame");
    fs::create_dir(folder.0.join("out")).expect("a folder");
    let tells = |jobs: usize| folder.run(&format!(". --jobs {jobs}"));
    let (status, text, fault) = tells(1);
    assert_eq!((status, fault.as_str()), (3, ""));
    let lines: Vec<&str> = text.lines().collect();
    for (i, line) in lines[..9].iter().enumerate() {
        let verdict = if i % 3 == 0 { "HOLD BACK  33 % of another picture (rows 0 to 1)" } else { "CLEAN" };
        assert_eq!(*line, format!("./{i}.SRW  {verdict}"));
    }
    assert_eq!(lines[9..], ["9 frames: 6 clean, 3 to hold back"]);
    for jobs in [2, 5, 100] {
        assert_eq!(tells(jobs), (status, text.clone(), String::new()), "{jobs} workers tell the same");
    }
    let text = "1.SRW      CLEAN\ngone       UNREADABLE  No such file or directory (os error 2)\n\
        other.txt  UNREADABLE  not a TIFF file\n3 frames: 1 clean, 2 unreadable\n";
    assert_eq!(folder.run("1.SRW gone other.txt --jobs 3"), unreadable(text));
}

/// A pipe, whose writer the tool would wait for, and another folder are passed over.
#[test]
fn what_is_no_file_in_a_folder() {
    let folder = Folder::new("no_files");
    folder.put("a.srw", srw(&v0::encode(&sitting(40, 6), 40, 6)));
    assert_eq!(folder.ran(Command::new("mkfifo").arg("pipe.srw")), done(""));
    fs::create_dir(folder.0.join("folder.srw")).expect("a folder");
    let ran = folder.ran(Command::new("timeout").args(["20", env!("CARGO_BIN_EXE_razvolk"), "."]));
    assert_eq!(ran, done("./a.srw  CLEAN\n"));
}

#[test]
fn outputs_of_several_files_go_to_a_folder() {
    let folder = Folder::new("several_outputs");
    let band = srw(&with_band(&christening(40, 6), 40, 6, 2));
    for (name, file) in [("a.srw", &srw(&v0::encode(&sitting(40, 6), 40, 6))), ("b.srw", &band), ("c.srw", &band)] {
        folder.put(name, file);
    }
    let line = "a.srw b.srw c.srw --jobs 1 --pgm out --png out --planes out --write-v0 out";
    assert_eq!(folder.run(line), bad("out: outputs of several files go to a folder that is there"));
    let out = Folder::new("several_outputs/out");
    assert_eq!(folder.run(line).0, 3);
    let names =
        ["a", "b", "c"].map(|name| ["-planes.png", "-v0.srw", ".pgm", ".png"].map(|end| format!("{name}{end}")));
    assert_eq!(out.names(), names.concat());
    // What isn't marked by the stream is 0 in each, not what the file before left.
    assert!(out.get("b.pgm") == out.get("c.pgm"));
    assert_eq!(out.get("c.pgm").expect("samples")[14..16], [0, 0]);
    // One of them is there: none is written.
    let before = out.get("b.png");
    assert_eq!(folder.run("c.srw b.srw --png out"), bad("out/c.png: there already; --force replaces it"));
    assert_eq!(folder.run("a.srw ./a.srw --pgm out --force"), bad("out/a.pgm: two outputs can't be one file"));
    assert_eq!(out.get("b.png"), before);
}

#[test]
fn standard_input() {
    let folder = Folder::new("stdin");
    folder.put("a.srw", srw(&v0::encode(&sitting(40, 6), 40, 6)));
    let tool = env!("CARGO_BIN_EXE_razvolk");
    let by_shell = |line: &str| folder.ran(Command::new("sh").args(["-c", &line.replace("razvolk", tool)]));
    let text = "-  CLEAN\n";
    assert_eq!(by_shell("cat a.srw | razvolk -"), done(text));
    assert_eq!(by_shell("razvolk - --pgm . < a.srw"), done(text));
    assert_eq!(folder.names(), ["a.srw", "stdin.pgm"]);
    assert_eq!(
        by_shell("razvolk - --pgm a.srw --force < a.srw"),
        bad("a.srw: this file is read, and never written over")
    );
}

/// A picture that goes to standard output alone, and what is told to standard error.
#[test]
fn standard_output() {
    let folder = Folder::new("stdout");
    folder.put("a.srw", srw(&v0::encode(&sitting(40, 6), 40, 6)));
    assert_eq!(folder.run("a.srw --pgm a.pgm").0, 0);
    let tool = env!("CARGO_BIN_EXE_razvolk");
    let run = Command::new(tool).args(["a.srw", "--pgm", "-"]).current_dir(&folder.0).output().expect("the tool runs");
    assert!(Some(run.stdout) == folder.get("a.pgm") && run.stderr == b"a.srw  CLEAN\n" && run.status.success());
    let (status, _, fault) = folder.run("a.srw a.srw --png -");
    assert_eq!((status, fault), (2, complaint("-: outputs of several files go to a folder that is there")));
    assert_eq!(folder.names(), ["a.pgm", "a.srw"]);
}
