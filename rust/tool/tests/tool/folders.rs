//! Folders of frames: below others, gone on with after an interruption, and watched on a terminal.

use crate::folder::{Folder, bad, srw};
use std::fs;
use std::os::unix::fs::symlink;
use std::process::Command;
use streams::images::{christening, sitting};
use streams::v0;

/// Frames in `in`, `in/one` and `in/one/two`, and what is none.
fn tree(test: &str) -> Folder {
    let folder = Folder::new(test);
    let frame = srw(&v0::encode(&sitting(40, 6), 40, 6));
    for below in ["in", "in/one", "in/one/two", "in/empty"] {
        fs::create_dir(folder.0.join(below)).expect("a folder");
    }
    for name in ["in/a.srw", "in/one/b.SRW", "in/one/two/a.srw"] {
        folder.put(name, &frame);
    }
    for name in ["in/._a.srw", "in/one/._b.SRW"] {
        folder.put(name, "what another system keeps beside a file");
    }
    // A ring of folders ends.
    symlink("..", folder.0.join("in/one/up")).expect("a link");
    folder
}

/// All files below a folder, by their paths.
fn below(folder: &Folder, name: &str) -> Vec<String> {
    let (_, found, _) = folder.ran(Command::new("find").args([name, "-type", "f"]));
    let mut found: Vec<String> = found.lines().map(str::to_string).collect();
    found.sort();
    found
}

#[test]
fn folders_below_folders_are_mirrored() {
    let folder = tree("mirrored");
    let text = "in/a.srw          CLEAN\nin/one/b.SRW      CLEAN\nin/one/two/a.srw  CLEAN\n3 frames: 3 clean\n";
    assert_eq!(folder.run("-r in -o out --write png,pgm"), (0, text.into(), String::new()));
    let written =
        ["out/a.pgm", "out/a.png", "out/one/b.pgm", "out/one/b.png", "out/one/two/a.pgm", "out/one/two/a.png"];
    assert_eq!(below(&folder, "out"), written);
    assert_eq!(folder.run("in").1, "in/a.srw  CLEAN\n", "the folder alone");
    // What is written into the folder that is read isn't read the next time.
    assert_eq!(folder.run("-r in -o in/made --write v0").1.lines().count(), 4);
    assert_eq!(folder.run("-r in -o in/made --write v0 --force").1.lines().count(), 4);
    assert_eq!(folder.run("in/empty"), bad("in/empty: no .srw file is in this folder"));
}

#[test]
fn what_is_there_is_passed_over() {
    let folder = tree("skipped");
    assert_eq!(folder.run("-r in -o out").0, 0);
    let before = fs::metadata(folder.0.join("out/a.png")).expect("a file").modified().expect("a time");
    fs::remove_file(folder.0.join("out/one/b.png")).expect("it was there");
    assert_eq!(folder.run("-r in -o out").0, 2, "without --skip-existing nothing is written");
    assert!(folder.get("out/one/b.png").is_none());
    let text = "in/a.srw          SKIPPED  its outputs are there\nin/one/b.SRW      CLEAN\n\
        in/one/two/a.srw  SKIPPED  its outputs are there\n3 frames: 1 clean, 2 skipped\n";
    assert_eq!(folder.run("-r in -o out --skip-existing"), (0, text.into(), String::new()));
    assert!(folder.get("out/one/b.png").is_some());
    let after = fs::metadata(folder.0.join("out/a.png")).expect("a file").modified().expect("a time");
    assert_eq!(before, after);
    let (status, text, _) = folder.run("-r in -o out --skip-existing --json");
    assert!(status == 0 && text.matches("\"status\":\"skipped\"").count() == 3, "{text}");
    // Of two outputs the one that isn't there is written.
    assert_eq!(folder.run("-r in -o out --write png,pgm --skip-existing").1.matches("CLEAN").count(), 3);
    assert!(folder.get("out/a.pgm").is_some());
}

/// On a terminal a line tells how far it is, how many files a second, and the time left; it goes again.
#[test]
fn progress_on_a_terminal() {
    let folder = Folder::new("progress");
    for i in 0..40 {
        folder.put(&format!("{i}.srw"), srw(&v0::encode(&christening(320, 200), 320, 200)));
    }
    let line = format!("{} . -j 1 --png out > told", env!("CARGO_BIN_EXE_razvolk"));
    fs::create_dir(folder.0.join("out")).expect("a folder");
    let (status, shown, _) = folder.ran(Command::new("script").args(["-qec", &line, "/dev/null"]));
    assert!(
        status == 0 && shown.contains(" of 40 frames, ") && shown.contains("/s, ") && shown.contains(" left"),
        "{shown:?}"
    );
    let told = String::from_utf8(folder.get("told").expect("what is told")).expect("text");
    assert!(told.lines().count() == 41 && !told.contains(" left"), "{told}");
    assert_eq!(folder.run(". --png out --force").2, "", "nothing of it where nobody looks");
}
