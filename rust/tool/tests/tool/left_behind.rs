//! That nothing is left behind: signals at random moments, a full disk, a folder that can't be written.

use crate::folder::{Folder, srw};
use std::fs;
use std::path::PathBuf;
use std::process::{Command, Stdio};
use std::thread::sleep;
use std::time::{Duration, Instant};
use streams::images::photo;
use streams::random::Random;
use streams::v0;

/// Six frames in `in`, and what the tool makes of them in `whole`.
fn frames(test: &str) -> Folder {
    let folder = Folder::new(test);
    fs::create_dir(folder.0.join("in")).expect("a folder");
    for i in 0..6 {
        folder.put(&format!("in/{i}.srw"), srw(&v0::encode(&photo(800, 600, 16.0, i), 800, 600)));
    }
    assert_eq!(folder.run("in -o whole --write png,pgm,v0").0, 0);
    folder
}

/// Every file in `out` is one of `whole`, byte for byte, or what it was before.
fn all_whole(folder: &Folder, before: Option<&[u8]>) -> usize {
    let mut count = 0;
    for entry in fs::read_dir(folder.0.join("out")).expect("a folder") {
        let name = entry.expect("a file").file_name().into_string().expect("text");
        assert!(!name.starts_with('.'), "{name} is left behind");
        let file = folder.get(&format!("out/{name}")).expect("a file");
        let whole = folder.get(&format!("whole/{name}"));
        assert!(Some(&file) == whole.as_ref() || Some(&file[..]) == before, "{name} is not whole");
        count += usize::from(Some(file) == whole);
    }
    count
}

/// The files of a folder.
fn files_in(folder: &Folder, name: &str) -> Vec<PathBuf> {
    let entries = fs::read_dir(folder.0.join(name)).expect("a folder");
    entries.map(|entry| entry.expect("a file").path()).collect()
}

/// Takes away what SIGKILL alone may leave, since nothing can hold it up: a file that has its hidden name for the moment in which it
/// is moved over another. It is whole, and there is no second one.
fn take_unmoved(folder: &Folder) {
    let is_hidden = |path: &PathBuf| path.file_name().is_some_and(|name| name.to_string_lossy().starts_with('.'));
    let unmoved: Vec<PathBuf> = files_in(folder, "out").into_iter().filter(is_hidden).collect();
    assert!(unmoved.len() <= 1, "{unmoved:?} are left behind");
    for path in unmoved {
        let file = fs::read(&path).expect("a file");
        let whole = files_in(folder, "whole").into_iter().any(|whole| fs::read(whole).expect("a file") == file);
        assert!(whole, "{path:?} is not whole");
        fs::remove_file(path).expect("it was there");
    }
}

/// Where the tool's unfinished files stand.
#[derive(Clone, Copy, PartialEq)]
enum Unfinished {
    /// Nowhere: they have no name.
    Unnamed,
    /// Beside the outputs, under a name: the tool can't tell the kernel which open file it means, since /proc is hidden.
    Named,
}

impl Unfinished {
    /// A command that runs the tool.
    fn tool(self, folder: &Folder, words: &str) -> Command {
        let line = format!("exec {} {words}", env!("CARGO_BIN_EXE_razvolk"));
        let mut command = match self {
            Unfinished::Unnamed => Command::new("sh"),
            Unfinished::Named => {
                let mut command = Command::new("unshare");
                command.args(["-rm", "sh"]);
                command
            }
        };
        let hidden = if self == Unfinished::Named { "mount -t tmpfs none /proc && " } else { "" };
        command.args(["-c", &format!("{hidden}{line}")]).current_dir(&folder.0).stdout(Stdio::null());
        command
    }
}

/// Ends the tool by a signal after a while; whether it ended by it, and whether a hidden file stood in `out` then.
fn ended(folder: &Folder, mut command: Command, signal: &str, after: Duration) -> (bool, bool) {
    let mut tool = command.spawn().expect("the tool runs");
    sleep(after);
    let hidden = fs::read_dir(folder.0.join("out"))
        .expect("a folder")
        .any(|entry| entry.is_ok_and(|entry| entry.file_name().to_string_lossy().starts_with('.')));
    let sent = Command::new("kill").args([signal, &tool.id().to_string()]).stderr(Stdio::null()).status();
    sent.expect("kill runs");
    (tool.wait().expect("it ends").code().is_none(), hidden)
}

/// Signals at random moments: new files, and files that are replaced. How often a hidden file stood there when the signal came.
/// It takes 60 rounds, and more where the tool is done before most signals, as when the machine gets idle.
fn at_random_moments(test: &str, unfinished: Unfinished, signals: &[&str]) -> usize {
    let folder = frames(test);
    let line = "in -o out --write png,pgm,v0 --force";
    let began = Instant::now();
    assert!(unfinished.tool(&folder, line).status().is_ok_and(|status| status.success()));
    let took = began.elapsed();
    let mut random = Random::new(1);
    let (mut by_signal, mut between, mut hidden) = (0, 0, 0);
    for round in 0..300 {
        if round >= 60 && by_signal >= 20 && between >= 10 {
            break;
        }
        let signal = signals[round % signals.len()];
        let replaced = round / 4 % 2 == 1;
        fs::remove_dir_all(folder.0.join("out")).expect("it was there");
        fs::create_dir(folder.0.join("out")).expect("a folder");
        for name in fs::read_dir(folder.0.join("whole")).expect("a folder").filter(|_| replaced) {
            let name = name.expect("a file").file_name();
            folder.put(&format!("out/{}", name.to_string_lossy()), "old");
        }
        let after = took.mul_f64(random.below(1_000) as f64 / 1_000.0);
        let (ended, stood) = ended(&folder, unfinished.tool(&folder, line), signal, after);
        by_signal += usize::from(ended);
        hidden += usize::from(ended && stood);
        if signal == "-KILL" && replaced {
            take_unmoved(&folder);
        }
        between += usize::from((1..18).contains(&all_whole(&folder, Some(b"old"))));
    }
    // Else the moments were none at which something could be left.
    assert!(by_signal >= 20 && between >= 10, "{by_signal} ended by the signal, {between} of them between two files");
    hidden
}

#[test]
fn signals() {
    at_random_moments("signals", Unfinished::Unnamed, &["-INT", "-TERM", "-HUP", "-KILL"]);
}

/// As on a file system without unnamed files: what has a name is taken away.
#[test]
fn signals_where_unfinished_files_have_names() {
    let may = Command::new("unshare").args(["-rm", "mount", "-t", "tmpfs", "none", "/proc"]).output();
    if !may.as_ref().is_ok_and(|may| may.status.success()) {
        assert!(std::env::var("CI").as_deref() != Ok("true"), "/proc can't be hidden: {may:?}");
        return eprintln!("left out: /proc can't be hidden: {may:?}");
    }
    let hidden = at_random_moments("signals_named", Unfinished::Named, &["-INT", "-TERM", "-HUP"]);
    assert!(hidden >= 5, "a file under a name stood there {hidden} times");
}

/// A signal that is ignored, as nohup does it, ends nothing.
#[test]
fn a_signal_that_is_ignored() {
    let folder = frames("ignored");
    let line = format!("trap '' HUP; exec {} in -o out --write png,pgm,v0", env!("CARGO_BIN_EXE_razvolk"));
    let mut tool =
        Command::new("sh").args(["-c", &line]).current_dir(&folder.0).stdout(Stdio::null()).spawn().expect("sh");
    for _ in 0..20 {
        sleep(Duration::from_millis(5));
        let _ = Command::new("kill").args(["-HUP", &tool.id().to_string()]).stderr(Stdio::null()).status();
    }
    assert_eq!(tool.wait().expect("it ends").code(), Some(0));
    assert_eq!(all_whole(&folder, None), 18);
}

/// Runs a line of a shell where `out` is a small file system of its own; none where this user may not make one, which the gate
/// doesn't take for a pass.
fn mounted(folder: &Folder, options: &str, line: &str) -> Option<(i32, String, String)> {
    fs::create_dir_all(folder.0.join("out")).expect("a folder");
    let may = folder.ran(Command::new("unshare").args(["-rm", "mount", "-t", "tmpfs", "none", "out"]));
    if may.0 != 0 {
        assert!(std::env::var("CI").as_deref() != Ok("true"), "no file system can be mounted: {}", may.2);
        eprintln!("left out: no file system can be mounted: {}", may.2);
        return None;
    }
    let line =
        format!("mount -t tmpfs -o {options} none out && {line}").replace("razvolk", env!("CARGO_BIN_EXE_razvolk"));
    Some(folder.ran(Command::new("unshare").args(["-rm", "sh", "-c", &line])))
}

/// What has room is written, and whole; what has none is told, and nothing of it is left.
#[test]
fn a_full_disk() {
    let folder = frames("full");
    let line = "razvolk in -j 1 -o out --write pgm > told 2> said; echo $?; ls -A out; cmp out/0.pgm whole/0.pgm; cmp out/1.pgm whole/1.pgm";
    let Some(ran) = mounted(&folder, "size=2000k", line) else { return };
    assert_eq!(ran, (0, "2\n0.pgm\n1.pgm\n".into(), String::new()));
    let said = String::from_utf8(folder.get("said").expect("what is said")).expect("text");
    assert_eq!(said.lines().filter(|line| line.contains("No space left on device")).count(), 4, "{said}");
    let told = String::from_utf8(folder.get("told").expect("what is told")).expect("text");
    assert!(told.ends_with("6 frames: 6 clean, 4 outputs not written\n"), "{told}");
    // By force, too, the old files stay where the new ones have no room.
    let line = "echo old > out/0.pgm; dd if=/dev/zero of=out/big bs=1k count=1200 2>/dev/null; \
        razvolk in/0.srw --pgm out/0.pgm --force > told 2> said; echo $?; ls -A out; cat out/0.pgm";
    let Some(ran) = mounted(&folder, "size=2000k", line) else { return };
    assert_eq!(ran, (0, "2\n0.pgm\nbig\nold\n".into(), String::new()));
}

#[test]
fn a_folder_that_cannot_be_written() {
    let folder = frames("read_only");
    let line = "mount -o remount,ro none out && { razvolk in/0.srw in/1.srw --png out --pgm out 2> said; echo $?; ls -A out; }";
    let Some((status, text, _)) = mounted(&folder, "size=2000k", line) else { return };
    assert_eq!(status, 0);
    assert!(text.ends_with("2 frames: 2 clean, 2 outputs not written\n2\n"), "{text}");
    let said = String::from_utf8(folder.get("said").expect("what is said")).expect("text");
    assert_eq!(said.lines().filter(|line| line.contains("Read-only file system")).count(), 2, "{said}");
}
