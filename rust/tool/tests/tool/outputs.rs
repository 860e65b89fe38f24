//! That no file is harmed: each test runs the tool where a careless one would.

use crate::folder::{Folder, Ran, bad, complaint, srw};
use std::fs;
use std::os::unix::fs::{MetadataExt, PermissionsExt, symlink};
use std::os::unix::net::UnixListener;
use std::process::Command;
use streams::images::{christening, sitting};
use streams::v0;

const THERE: &str = "there already; --force replaces it";
const READ: &str = "this file is read, and never written over";

/// Two raw files, `a.srw` and `b.srw`.
fn folder(test: &str) -> Folder {
    let folder = Folder::new(test);
    folder.put("a.srw", srw(&v0::encode(&sitting(40, 6), 40, 6)));
    folder.put("b.srw", srw(&v0::encode(&christening(40, 6), 40, 6)));
    folder
}

/// Runs a line that must be refused before anything is printed or written.
fn refused(folder: &Folder, line: &str, fault: &str) {
    let all = |folder: &Folder| folder.names().into_iter().map(|name| (folder.get(&name), name)).collect::<Vec<_>>();
    let before = all(folder);
    assert_eq!(folder.run(line), bad(fault), "{line}");
    assert!(all(folder) == before, "{line}: a file has changed");
}

fn is_done(ran: &Ran) -> bool {
    ran.0 == 0 && ran.1.ends_with("  CLEAN\n") && ran.2.is_empty()
}

/// Where a shell makes two names of `*.srw`, the first is the output.
#[test]
fn a_raw_file_taken_for_the_output_is_kept() {
    let folder = folder("taken");
    refused(&folder, "--png a.srw b.srw", &format!("a.srw: {THERE}"));
}

#[test]
fn a_file_that_is_there_is_replaced_by_force_alone() {
    let folder = folder("there");
    folder.put("wide.srw", srw(&v0::encode(&sitting(656, 436), 656, 436)));
    for output in ["--pgm", "--png", "--planes", "--write-v0", "--to-v2"] {
        folder.put("old", "old");
        refused(&folder, &format!("wide.srw {output} old"), &format!("old: {THERE}"));
        assert!(is_done(&folder.run(&format!("wide.srw {output} old --force"))));
        assert!(folder.get("old").expect("a file").len() > 100);
    }
    assert!(is_done(&folder.run("a.srw --force --pgm new")), "by force, too, a new file is written");
    assert_eq!(folder.names(), ["a.srw", "b.srw", "new", "old", "wide.srw"], "nothing is left beside them");
}

#[test]
fn one_output_that_is_there_keeps_the_other_from_being_written() {
    let folder = folder("one_of_two");
    folder.put("old", "old");
    refused(&folder, "a.srw --pgm new --png old", &format!("old: {THERE}"));
    refused(&folder, "a.srw --pgm old --png new", &format!("old: {THERE}"));
    refused(&folder, "a.srw --pgm new --write-v0 old", &format!("old: {THERE}"));
}

#[test]
fn an_input_is_never_written_over() {
    let folder = folder("inputs");
    folder.put("stream", [0, 0, 0, 0x80, 0x18, 0x20, 0xa0, 0x7f, 0, 0, 0x70, 0]);
    folder.put("offsets", "0 4");
    let own = folder.0.join("a.srw");
    symlink("a.srw", folder.0.join("link")).expect("a link");
    symlink("link", folder.0.join("link to a link")).expect("a link");
    fs::hard_link(&own, folder.0.join("second")).expect("a second name");
    for name in ["a.srw", "./a.srw", &own.display().to_string(), "link", "second"] {
        for output in ["--pgm", "--png", "--planes", "--write-v0", "--to-v2"] {
            let fault = format!("{name}: {READ}");
            refused(&folder, &format!("a.srw {output} {name}"), &fault);
            refused(&folder, &format!("a.srw {output} {name} --force"), &fault);
            refused(&folder, &format!("--over a.srw b.srw {output} {name} --force"), &fault);
            refused(&folder, &format!("{name} {output} a.srw --force"), &format!("a.srw: {READ}"));
        }
    }
    let bare = "--v0 2x2 --offsets offsets stream --force --pgm";
    for name in ["stream", "offsets"] {
        refused(&folder, &format!("{bare} {name}"), &format!("{name}: {READ}"));
    }
    // The words of a line have no blanks here.
    let tool = env!("CARGO_BIN_EXE_razvolk");
    let ran = folder.ran(Command::new(tool).args(["a.srw", "--force", "--png", "link to a link"]));
    assert_eq!(ran, bad(&format!("link to a link: {READ}")));
}

#[test]
fn a_link_is_followed_and_stays() {
    let folder = folder("links");
    folder.put("old", "old");
    symlink("old", folder.0.join("link")).expect("a link");
    refused(&folder, "a.srw --pgm link", &format!("link: {THERE}"));
    assert!(is_done(&folder.run("a.srw --pgm link --force")));
    assert!(fs::symlink_metadata(folder.0.join("link")).expect("a link").is_symlink());
    assert!(folder.get("old").expect("a file").starts_with(b"P5"));
    symlink("gone", folder.0.join("dangling")).expect("a link");
    for line in ["a.srw --pgm dangling", "a.srw --pgm dangling --force"] {
        refused(&folder, line, "dangling: there already, and a link to nothing");
    }
}

#[test]
fn what_is_no_file_is_not_replaced() {
    let folder = folder("no_file");
    let _socket = UnixListener::bind(folder.0.join("socket")).expect("a socket");
    for name in ["socket"] {
        for force in ["", "--force"] {
            let fault = format!("{name}: there already, and not a regular file");
            refused(&folder, &format!("a.srw --png {name} {force}"), &fault);
        }
    }
}

#[test]
fn a_folder_that_is_not_there_is_not_made_a_file() {
    let folder = folder("no_folder");
    for name in ["new/", "new/.", "new//"] {
        refused(&folder, &format!("a.srw --png {name}"), &format!("{name}: no such folder"));
    }
    fs::create_dir(folder.0.join("new")).expect("a folder");
    assert!(is_done(&folder.run("a.srw --png new/")));
    assert!(folder.get("new/a.png").is_some());
}

#[test]
fn two_outputs_are_two_files() {
    let folder = folder("two");
    folder.put("old", "old");
    symlink("old", folder.0.join("link")).expect("a link");
    for (line, name) in [
        ("a.srw --pgm x --png x", "x"),
        ("a.srw --pgm x --png ./x", "./x"),
        ("a.srw --pgm old --png link --force", "link"),
        ("a.srw --pgm x --write-v0 x", "x"),
    ] {
        refused(&folder, line, &format!("{name}: two outputs can't be one file"));
    }
}

/// Runs the tool where no file may grow beyond a kilobyte: then a write fails, or ends the tool.
fn run_out_of_room(folder: &Folder, before: &str, line: &str) -> Ran {
    let tool = env!("CARGO_BIN_EXE_razvolk");
    folder.ran(Command::new("sh").args(["-c", &format!("{before} ulimit -f 2; exec {tool} {line}")]))
}

#[test]
fn a_failure_leaves_the_old_file() {
    let folder = Folder::new("failure");
    folder.put("a.srw", srw(&v0::encode(&sitting(320, 200), 320, 200)));
    folder.put("old.pgm", "old");
    folder.put("old.png", "old");
    let line = "a.srw --force --pgm old.pgm --png old.png";
    let (status, _, fault) = run_out_of_room(&folder, "trap '' XFSZ;", line);
    assert_eq!((status, fault), (2, complaint("old.pgm: File too large (os error 27)")));
    // The samples have room, the file that stores them has not: both files stay as they were.
    let noise: Vec<u16> = (0..400u32).map(|i| (i * i * 31 % 16_384) as u16).collect();
    folder.put("b.srw", srw(&v0::encode(&noise, 20, 20)));
    let (status, _, fault) =
        run_out_of_room(&folder, "trap '' XFSZ;", "b.srw --force --pgm old.pgm --write-v0 old.png");
    assert_eq!((status, fault), (2, complaint("old.png: File too large (os error 27)")));
    assert_eq!(folder.names(), ["a.srw", "b.srw", "old.pgm", "old.png"], "nothing is left beside them");
    // A tool that is ended while it writes leaves no more.
    assert_eq!(run_out_of_room(&folder, "", line).0, -1);
    assert_eq!(folder.names(), ["a.srw", "b.srw", "old.pgm", "old.png"], "nor after an end by a signal");
    assert_eq!([folder.get("old.pgm"), folder.get("old.png")], [Some(b"old".to_vec()), Some(b"old".to_vec())]);
}

#[test]
fn a_file_that_is_replaced_keeps_its_permissions_and_its_other_names() {
    let folder = folder("permissions");
    folder.put("old", "old");
    let old = folder.0.join("old");
    fs::set_permissions(&old, fs::Permissions::from_mode(0o600)).expect("permissions are set");
    fs::hard_link(&old, folder.0.join("second")).expect("a second name");
    assert!(is_done(&folder.run("a.srw --pgm old --force")));
    assert_eq!(fs::metadata(&old).expect("a file").mode() & 0o777, 0o600);
    assert_eq!(folder.get("second"), Some(b"old".to_vec()), "the old file was not written into");
}
