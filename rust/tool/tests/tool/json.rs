//! That what is told for scripts is JSON.

use crate::folder::{Folder, srw};
use serde_json::{Value, json};
use std::ffi::OsStr;
use std::os::unix::ffi::OsStrExt;
use std::process::Command;
use streams::images::{christening, sitting};
use streams::{Frame, Version, v0, v2};

/// The objects that are told, a line each.
fn objects(text: &str) -> Vec<Value> {
    text.lines().map(|line| serde_json::from_str(line).unwrap_or_else(|e| panic!("{line}: {e}"))).collect()
}

fn object(text: &str) -> Value {
    let [object] = &objects(text)[..] else { panic!("one line: {text}") };
    object.clone()
}

fn is_there(object: &Value, name: &str) -> bool {
    object.get(name).is_some()
}

/// Whatever is in a name, a line is an object, and has nothing that steers a terminal.
#[test]
fn names_of_every_kind() {
    let folder = Folder::new("json_names");
    let names: [&[u8]; 6] = [
        b"a\"b\\.srw",
        b"\x1b[2J\n\r.srw",
        b"\x7f\xc2\x9b31m.srw",
        b"\xff\xfe.srw",
        "\u{202e}ö😀.srw".as_bytes(),
        b"-- .srw",
    ];
    let file = srw(&v0::encode(&sitting(40, 6), 40, 6));
    for name in names {
        std::fs::write(folder.0.join(OsStr::from_bytes(name)), &file).expect("a file is written");
    }
    std::fs::write(folder.0.join(OsStr::from_bytes(b"\x1b.srw")), "no TIFF").expect("a file is written");
    let tool = env!("CARGO_BIN_EXE_razvolk");
    let (status, text, fault) = folder.ran(Command::new(tool).args(["--json", "."]));
    assert_eq!((status, fault.as_str(), text.lines().count()), (2, "", 7));
    assert!(!text.contains(|c: char| c != '\n' && c.is_control() || c == '\u{202e}'), "{text:?}");
    let objects = objects(&text);
    for name in names {
        let name = [b"./", name].concat();
        let file = json!(String::from_utf8_lossy(&name));
        let found = objects.iter().find(|object| object["file"] == file).unwrap_or_else(|| panic!("{file}"));
        // A name that isn't UTF-8 can be mapped back.
        let bytes: String = name.iter().map(|byte| format!("{byte:02x}")).collect();
        let expected = std::str::from_utf8(&name).map_or(Some(json!(bytes)), |_| None);
        assert_eq!(found.get("file_bytes").cloned(), expected);
    }
    let unreadable: Vec<&Value> = objects.iter().filter(|object| is_there(object, "error")).collect();
    assert!(unreadable.len() == 1 && unreadable[0]["status"] == "unreadable" && unreadable[0]["clean"] == false);
}

#[test]
fn every_field_of_a_frame() {
    let folder = Folder::new("json_fields");
    let file = srw(&v0::encode(&sitting(320, 200), 320, 200));
    folder.put("cut.srw", &file[..file.len() * 2 / 3]);
    folder.put("v2.srw", srw(&v2::encode(&christening(646, 436), 646, 436)));
    folder.put("stream", [0; 16]);
    let told = |line: &str| folder.run(line).1;
    let cut = object(&told("--json cut.srw"));
    let names = [
        "file",
        "status",
        "clean",
        "version",
        "width",
        "height",
        "bits",
        "stream_bytes",
        "missing_bytes",
        "missing_words",
        "answer",
        "row",
        "text",
        "samples",
        "old",
        "old_rows",
        "filler",
        "filler_rows",
        "runs",
    ];
    assert_eq!(cut.as_object().expect("an object").len(), names.len());
    assert!(names.iter().all(|name| is_there(&cut, name)), "{cut}");
    assert!(cut["status"] == "incomplete" && cut["clean"] == false);
    assert!(cut["filler"].as_u64() > Some(10_000) && cut["missing_words"] != 0);
    let runs = cut["runs"].as_array().expect("runs");
    assert_eq!(runs.last(), Some(&json!([199, 0, 320])), "the last row is made of missing words");
    assert!(!is_there(&object(&told("--json --no-runs cut.srw")), "runs"));
    // V2 tells its own header, too; what is blanked is told with its fill, or with none.
    let v2 = object(&told("--json v2.srw --blank 7"));
    assert_eq!(v2["header"], json!({"width": 646, "height": 436, "bits": 14}));
    assert!(v2["bits"] == 14 && v2["blanked"] == 7 && v2["old"] == 2_616 && v2["status"] == "hold_back");
    assert_eq!(v2["runs"].as_array().expect("runs")[..2], [json!([0, 640, 6]), json!([1, 640, 6])]);
    let v2 = object(&told("--json --over cut.srw v2.srw --blank"));
    assert!(v2["blanked"] == Value::Null && is_there(&v2, "blanked") && v2["over"] == 0);
    // A bare stream has no container that could tell bits; one that is not begun has no samples.
    let bare = object(&told("--json --v2 646x436 stream"));
    assert!(bare["bits"] == Value::Null && is_there(&bare, "bits") && bare["answer"] == 8 && bare["row"] == 0);
    assert_eq!(bare["status"], "refused");
    assert!(!is_there(&object(&told("--json --v2 99999x436 stream")), "samples"));
}

/// An output that fails is told in the object of its frame.
#[test]
fn one_object_a_frame() {
    let folder = Folder::new("json_one");
    folder.put("v2.srw", srw(&Frame { stream: vec![0; 16], ..Frame::new(Version::V2, 646, 436) }));
    folder.put("a.srw", srw(&v0::encode(&sitting(40, 6), 40, 6)));
    let (status, text, fault) = folder.run("--json a.srw --to-v2 out.srw");
    assert_eq!((status, fault.as_str(), text.lines().count()), (2, "", 1));
    let of_a = object(&text);
    assert!(of_a["answer"] == 0 && of_a["clean"] == true && is_there(&of_a, "error"), "{of_a}");
    let (status, text, _) = folder.run("--json a.srw gone v2.srw");
    let answers: Vec<Option<u64>> = objects(&text).iter().map(|object| object["answer"].as_u64()).collect();
    assert_eq!((status, answers), (2, vec![Some(0), None, Some(8)]));
}
