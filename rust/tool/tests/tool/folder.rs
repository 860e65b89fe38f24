//! A folder for one test, in which the built tool is run.

use razvolk::srw::{self, Coding};
use std::fs;
use std::path::PathBuf;
use std::process::Command;
use streams::{Frame, Version};

/// A file that holds the frame.
pub fn srw(frame: &Frame) -> Vec<u8> {
    let coding = if frame.version == Version::V0 { Coding::V0(frame.offsets.clone()) } else { Coding::V2 };
    srw::Frame::new(coding, frame.width, frame.height, &frame.stream).to_file()
}

/// The exit status, and what is printed to standard output and to standard error.
pub type Ran = (i32, String, String);

/// A folder that holds what a test puts there, and what the tool writes.
pub struct Folder(pub PathBuf);

impl Folder {
    /// Empty, whatever an earlier run left.
    pub fn new(test: &str) -> Folder {
        let path = PathBuf::from(env!("CARGO_TARGET_TMPDIR")).join(test);
        if path.exists() {
            fs::remove_dir_all(&path).expect("what an earlier run left is removed");
        }
        fs::create_dir_all(&path).expect("a folder");
        Folder(path)
    }

    pub fn put(&self, name: &str, bytes: impl AsRef<[u8]>) {
        fs::write(self.0.join(name), bytes).expect("a file is written");
    }

    pub fn get(&self, name: &str) -> Option<Vec<u8>> {
        fs::read(self.0.join(name)).ok()
    }

    /// The names of all files, in their order.
    pub fn names(&self) -> Vec<String> {
        let entries = fs::read_dir(&self.0).expect("a folder").map(|entry| entry.expect("a file").file_name());
        let mut names: Vec<String> = entries.map(|name| name.to_string_lossy().into_owned()).collect();
        names.sort();
        names
    }

    /// Runs the tool in the folder.
    pub fn run(&self, line: &str) -> Ran {
        self.ran(Command::new(env!("CARGO_BIN_EXE_razvolk")).args(line.split_whitespace()))
    }

    /// Runs a command in the folder; an end by a signal is status -1.
    pub fn ran(&self, command: &mut Command) -> Ran {
        let run = command.current_dir(&self.0).output().expect("the command runs");
        let text = |bytes| String::from_utf8(bytes).expect("text");
        (run.status.code().unwrap_or(-1), text(run.stdout), text(run.stderr))
    }
}

pub fn done(text: &str) -> Ran {
    (0, text.into(), String::new())
}

/// Done, and something of it is old or missing.
pub fn marked(text: &str) -> Ran {
    (3, text.into(), String::new())
}

pub fn refused(text: &str) -> Ran {
    (1, text.into(), String::new())
}

/// A file can't be read, or has no frame.
pub fn unreadable(text: &str) -> Ran {
    (2, text.into(), String::new())
}

/// Nothing is done, and this is why.
pub fn bad(text: &str) -> Ran {
    (2, String::new(), complaint(text))
}

pub fn complaint(text: &str) -> String {
    format!("razvolk: {text}\n")
}

/// Runs the tool where a fault of the command line is expected: nothing is told, the fault is, and where to look.
pub fn misused(folder: &Folder, line: &str, text: &str) {
    let (status, told, fault) = folder.run(line);
    assert!(status == 2 && told.is_empty() && fault.contains(text), "{line}: {status} {told} {fault}");
    assert!(fault.ends_with("For more information try '--help'\n") || fault.contains("'--help'"), "{fault}");
}

/// What a test that passed made goes: `rt ci` refuses links in the repository.
impl Drop for Folder {
    fn drop(&mut self) {
        if !std::thread::panicking() {
            fs::remove_dir_all(&self.0).expect("what the test made is removed");
        }
    }
}
