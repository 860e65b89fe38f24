//! The files that are read, and which files they are, so that none of them is written over.

use std::fmt::Display;
use std::fs::{self, File, Metadata};
use std::io::{self, Read};
use std::os::fd::AsFd;
use std::os::unix::ffi::OsStrExt;
use std::os::unix::fs::MetadataExt;
use std::path::{Path, PathBuf};

/// The longest file that is read, in bytes.
const LONGEST: u64 = 1 << 28;

/// Which file it is, whatever names and links lead to it: its device and its number there.
#[derive(Clone, Copy, Debug, PartialEq, Eq)]
pub struct Identity {
    device: u64,
    inode: u64,
}

impl Identity {
    pub fn of(metadata: &Metadata) -> Identity {
        Identity { device: metadata.dev(), inode: metadata.ino() }
    }

    /// Of a file that is to be read; none where it can't be told, and then it can't be read.
    pub fn of_input(path: &Path) -> Option<Identity> {
        let metadata = if is_stdin(path) { stdin().and_then(|file| file.metadata()) } else { fs::metadata(path) };
        metadata.as_ref().ok().map(Identity::of)
    }
}

/// A file that was read.
pub struct Input {
    pub path: PathBuf,
    pub bytes: Vec<u8>,
    pub identity: Identity,
}

impl Input {
    /// Reads the file, if it is still the one that was looked at before outputs were allowed. The memory for it is lent.
    pub fn read(path: &Path, known: Option<Identity>, mut bytes: Vec<u8>) -> Result<Input, String> {
        let identity = read_whole(path, &mut bytes).map_err(|e| fault(path, e))?;
        if known.is_some_and(|known| known != identity) {
            return Err(fault(path, "another file has taken its place"));
        }
        if bytes.len() as u64 > LONGEST {
            return Err(fault(path, format_args!("longer than {LONGEST} bytes")));
        }
        Ok(Input { path: path.into(), bytes, identity })
    }

    pub fn name(&self) -> String {
        shown(&self.path)
    }

    /// What is wrong with the file, under its name.
    pub fn fault(&self, what: impl Display) -> String {
        fault(&self.path, what)
    }
}

/// Whether a path is the name of standard input.
pub fn is_stdin(path: &Path) -> bool {
    path.as_os_str() == "-"
}

/// Standard input as a file, of which it can be told which one it is.
fn stdin() -> io::Result<File> {
    io::stdin().as_fd().try_clone_to_owned().map(File::from)
}

/// Reads the file's bytes, up to one more than may be read. The identity is that of the file that was opened.
fn read_whole(path: &Path, bytes: &mut Vec<u8>) -> io::Result<Identity> {
    let file = if is_stdin(path) { stdin()? } else { File::open(path)? };
    let metadata = file.metadata()?;
    bytes.clear();
    // One more, so that the end is found without more memory.
    bytes.reserve_exact(metadata.len().min(LONGEST) as usize + 1);
    file.take(LONGEST + 1).read_to_end(bytes)?;
    Ok(Identity::of(&metadata))
}

/// A file that was named, or found in a folder.
#[derive(Clone, Debug, PartialEq, Eq)]
pub struct Found {
    pub path: PathBuf,
    /// The folders from the one that was named down to the file's own.
    pub below: PathBuf,
}

/// The files that are named, and for a folder the `.srw` files in it, in the order of their names; with `recursive` those in
/// the folders below, too, but for those that outputs go to.
pub fn files(named: &[PathBuf], recursive: bool, outputs: &[&Path]) -> Result<Vec<Found>, String> {
    let outputs: Vec<Identity> =
        outputs.iter().filter_map(|output| fs::metadata(output).ok()).map(|folder| Identity::of(&folder)).collect();
    let mut files = Vec::new();
    for path in named {
        if !path.is_dir() || is_stdin(path) {
            files.push(Found { path: path.clone(), below: PathBuf::new() });
            continue;
        }
        let before = files.len();
        within(path, Path::new(""), recursive, &outputs, &mut files)?;
        if files.len() == before {
            return Err(fault(path, "no .srw file is in this folder"));
        }
    }
    Ok(files)
}

/// Adds the files of a folder, and of those below it: links to folders are passed over, so that a ring of them ends.
fn within(
    folder: &Path,
    below: &Path,
    recursive: bool,
    outputs: &[Identity],
    files: &mut Vec<Found>,
) -> Result<(), String> {
    let entries = fs::read_dir(folder).and_then(|entries| entries.collect::<io::Result<Vec<_>>>());
    let mut entries = entries.map_err(|e| fault(folder, e))?;
    entries.sort_by_key(fs::DirEntry::file_name);
    let (folders, others): (Vec<_>, Vec<_>) =
        entries.into_iter().partition(|entry| entry.file_type().is_ok_and(|kind| kind.is_dir()));
    let is_frame = |path: &Path| {
        // Other systems keep what their own file system has no place for in files of such names.
        let beside = path.file_name().is_some_and(|name| name.as_bytes().starts_with(b"._"));
        !beside && path.extension().is_some_and(|end| end.eq_ignore_ascii_case("srw")) && is_file(path)
    };
    let paths = others.iter().map(fs::DirEntry::path).filter(|path| is_frame(path));
    files.extend(paths.map(|path| Found { path, below: below.into() }));
    for entry in folders.iter().filter(|_| recursive) {
        if !entry.metadata().is_ok_and(|folder| outputs.contains(&Identity::of(&folder))) {
            within(&entry.path(), &below.join(entry.file_name()), recursive, outputs, files)?;
        }
    }
    Ok(())
}

/// Whether what is found in a folder is a file, or a link to nothing, which is told: to open a pipe would wait for its writer.
fn is_file(path: &Path) -> bool {
    fs::metadata(path).map_or(true, |metadata| metadata.is_file())
}

/// Whether a character would steer a terminal: controls, and those that turn the direction of writing.
pub fn steers(c: char) -> bool {
    c.is_control() || matches!(c, '\u{200e}'..='\u{200f}' | '\u{202a}'..='\u{202e}' | '\u{2066}'..='\u{2069}')
}

/// A text as it is printed: what would steer a terminal is escaped.
pub fn escaped(text: &str) -> String {
    text.chars().map(|c| if steers(c) { c.escape_default().to_string() } else { c.to_string() }).collect()
}

/// A file's name as it is printed.
pub fn shown(path: &Path) -> String {
    let name = escaped(&path.to_string_lossy());
    if name.is_empty() { "''".into() } else { name }
}

/// What is wrong with a file, under its name.
pub fn fault(path: &Path, what: impl Display) -> String {
    format!("{}: {what}", shown(path))
}

#[cfg(test)]
mod tests {
    use super::*;

    #[test]
    fn what_would_steer_a_terminal_is_escaped() {
        assert_eq!(shown(Path::new("a b\u{1b}[31m\n\u{202e}ö.srw")), "a b\\u{1b}[31m\\n\\u{202e}ö.srw");
        assert_eq!((escaped("\u{9b}2J\u{7f}"), shown(Path::new(""))), ("\\u{9b}2J\\u{7f}".into(), "''".into()));
    }
}
