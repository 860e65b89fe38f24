//! Holds the documents, the C header and the Rust crate to the sources, and one list to another, so that what is said in several
//! places is said alike in all of them. It needs neither the archive nor the reference.

pub mod answers;
pub mod contracts;
pub mod definitions;
pub mod edits;
pub mod interface;
pub mod layers;
pub mod markdown;
pub mod promises;
pub mod references;

use std::fmt::Display;
use std::path::{Path, PathBuf};
use std::{fs, io};

/// The repository's top.
pub fn top() -> PathBuf {
    Path::new(env!("CARGO_MANIFEST_DIR")).join("../..")
}

/// A file of the repository, by its path from the top.
pub fn text(path: &str) -> String {
    fs::read_to_string(top().join(path)).unwrap_or_else(|e| panic!("{path}: {e}"))
}

/// All files below a folder of the repository with an extension: their paths, and their texts.
pub fn texts(folder: &str, extension: &str) -> Vec<(PathBuf, String)> {
    let mut paths = files(&top().join(folder), &is_made).unwrap_or_else(|e| panic!("{folder}: {e}"));
    paths.retain(|path| path.extension().is_some_and(|found| found == extension));
    paths.into_iter().map(|path| (path.clone(), fs::read_to_string(&path).expect("text"))).collect()
}

/// Whether a folder holds what is made, and no source: that for releases, cargo's, git's, and what `rt` keeps of a crate, which has
/// copies of its sources.
pub fn is_made(path: &Path) -> bool {
    let of_crate = |path: &Path| path.parent().is_some_and(|above| above.ends_with("crates"));
    ["target", "rust/target", ".git"].iter().any(|name| *path == top().join(name))
        || path.ends_with("out") && path.parent().is_some_and(of_crate)
}

/// The files below a folder, in the order of their names; what `leave_out` picks is passed over, folders with all they hold.
pub fn files(folder: &Path, leave_out: &dyn Fn(&Path) -> bool) -> io::Result<Vec<PathBuf>> {
    let mut entries: Vec<PathBuf> = fs::read_dir(folder)?.map(|e| Ok(e?.path())).collect::<io::Result<_>>()?;
    entries.sort();
    let mut found = Vec::new();
    for path in entries.into_iter().filter(|path| !leave_out(path)) {
        if path.is_dir() {
            found.extend(files(&path, leave_out)?);
        } else {
            found.push(path);
        }
    }
    Ok(found)
}

/// What keeps a place's list from the one that it is held to: what it does not have, and what it has besides.
pub fn differences<T: PartialEq + Display>(expected: &[T], place: &str, found: &[T]) -> Vec<String> {
    let missing = expected.iter().filter(|one| !found.contains(one)).map(|one| format!("{place} has no \"{one}\""));
    let besides = found.iter().filter(|one| !expected.contains(one)).map(|one| format!("{place} has \"{one}\""));
    missing.chain(besides).collect()
}

/// Fails with the differences, if there are any.
pub fn hold<T: PartialEq + Display>(expected: &[T], place: &str, found: &[T]) {
    let differences = differences(expected, place, found);
    assert!(differences.is_empty(), "{}", differences.join("\n"));
}
