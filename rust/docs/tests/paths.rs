//! No file of the repository names a place on the machine that it was written on.

use docs::{files, is_made, top};
use std::fs;

/// The page on how this tree came to be, which names the toolchain's own scripts.
const OF_THE_TOOLCHAIN: &str = "docs/PORT.md";

/// The folders that such a path begins with.
const FOLDERS: [&str; 5] = ["home", "opt", "root", "tmp", "work"];

/// The first such path in a line. A folder of that name that stands deeper in another path is none.
fn machine_path(line: &str) -> Option<&str> {
    FOLDERS.iter().find_map(|folder| {
        let path = format!("/{folder}/");
        let mut places = line.match_indices(&path);
        places
            .find(|(at, _)| !line[..*at].ends_with(|c: char| c.is_alphanumeric() || "._-~}".contains(c)))
            .map(|(at, _)| &line[at..])
    })
}

#[test]
fn no_file_names_a_path_of_a_machine() {
    let files = files(&top(), &is_made).expect("the repository");
    let mut found = Vec::new();
    for path in files.iter().filter(|path| !path.ends_with(OF_THE_TOOLCHAIN)) {
        let Ok(text) = fs::read_to_string(path) else { continue };
        for (number, line) in (1..).zip(text.lines()) {
            if let Some(at) = machine_path(line) {
                found.push(format!("{}:{number}: {at}", path.display()));
            }
        }
    }
    assert!(files.len() > 10, "the repository's files were found");
    assert!(found.is_empty(), "{}", found.join("\n"));
}

#[test]
fn a_path_of_a_machine_is_found() {
    let place = |folder: &str| format!("/{folder}/x");
    assert!(machine_path(&place("tmp")).is_some());
    assert!(machine_path(&format!("see {}", place("root"))).is_some());
    assert!(machine_path(&format!("`../a{}` and \"{}\"", place("tmp"), place("opt"))).is_some());
    assert!(machine_path(&format!("rust/target{} and ../shared", place("tmp"))).is_none());
}
