//! Every wrong edit, in the gate or beside it, fits the crate that it changes, and has a name of its own there; every library has one
//! in the gate; and the tables of docs/TESTING.md name edits of the gate.

use docs::edits::fault;
use docs::{text, texts, top};
use std::collections::{BTreeMap, BTreeSet};
use std::fs;
use std::path::Path;

/// The edits of all crates, by crate and by the folder of it that they stand in: their names and texts.
fn edits() -> BTreeMap<(String, String), Vec<(String, String)>> {
    let mut found = BTreeMap::new();
    for (path, edit) in texts("crates", "edit") {
        let inner =
            path.strip_prefix(top().join("crates")).expect("a path below crates").to_string_lossy().into_owned();
        let (crate_name, rest) = inner.split_once('/').expect("a crate's name");
        let (folder, name) = rest.rsplit_once('/').unwrap_or(("", rest));
        found.entry((crate_name.into(), folder.into())).or_insert_with(Vec::new).push((name.into(), edit));
    }
    found
}

#[test]
fn every_wrong_edit_fits_its_crate() {
    let mut found = Vec::new();
    let mut names = BTreeSet::new();
    for ((name, folder), edits) in edits() {
        let is_tried = ["must-fail", "must-fail-more"].contains(&folder.as_str());
        assert!(is_tried, "{name}: nothing tries the edits of {folder}/");
        let crate_folder = top().join("crates").join(&name);
        for (file, edit) in edits {
            assert!(names.insert((name.clone(), file.clone())), "{name}: two edits have the name {file}");
            let what = fault(&edit, |inner| fs::read_to_string(crate_folder.join(inner)).ok());
            found.extend(what.map(|what| format!("{name}/{folder}/{file}: {what}")));
        }
    }
    assert!(names.len() > 50, "{} edits", names.len());
    assert!(found.is_empty(), "{}", found.join("\n"));
}

#[test]
fn every_library_has_a_wrong_edit_in_the_gate() {
    let crates = fs::read_dir(top().join("crates")).expect("the crates").map(|entry| entry.expect("a crate").path());
    let has_edit = |path: &Path| {
        fs::read_dir(path.join("must-fail"))
            .is_ok_and(|mut found| found.any(|entry| entry.is_ok_and(|e| e.path().is_file())))
    };
    let without: Vec<_> = crates.filter(|path| path.join("src/lib.rt").exists() && !has_edit(path)).collect();
    assert!(without.is_empty(), "{without:?}");
}

/// The tables of docs/TESTING.md name edits as `crate/name`: each must stand in the gate.
#[test]
fn the_edits_that_are_told_stand_in_the_gate() {
    let testing = text("docs/TESTING.md");
    let (_, section) = testing.split_once("\n## Wrong edits\n").expect("a section on wrong edits");
    let section = section.split("\n## ").next().expect("the section");
    let cells =
        section.lines().filter(|line| line.starts_with('|')).flat_map(|line| line.split('`').skip(1).step_by(2));
    let named: Vec<_> = cells.filter(|name| name.contains('/')).collect();
    assert!(named.len() > 30, "{} edits", named.len());
    let path = |name: &str| {
        let (crate_name, edit) = name.split_once('/').expect("a crate and a name");
        top().join("crates").join(crate_name).join("must-fail").join(format!("{edit}.edit"))
    };
    let lost: Vec<_> = named.into_iter().filter(|name| !path(name).is_file()).collect();
    assert!(lost.is_empty(), "{lost:?}");
}
