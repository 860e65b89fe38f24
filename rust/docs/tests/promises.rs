//! README's list of promises is the record of theorems, line by line and in its order; and each export has its line beside them.

use docs::interface::exports;
use docs::promises::{cited, fields, told};
use docs::references::Repository;
use docs::{hold, text, texts, top};

const RECORD: &str = "crates/razvolk/proofs/Promises.antt";

#[test]
fn each_promise_is_a_field_of_the_theorem() {
    let list = told(&text("README.md"), "## What is promised, and what is not");
    assert!(list.len() > 6, "{list:?}");
    assert!(list.iter().enumerate().all(|(i, line)| line.starts_with(&format!("p{}_", i + 1))), "{list:?}");
    assert_eq!(list, fields(&text(RECORD), "Promises"), "README.md and {RECORD}");
}

#[test]
fn every_promise_that_a_document_cites_is_one() {
    let last = fields(&text(RECORD), "Promises").len();
    let repository = Repository::read(&top()).expect("the repository");
    let pages: Vec<(&str, Vec<usize>)> = repository.documents().map(|(path, text)| (path, cited(text))).collect();
    assert!(pages.iter().filter(|(_, cited)| !cited.is_empty()).count() > 2, "{pages:?}");
    for (path, cited) in pages {
        assert!(cited.iter().all(|number| (1..=last).contains(number)), "{path}: {cited:?}");
    }
}

#[test]
fn each_export_stands_beside_the_promises() {
    let sources = texts("crates/razvolk/src", "rt");
    let exported: Vec<String> = sources.iter().flat_map(|(_, rattle)| exports(rattle)).collect();
    let names: Vec<String> = exported.iter().map(|one| one.split('(').next().unwrap_or_default().into()).collect();
    assert!(names.len() > 7, "{names:?}");
    hold(&names, RECORD, &fields(&text(RECORD), "Exports"));
}
