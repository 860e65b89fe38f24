//! The documents stay short enough to be read: all of them together, and the README by itself.

use docs::{text, texts};

/// The most words of all documents.
const WORDS: usize = 18_000;

/// The most lines of the README.
const LINES: usize = 130;

/// The documents beside those in docs/.
const AT_THE_TOP: [&str; 4] = ["README.md", "CONTRIBUTING.md", "CHANGELOG.md", "SECURITY.md"];

/// Records that are looked up, and not read through.
const RECORDS: [&str; 3] = ["docs/PORT.md", "docs/DESIGN-PASS.md", "docs/LOOK-BACK.md"];

/// How many words a text has; a table's bars and a list's dashes are none.
fn words(text: &str) -> usize {
    text.split_whitespace().filter(|word| word.contains(char::is_alphanumeric)).count()
}

#[test]
fn words_are_counted() {
    assert_eq!(words("| a table | with 2 rows |\n|---|---|\n- and a list"), 8);
}

#[test]
fn all_documents_are_short() {
    let pages = texts("docs", "md")
        .into_iter()
        .filter(|(path, _)| !RECORDS.iter().any(|record| path.ends_with(record)))
        .map(|(_, text)| text);
    let counts: Vec<usize> = AT_THE_TOP.iter().map(|path| text(path)).chain(pages).map(|text| words(&text)).collect();
    assert!(counts.len() > 12, "{counts:?}");
    let sum: usize = counts.iter().sum();
    assert!(sum <= WORDS, "{sum} words: {counts:?}");
}

#[test]
fn the_readme_is_short() {
    let lines = text("README.md").lines().count();
    assert!(lines <= LINES, "{lines} lines");
}
