//! What the documents refer to exists: files, functions and modules by their paths, names, commands, and where links lead.

use docs::references::Repository;
use docs::top;

/// What tells of the past has the names of its time, and what is in a release has the release's files.
const OF_OTHER_TREES: [&str; 5] =
    ["docs/CHANGES.md", "docs/PORT.md", "docs/DESIGN-PASS.md", "docs/LOOK-BACK.md", "dist/README.md"];

/// What is not in the repository: the file that the port is held to, and functions of it that have another name here or none.
const OF_SAMSUNG_RS: [&str; 4] = ["`samsung.rs`", "`parse_v0_row`", "`v2_row`", "`decode_v1`"];

#[test]
fn whatever_a_document_refers_to_exists() {
    let repository = Repository::read(&top()).expect("the repository");
    let documents = repository.documents().map(|(path, _)| path);
    let documents: Vec<&str> = documents.filter(|path| !OF_OTHER_TREES.contains(path)).collect();
    assert!(documents.len() > 8, "{documents:?}");
    let mut faults: Vec<String> = documents.iter().flat_map(|path| repository.faults(path)).collect();
    faults.retain(|fault| !OF_SAMSUNG_RS.iter().any(|name| fault.ends_with(name)));
    assert!(faults.is_empty(), "{}", faults.join("\n"));
}
