//! docs/RULES.md tells the rules: it names the crates that define them, each definition there, and no other.

use docs::contracts::cited;
use docs::definitions::{citations, definitions};
use docs::markdown::names;
use docs::{hold, text, texts};

/// The crates whose `specs/` are rules, as the page's first paragraph lists them.
fn crates() -> Vec<String> {
    let page = text("docs/RULES.md");
    let (_, list) = page.split_once("The crates that define rules are ").expect("the list of crates");
    let (list, _) = list.split_once('.').expect("the list's end");
    names(list).into_iter().map(String::from).collect()
}

/// The definitions of these crates, as the page cites them: the rules, and what files of worked examples define besides, which
/// is no rule and may be left out.
fn defined() -> (Vec<String>, Vec<String>) {
    let (mut rules, mut examples) = (Vec::new(), Vec::new());
    for (path, antt) in crates().iter().flat_map(|name| texts(&format!("crates/{name}/specs"), "antt")) {
        let stem = path.file_stem().expect("a file has a name").to_string_lossy().into_owned();
        let to = if stem.ends_with("Examples") { &mut examples } else { &mut rules };
        to.extend(definitions(&antt).into_iter().map(|name| format!("{stem}.{name}")));
    }
    (rules, examples)
}

#[test]
fn every_definition_of_the_rules_is_told() {
    let (rules, examples) = defined();
    assert!(rules.len() > 50 && examples.len() > 2, "{} definitions were found", rules.len());
    let mut cited = citations(&text("docs/RULES.md"));
    cited.retain(|name| !examples.contains(name));
    hold(&rules, "docs/RULES.md", &cited);
}

#[test]
fn every_crate_that_a_contract_of_an_export_cites_is_told() {
    let listed = crates();
    let sources = texts("crates/razvolk/src", "rt");
    let cited: Vec<String> = sources.iter().flat_map(|(_, source)| cited(source)).collect();
    assert!(cited.len() > 5, "{cited:?}");
    let missing: Vec<&String> = cited.iter().filter(|name| !listed.contains(name)).collect();
    assert!(missing.is_empty(), "docs/RULES.md does not list {missing:?}");
}
