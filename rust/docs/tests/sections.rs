//! The sources cite sections of docs/RULES.md that are there, and no paper that isn't in the repository.

use docs::{text, texts};

/// The sections of docs/RULES.md that a source cites: `docs/RULES.md, "V0" and "The map"`, also over the end of a line.
fn cited(source: &str) -> Vec<String> {
    let words: Vec<&str> = source.split_whitespace().filter(|word| !["//", "--", "#"].contains(word)).collect();
    let mut found = Vec::new();
    for after in words.join(" ").split("docs/RULES.md, \"").skip(1) {
        let mut rest = after;
        while let Some((name, more)) = rest.split_once('"') {
            found.push(name.to_string());
            match more.strip_prefix(" and \"") {
                Some(next) => rest = next,
                None => break,
            }
        }
    }
    found
}

/// The sources of the crates: their paths and texts.
fn sources() -> Vec<(String, String)> {
    let of = |kind: &str| texts("crates", kind).into_iter().map(|(path, text)| (path.display().to_string(), text));
    of("rt").chain(of("antt")).chain(of("edit")).collect()
}

#[test]
fn every_section_that_a_source_cites_is_there() {
    let rules = text("docs/RULES.md");
    let sections: Vec<&str> = rules.lines().filter_map(|line| line.strip_prefix("## ")).collect();
    let all: Vec<(String, String)> =
        sources().iter().flat_map(|(path, text)| cited(text).into_iter().map(|name| (path.clone(), name))).collect();
    assert!(all.len() > 20, "{} sections are cited", all.len());
    let lost: Vec<_> = all.iter().filter(|(_, name)| !sections.contains(&name.as_str())).collect();
    assert!(lost.is_empty(), "{lost:?}");
}

#[test]
fn no_source_cites_a_paper() {
    let papers = ["document 0", "request", "demand"];
    let found: Vec<String> = sources()
        .iter()
        .filter(|(_, text)| papers.iter().any(|paper| text.to_lowercase().contains(paper)))
        .map(|(path, _)| path.clone())
        .collect();
    assert!(found.is_empty(), "{found:?}");
}

#[test]
fn sections_are_found_over_lines() {
    let source =
        "// By docs/RULES.md,\n// \"V0\" and \"The map\".\n-- docs/RULES.md, \"The\n-- reader\": x\nlet a = \"b\";\n";
    assert_eq!(cited(source), ["V0", "The map", "The reader"]);
}
