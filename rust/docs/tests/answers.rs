//! The answers are listed in docs/RULES.md; whatever else lists them says the same. A new number is added there, as a refusal
//! in crates/rules, and wherever this test then fails.

use docs::answers::{Listed, defines, names, of_c, of_tables, refusals, variants};
use docs::{hold, text};

/// The list, done first.
fn rules() -> Vec<Listed> {
    let rules = of_tables(&text("docs/RULES.md"));
    assert!(rules.len() > 8 && rules[0].number == 0, "{rules:?}");
    assert!(rules.windows(2).all(|pair| pair[0].number < pair[1].number), "{rules:?}");
    rules
}

#[test]
fn each_number_is_a_refusal_of_its_name() {
    let (source, rules) = ("crates/rules/src/answer.rt", text("docs/RULES.md"));
    hold(&variants(&text(source)), "docs/RULES.md", &names(&rules));
}

#[test]
fn the_header_lists_the_same() {
    hold(&rules(), "include/razvolk.h", &of_c(&text("include/razvolk.h")));
}

#[test]
fn the_header_names_each_refusal() {
    hold(&names(&text("docs/RULES.md")), "include/razvolk.h", &defines(&text("include/razvolk.h")));
}

#[test]
fn the_rust_crate_lists_the_same_refusals() {
    let place = "rust/src/answer.rs";
    hold(&rules()[1..], place, &of_tables(&text(place)));
}

/// The migration page names those that samsung.rs has, too.
#[test]
fn the_migration_page_names_the_refusals_of_samsung_rs() {
    let ported = |name: &String| [2, 3, 5, 6, 7, 8].iter().any(|number| name.starts_with(&format!("{number} ")));
    let ported: Vec<String> = names(&text("docs/RULES.md")).into_iter().filter(ported).collect();
    let place = "docs/MIGRATION.md";
    hold(&ported, place, &names(&text(place)));
}

#[test]
fn the_rust_crate_names_each_refusal_and_has_a_text_for_it() {
    let place = "rust/src/answer.rs";
    hold(&names(&text("docs/RULES.md")), place, &refusals(&text(place)));
}
