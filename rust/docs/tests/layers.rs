//! docs/ARCHITECTURE.md puts each crate of crates.txt into one layer; layers use those that it tells, all of them above.

use docs::layers::{faults, listed, told};
use docs::text;

#[test]
fn every_crate_stands_in_one_layer_which_uses_what_is_told() {
    let crates = listed(&text("crates.txt"));
    let layers = told(&text("docs/ARCHITECTURE.md"));
    assert!(crates.len() > 10 && layers.len() > 4, "{crates:?} {layers:?}");
    let found = faults(&crates, &layers);
    assert!(found.is_empty(), "{}", found.join("\n"));
}

/// How the names of a layer's crates begin. Entries have two names besides: the port's, and the exports'. Programs have their own.
const BEGINNINGS: [(&str, &[&str]); 7] = [
    ("rules", &["rules"]),
    ("frame", &["frame_"]),
    ("reading", &["read_"]),
    ("V0", &["v0_"]),
    ("V2", &["v2_"]),
    ("writing", &["write_"]),
    ("entries", &["entry_", "samsung", "razvolk"]),
];

#[test]
fn the_name_of_a_crate_tells_its_layer() {
    let layers = told(&text("docs/ARCHITECTURE.md"));
    for (name, beginnings) in BEGINNINGS {
        let layer = layers.iter().find(|layer| layer.name == name).unwrap_or_else(|| panic!("no layer {name}"));
        let is_astray = |held: &&String| !beginnings.iter().any(|beginning| held.starts_with(beginning));
        let astray: Vec<&String> = layer.crates.iter().filter(is_astray).collect();
        assert!(astray.is_empty(), "{name}: {astray:?}");
    }
}
