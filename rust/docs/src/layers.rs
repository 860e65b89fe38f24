//! The layers: docs/ARCHITECTURE.md puts each crate of crates.txt into one layer, and tells which layers each layer uses.

use crate::markdown::{names, tables};

/// A crate and those that it uses.
#[derive(Debug, PartialEq, Eq)]
pub struct Listed {
    pub name: String,
    pub uses: Vec<String>,
}

/// A layer: its crates, and what it uses.
#[derive(Debug, PartialEq, Eq)]
pub struct Layer {
    pub name: String,
    pub crates: Vec<String>,
    pub uses: Vec<String>,
}

/// The crates of crates.txt: a line has a crate's name first, and words on how it is built may follow it.
pub fn listed(crates: &str) -> Vec<Listed> {
    let lines = crates.lines().map(|line| line.split('#').next().unwrap_or_default());
    let parted = lines.filter_map(|line| line.split_once(':'));
    let words = |text: &str| text.split_whitespace().map(String::from).collect();
    let named = parted.filter_map(|(name, uses)| Some((name.split_whitespace().next()?, uses)));
    named.map(|(name, uses)| Listed { name: name.into(), uses: words(uses) }).collect()
}

/// The layers of a document's table with the columns "Layer", "Crates" and "Uses". Crates stand in backticks, with words beside them;
/// what a layer uses is parted by commas.
pub fn told(markdown: &str) -> Vec<Layer> {
    let tables = tables(markdown);
    let rows = tables.iter().filter_map(|table| table.columns(["Layer", "Crates", "Uses"])).flatten();
    let parts =
        |text: &str| text.split(',').map(|part| part.trim().to_string()).filter(|part| !part.is_empty()).collect();
    let owned = |names: Vec<&str>| names.into_iter().map(String::from).collect();
    rows.map(|[name, crates, uses]| Layer { name: name.into(), crates: owned(names(crates)), uses: parts(uses) })
        .collect()
}

impl Layer {
    fn holds(&self, name: &str) -> bool {
        self.crates.iter().any(|held| held == name)
    }
}

/// The layer of a crate; what no layer holds, as the toolchain's libraries, goes by its own name.
fn home<'a>(layers: &'a [Layer], name: &'a str) -> &'a str {
    layers.iter().find(|layer| layer.holds(name)).map_or(name, |layer| &layer.name)
}

/// The other layers that a layer's crates use, sorted.
fn used<'a>(crates: &'a [Listed], layers: &'a [Layer], layer: &Layer) -> Vec<&'a str> {
    let inside = crates.iter().filter(|one| layer.holds(&one.name));
    let homes = inside.flat_map(|one| &one.uses).map(|name| home(layers, name));
    let mut used: Vec<&str> = homes.filter(|name| *name != layer.name).collect();
    used.sort_unstable();
    used.dedup();
    used
}

/// What the layers tell wrongly: a crate in no layer or in two, one that isn't listed, a layer that uses others than it tells, and one
/// that uses a layer that doesn't stand above it.
pub fn faults(crates: &[Listed], layers: &[Layer]) -> Vec<String> {
    let homes = |one: &Listed| layers.iter().filter(|layer| layer.holds(&one.name)).count();
    let astray = crates.iter().filter(|one| homes(one) != 1);
    let mut faults: Vec<String> = astray.map(|one| format!("{} stands in {} layers", one.name, homes(one))).collect();
    for (at, layer) in layers.iter().enumerate() {
        let is_listed = |name: &&String| crates.iter().any(|one| one.name == **name);
        let unknown = layer.crates.iter().filter(|name| !is_listed(name));
        faults.extend(unknown.map(|name| format!("there is no {name}")));
        let used = used(crates, layers, layer);
        let mut told: Vec<&str> = layer.uses.iter().map(String::as_str).collect();
        told.sort_unstable();
        if used != told {
            faults.push(format!("{} uses {used:?}, and tells {told:?}", layer.name));
        }
        let below = layers[at..].iter().filter(|below| used.contains(&below.name.as_str()));
        faults.extend(below.map(|below| format!("{} uses {}, which doesn't stand above it", layer.name, below.name)));
    }
    faults
}

#[cfg(test)]
mod tests {
    use super::*;

    const CRATES: &str = "# comment\na:\nb staticlib: a  # more\nc: b a io\n";

    fn of(rows: &str) -> Vec<String> {
        faults(&listed(CRATES), &told(&format!("| Layer | Crates | Uses |\n|---|---|---|\n{rows}\n")))
    }

    #[test]
    fn what_is_told_wrongly_is_named() {
        let none: [String; 0] = [];
        assert_eq!(of("| low | `a` x; `b` y | |\n| high | `c` | low, io |"), none);
        assert_eq!(of("| low | `a` | |\n| high | `c` | low, io |").len(), 2, "b stands nowhere, and is used");
        assert_eq!(of("| low | `a`, `b` | |\n| high | `c`, `b` | low, io |"), ["b stands in 2 layers"]);
        assert_eq!(of("| low | `a`, `b`, `d` | |\n| high | `c` | low, io |"), ["there is no d"]);
        assert_eq!(
            of("| low | `a`, `b` | |\n| high | `c` | low |"),
            ["high uses [\"io\", \"low\"], and tells [\"low\"]"]
        );
        assert_eq!(
            of("| high | `c` | low, io |\n| low | `a`, `b` | |"),
            ["high uses low, which doesn't stand above it"]
        );
    }
}
