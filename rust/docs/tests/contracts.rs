//! docs/ARCHITECTURE.md names the crates of the interface: all that the exports call is there, and none of their public functions
//! asks anything of its caller. Contracts can be read: their lines are short, and what a function asks is a fact, two, or a record.

use docs::contracts::{called, longest_line, most_facts, public_with_requires};
use docs::markdown::names;
use docs::{hold, text, texts, top};

/// What is interface besides the exports and what they call: the job, and the host's reader.
const BESIDES: [&str; 3] = ["razvolk", "job", "read_ph1bits"];

/// The crates that the page names.
fn interface() -> Vec<String> {
    let page = text("docs/ARCHITECTURE.md");
    let (_, list) = page.split_once("The interface (").expect("the sentence on the interface");
    let (list, rest) = list.split_once(')').expect("the list's end");
    assert!(rest.starts_with(" has no `requires`"), "{rest:.40}");
    names(list).into_iter().map(String::from).collect()
}

/// The sources of a crate.
fn sources(name: &str) -> Vec<String> {
    texts(&format!("crates/{name}/src"), "rt").into_iter().map(|(_, text)| text).collect()
}

#[test]
fn the_interface_is_the_exports_and_what_they_call() {
    let mut expected: Vec<String> = sources("razvolk").iter().flat_map(|source| called(source)).collect();
    expected.extend(BESIDES.map(String::from));
    assert!(expected.len() > 5, "{expected:?}");
    hold(&expected, "docs/ARCHITECTURE.md", &interface());
}

#[test]
fn no_public_function_of_the_interface_has_a_requires() {
    for name in interface() {
        for source in sources(&name) {
            assert_eq!(public_with_requires(&source), [""; 0], "{name}");
        }
    }
    // Others do, so that what is looked for can be found.
    assert!(sources("v0_direct").iter().any(|source| !public_with_requires(source).is_empty()));
}

/// The most characters of a contract's line.
const MOST: usize = 160;

/// The files with longer ones.
const LONG: [&str; 11] = [
    "v0_bands/src/lib.rt",
    "v0_cells/src/inner.rt",
    "v0_direct/src/row.rt",
    "v0_direct/src/run.rt",
    "v0_lanes/src/lengths.rt",
    "v0_phase1/src/run.rt",
    "v0_two_phase/src/frame.rt",
    "v2_differences/src/lib.rt",
    "v2_frame/src/block.rt",
    "write_bits/src/lib.rt",
    "write_frame/src/write.rt",
];

/// The files where a `requires` joins more than two facts, which want a record.
const JOINED: [&str; 20] = [
    "frame_blank/src/lib.rt",
    "read_window/src/four.rt",
    "read_window/src/lib.rt",
    "v0_cells/src/inner.rt",
    "v0_direct/src/row.rt",
    "v0_direct/src/run.rt",
    "v0_lanes/src/blocks.rt",
    "v0_lanes/src/residuals.rt",
    "v0_lanes/src/tables.rt",
    "v0_parse_window/src/lib.rt",
    "v0_phase1/src/lib.rt",
    "v0_phase1/src/run.rt",
    "v0_phase2/src/lib.rt",
    "v2_cells/src/base.rt",
    "v2_cells/src/samples.rt",
    "v2_frame/src/block.rt",
    "write_bits/src/lib.rt",
    "write_frame/src/halves.rt",
    "write_frame/src/residuals.rt",
    "write_frame/src/write.rt",
];

/// The sources below crates/ for which a test holds must be those of a list, which may only become shorter.
fn hold_to(list: &[&str], test: impl Fn(&str) -> bool) {
    let folder = top().join("crates");
    let found: Vec<String> = texts("crates", "rt")
        .into_iter()
        .filter(|(_, text)| test(text))
        .map(|(path, _)| path.strip_prefix(&folder).expect("below crates/").display().to_string())
        .collect();
    let new: Vec<_> = found.iter().filter(|path| !list.contains(&path.as_str())).collect();
    let done: Vec<_> = list.iter().filter(|path| !found.contains(&path.to_string())).collect();
    assert!(new.is_empty() && done.is_empty(), "to be mended: {new:?}; to be taken off the list: {done:?}");
}

#[test]
fn lines_of_contracts_are_short() {
    hold_to(&LONG, |text| longest_line(text) > MOST);
}

#[test]
fn several_facts_are_a_record() {
    hold_to(&JOINED, |text| most_facts(text) > 2);
}
