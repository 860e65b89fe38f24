//! What the Rattle crate `razvolk` exports is what the C header and the Rust crate declare, and what the tests in C call.

use docs::interface::{declared, exports, functions_of_c, structures, structures_of_c};
use docs::{hold, text, texts};

/// What a reading finds in all files of a kind below a folder.
fn all(folder: &str, extension: &str, read: fn(&str) -> Vec<String>) -> Vec<String> {
    texts(folder, extension).iter().flat_map(|(_, text)| read(text)).collect()
}

#[test]
fn the_functions_are_declared_as_they_are_exported() {
    let exports = all("crates/razvolk/src", "rt", exports);
    assert!(exports.len() > 7, "{exports:?}");
    hold(&exports, "include/razvolk.h", &functions_of_c(&text("include/razvolk.h")));
    hold(&exports, "rust/src/ffi.rs", &declared(&text("rust/src/ffi.rs")));
}

#[test]
fn the_structures_are_declared_as_they_are_laid_out() {
    let laid_out = all("crates", "rt", structures);
    assert!(laid_out.len() > 2, "{laid_out:?}");
    hold(&laid_out, "include/razvolk.h", &structures_of_c(&text("include/razvolk.h")));
    hold(&laid_out, "rust/src", &all("rust/src", "rs", structures));
}

#[test]
fn each_function_is_called_by_the_tests_in_c() {
    for place in ["tests/header.c", "tests/hostile.c"] {
        let test = text(place);
        for export in all("crates/razvolk/src", "rt", exports) {
            let name = export.split('(').next().expect("a name");
            assert!(test.contains(&format!("{name}(")), "{place} does not call {name}");
        }
    }
}
