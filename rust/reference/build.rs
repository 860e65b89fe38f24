//! Writes a root file that names the reference's files where they lie: below `RAZVOLK_REFERENCE` (a relative path is taken
//! from the repository's top), else below `../shared/docs/src`. Nothing of them is copied.

use std::path::{Path, PathBuf};
use std::{env, fs};

const FILES: [(&str, &str); 3] = [
    ("error", "crates/flashraw-core/src/error.rs"),
    ("par", "crates/flashraw-core/src/par.rs"),
    ("samsung", "crates/flashraw-codecs/src/samsung.rs"),
];

fn main() {
    println!("cargo::rerun-if-env-changed=RAZVOLK_REFERENCE");
    let var = |name: &str| env::var(name).unwrap_or_else(|_| panic!("cargo sets {name}"));
    let top = Path::new(&var("CARGO_MANIFEST_DIR")).join("../..");
    let given = env::var_os("RAZVOLK_REFERENCE")
        .filter(|v| !v.is_empty())
        .map_or(PathBuf::from("../shared/docs/src"), PathBuf::from);
    let mut root = String::new();
    for (name, file) in FILES {
        let path = top.join(&given).join(file);
        println!("cargo::rerun-if-changed={}", path.display());
        match path.canonicalize() {
            Ok(path) => root += &format!("#[path = {:?}]\npub mod {name};\n", path.display().to_string()),
            Err(e) => println!(
                "cargo::error=the reference has no {}: {e}; RAZVOLK_REFERENCE names its folder",
                path.display()
            ),
        }
    }
    let out = Path::new(&var("OUT_DIR")).join("root.rs");
    if let Err(e) = fs::write(&out, root) {
        println!("cargo::error={}: {e}", out.display());
    }
}
