//! Finds the archive that Rattle proved and compiled, and links it. Nothing is proved here, which takes minutes in which cargo
//! shows nothing, and nothing is written but below OUT_DIR.
//!
//! The archive is the first that there is of these:
//!
//! - the one that `RAZVOLK_ARCHIVE` names; a relative path is taken from the workspace's folder;
//! - `lib/librazvolk.a` in the crate, as a release has it;
//! - `target/staticlib/librazvolk.a` in the repository, which `dist/archive` makes there.

use std::path::{Path, PathBuf};
use std::time::SystemTime;
use std::{env, fs, io};

fn main() {
    println!("cargo::rerun-if-env-changed=RAZVOLK_ARCHIVE");
    if let Err(message) = link() {
        // Whoever only checks needs no archive; a build ends at the linker's search for it, after this warning.
        println!("cargo::warning={message}");
        println!("cargo::rustc-link-lib=static=razvolk");
    }
}

fn link() -> Result<(), String> {
    if var("CARGO_CFG_TARGET_ARCH") != "x86_64" || var("CARGO_CFG_TARGET_OS") != "linux" {
        return Err("the archive holds code for x86-64 Linux, and this build is for another machine".into());
    }
    let out = PathBuf::from(var("OUT_DIR"));
    let archive = archive(&out)?;
    println!("cargo::rerun-if-changed={}", archive.display());
    // A copy under the name that the linker asks for, whatever the archive is called.
    fs::copy(&archive, out.join("librazvolk.a")).map_err(|e| format!("no archive at {}: {e}", archive.display()))?;
    println!("cargo::rustc-link-search=native={}", out.display());
    println!("cargo::rustc-link-lib=static=razvolk");
    Ok(())
}

fn archive(out: &Path) -> Result<PathBuf, String> {
    if let Some(given) = env::var_os("RAZVOLK_ARCHIVE").map(PathBuf::from) {
        if given.is_absolute() {
            return Ok(given);
        }
        let workspace = out.ancestors().find(|folder| folder.join("Cargo.toml").exists());
        let told = format!("RAZVOLK_ARCHIVE is {}, and no workspace is above the build's folder", given.display());
        return workspace.map(|folder| folder.join(given)).ok_or(told);
    }
    let own = PathBuf::from(var("CARGO_MANIFEST_DIR"));
    let released = own.join("lib/librazvolk.a");
    if released.exists() { Ok(released) } else { made(&own.join("..")) }
}

/// The repository's archive, and a warning where it is older than its sources.
fn made(root: &Path) -> Result<PathBuf, String> {
    let archive = root.join("target/staticlib/librazvolk.a");
    let mut sources = vec![root.join("crates.txt")];
    sources_below(&root.join("crates"), &mut sources).map_err(|e| format!("{}/crates: {e}", root.display()))?;
    for source in [&archive].into_iter().chain(&sources) {
        println!("cargo::rerun-if-changed={}", source.display());
    }
    let make = "`dist/archive`, in the repository's folder, proves and makes it";
    let Some(at) = written(&archive) else {
        return Err(format!("no archive at {}: {make}; RAZVOLK_ARCHIVE names one made elsewhere", archive.display()));
    };
    if let Some(newer) = sources.iter().find(|source| written(source) > Some(at)) {
        println!("cargo::warning=the archive is older than {}: {make} anew", newer.display());
    }
    Ok(archive)
}

/// The files that the archive is compiled from: those of Rattle in the crates' `src`.
fn sources_below(folder: &Path, sources: &mut Vec<PathBuf>) -> io::Result<()> {
    for entry in fs::read_dir(folder)? {
        let path = entry?.path();
        if path.ends_with("out") {
            // What rt keeps of a crate, which has copies of sources.
        } else if path.is_dir() {
            sources_below(&path, sources)?;
        } else if path.extension().is_some_and(|extension| extension == "rt") {
            sources.push(path);
        }
    }
    Ok(())
}

fn written(file: &Path) -> Option<SystemTime> {
    fs::metadata(file).and_then(|metadata| metadata.modified()).ok()
}

fn var(name: &str) -> String {
    env::var(name).unwrap_or_else(|_| panic!("cargo sets {name}"))
}
