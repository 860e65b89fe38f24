//! Links libdeflate, where the feature `libdeflate` asks for it: the archive that `LIBDEFLATE_ARCHIVE` names, for a program that goes
//! to other machines, or else what pkg-config finds.

fn main() {
    #[cfg(feature = "libdeflate")]
    libdeflate();
}

#[cfg(feature = "libdeflate")]
fn libdeflate() {
    println!("cargo::rerun-if-env-changed=LIBDEFLATE_ARCHIVE");
    let archive = std::env::var_os("LIBDEFLATE_ARCHIVE").map(std::path::PathBuf::from);
    if let Some(folder) = archive.as_deref().and_then(|archive| archive.parent()) {
        println!("cargo::rustc-link-search=native={}", folder.display());
        println!("cargo::rustc-link-lib=static=deflate");
    } else if let Err(fault) = pkg_config::probe_library("libdeflate") {
        eprintln!("{fault}");
        std::process::exit(1);
    }
}
