//! What a release says of itself is said alike everywhere: the version, and the licence.

use docs::text;

/// The first of a file's lines that begins so, without that.
fn told(path: &str, begins: &str) -> String {
    let text = text(path);
    let line = text.lines().find_map(|line| line.strip_prefix(begins));
    line.unwrap_or_else(|| panic!("{path} has a line {begins}..")).trim().trim_matches('"').into()
}

#[test]
fn the_version_is_one() {
    let version = told("rust/Cargo.toml", "version = ");
    assert_eq!(version.split('.').count(), 3, "{version}");
    for (path, begins) in [("include/razvolk.h", "#define RAZVOLK_VERSION "), ("dist/razvolk.pc", "Version: ")] {
        assert_eq!(told(path, begins), version, "{path}");
    }
    let newest = told("CHANGELOG.md", "## [");
    assert!(newest.starts_with(&format!("{version}]")), "CHANGELOG.md: {newest}");
}

#[test]
fn the_licence_is_one() {
    let licence = told("rust/Cargo.toml", "license = ");
    assert_eq!(told("dist/razvolk.pc", "License: "), licence);
    assert!(text("LICENSE").contains(&format!("under {licence}")));
}
