//! What the package promises to one that depends on it: no standard library, and
//! its licence.

const COVER: &str = include_str!("../src/lib.rs");
const MANIFEST: &str = include_str!("../Cargo.toml");
const LICENCE: &str = include_str!("../../LICENSE");

/// With this line the compiler refuses what wants the standard library.
#[test]
fn no_standard_library() {
    let lines = || COVER.lines().map(str::trim);
    assert!(lines().any(|line| line == "#![no_std]"));
    assert!(!lines().any(|line| line.contains("extern crate")));
}

#[test]
fn the_licence() {
    let line = MANIFEST.lines().find_map(|l| l.strip_prefix("license = "));
    assert_eq!(line, Some("\"MIT\""));
    assert!(LICENCE.starts_with("MIT License"));
}
