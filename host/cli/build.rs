//! Hands on which kit proved the archives, as tools/archives wrote it down beside them.

use std::{fs, path::Path};

fn main() {
    let noted = Path::new(env!("CARGO_MANIFEST_DIR")).join("../../target/staticlib/kit");
    println!("cargo:rerun-if-changed={}", noted.display());
    let kit = fs::read_to_string(&noted).unwrap_or_else(|_| "a kit that was not noted".to_owned());
    println!("cargo:rustc-env=BHINORPA_KIT={}", kit.trim());
}
