//! Where cargo finds the static library: the folder that ONFISEQ_LIB names, or lib beside this file, or where this repository builds it.

use std::path::{Path, PathBuf};

fn main() {
    let here = PathBuf::from(std::env::var("CARGO_MANIFEST_DIR").unwrap());
    let named = std::env::var("ONFISEQ_LIB").map(PathBuf::from);
    let places = [here.join("lib"), here.join("../../crates/onfiseq_c/out")];
    let has_library = |folder: &&PathBuf| Path::exists(&folder.join("libonfiseq_c.a"));
    let folder = named.ok().or(places.iter().find(has_library).cloned()).expect("no libonfiseq_c.a: set ONFISEQ_LIB to its folder");
    println!("cargo:rerun-if-env-changed=ONFISEQ_LIB");
    println!("cargo:rustc-link-search=native={}", folder.display());
    println!("cargo:rustc-link-lib=static=onfiseq_c");
}
