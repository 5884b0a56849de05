//! Links the static libraries: from the folder that ONFISEQ_LIB names, from lib beside this folder or in it, or where this repository builds each. Where there are none it
//! compiles the one C file, c/onfiseq.c of this folder or release/onfiseq.c of the repository, by the compiler that CC names (cc), and packs it by AR (ar).

use std::path::{Path, PathBuf};
use std::process::Command;

fn env(name: &str) -> Option<String> {
    println!("cargo:rerun-if-env-changed={name}");
    std::env::var(name).ok()
}

fn here() -> PathBuf {
    PathBuf::from(std::env::var("CARGO_MANIFEST_DIR").expect("cargo names the folder"))
}

fn folder_of(name: &str) -> Option<PathBuf> {
    let places = [here().join("lib"), here().join("../lib"), here().join("../../../crates").join(name).join("out")];
    let has_library = |folder: &PathBuf| folder.join(format!("lib{name}.a")).is_file();
    env("ONFISEQ_LIB").map(PathBuf::from).or(places.into_iter().find(has_library))
}

fn link(folder: &Path, name: &str) {
    println!("cargo:rustc-link-search=native={}", folder.display());
    println!("cargo:rustc-link-lib=static={name}");
}

/// The program that a variable names: of this target, as CC_x86_64_unknown_linux_gnu, or of all.
fn tool(name: &str, usual: &str) -> String {
    let target = std::env::var("TARGET").unwrap_or_default().replace('-', "_");
    env(&format!("{name}_{target}")).or(env(name)).unwrap_or_else(|| usual.to_string())
}

fn run(program: &str, words: &[&str]) {
    let told = format!("{program} {}", words.join(" "));
    match Command::new(program).args(words).status() {
        Ok(status) => assert!(status.success(), "`{told}` ended with {status}"),
        Err(why) => panic!("`{program}` can't be called: {why}; set CC or AR to one that can"),
    }
}

fn text(path: &Path) -> &str {
    path.to_str().expect("a path in UTF-8")
}

/// Compiles the one C file, and links it.
fn compile() {
    let sources = [here().join("c"), here().join("../../../release")];
    let folder = sources.iter().find(|folder| folder.join("onfiseq.c").is_file()).expect("no onfiseq.c: set ONFISEQ_LIB to the folder of the libraries");
    let out = PathBuf::from(std::env::var("OUT_DIR").expect("cargo names the folder"));
    let (source, made, packed) = (folder.join("onfiseq.c"), out.join("onfiseq.o"), out.join("libonfiseq.a"));
    println!("cargo:rerun-if-changed={}", source.display());
    run(&tool("CC", "cc"), &["-O1", "-fPIC", "-I", text(folder), "-c", text(&source), "-o", text(&made)]);
    run(&tool("AR", "ar"), &["rcs", text(&packed), text(&made)]);
    link(&out, "onfiseq");
}

fn main() {
    let words = std::env::var_os("CARGO_FEATURE_WORDS").is_some();
    match (folder_of("onfiseq_c"), folder_of("onfiseq_text_c")) {
        (Some(checker), Some(texts)) => {
            link(&checker, "onfiseq_c");
            if words {
                link(&texts, "onfiseq_text_c");
            }
        }
        _ => compile(),
    }
}
