//! Links the comparison with the exported functions: with the one library of the package that PZ_PACKAGE names; else
//! with the archives whose paths PZ_ARCHIVES has, a line each, as `./archives --list` prints them. `run` sets it.

use std::env;
use std::path::PathBuf;

/// What a variable of the environment says; an empty word says nothing.
fn said(variable: &str) -> Option<String> {
    println!("cargo:rerun-if-env-changed={variable}");
    env::var(variable).ok().filter(|said| !said.is_empty())
}

fn libraries() -> Vec<PathBuf> {
    let archives = said("PZ_ARCHIVES").unwrap_or_default();
    match said("PZ_PACKAGE") {
        Some(package) => vec![PathBuf::from(package).join("lib/libpolonezar.a")],
        None => archives.lines().map(PathBuf::from).collect(),
    }
}

fn main() {
    for library in libraries() {
        println!("cargo:rerun-if-changed={}", library.display());
        println!("cargo:rustc-link-arg-bins={}", library.display());
    }
}
