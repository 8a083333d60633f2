//! Finds librbbi.a, or has it built: in the folder RBBI_LIB_DIR; else, in the package of the crates
//! that bin/release made, in the crate's folder lib; else, in the repository, as bin/build-c builds
//! it; else, in what bin/install or bin/release made, in its folder lib.
use std::env;
use std::fs;
use std::path::{Path, PathBuf};
use std::process::Command;

/// What the library is made of: the sources of the crates, and the glue in C. Cargo looks through
/// whole folders, so the folder of a crate, in which things are built, isn't named itself.
fn sources(top: &Path) -> Vec<PathBuf> {
    let mut parts: Vec<PathBuf> = ["crates.txt", "c", "include", "bin/build-c"]
        .map(|part| top.join(part))
        .into();
    for name in fs::read_dir(top.join("crates"))
        .expect("crates/ can be read")
        .flatten()
    {
        for part in ["src", "specs", "proofs"] {
            parts.push(name.path().join(part));
        }
    }
    parts.retain(|part| part.exists());
    parts
}

fn folder() -> PathBuf {
    println!("cargo:rerun-if-env-changed=RBBI_LIB_DIR");
    if let Some(named) = env::var_os("RBBI_LIB_DIR") {
        return PathBuf::from(named);
    }
    let here = env::var("CARGO_MANIFEST_DIR").expect("cargo names the folder");
    let own = Path::new(&here).join("lib");
    if own.join("librbbi.a").exists() {
        return own;
    }
    let top = Path::new(&here).join("../..");
    let build = top.join("bin/build-c");
    if build.exists() {
        for part in sources(&top) {
            println!("cargo:rerun-if-changed={}", part.display());
        }
        let built = Command::new(&build)
            .status()
            .expect("bin/build-c can be run");
        assert!(built.success(), "bin/build-c failed");
        return top.join("out");
    }
    let installed = top.join("../../lib");
    let found = installed.join("librbbi.a").exists();
    assert!(
        found,
        "librbbi.a is not found; set RBBI_LIB_DIR to its folder"
    );
    installed
}

fn main() {
    println!("cargo:rustc-link-search=native={}", folder().display());
    println!("cargo:rustc-link-lib=static=rbbi");
}
