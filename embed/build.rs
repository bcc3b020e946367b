//! Links libgingerfile.a: the one in the folder that GINGERFILE_LIB_DIR names, else the one that `scripts/build gingerfile`
//! makes in this repository.

use std::env;
use std::path::{Path, PathBuf};
use std::process::exit;

fn fail(words: &str) -> ! {
    eprintln!("gingerfile: {words}");
    exit(1)
}

/// The folder, and whether the host named it.
fn folder() -> (PathBuf, bool) {
    if let Some(named) = env::var_os("GINGERFILE_LIB_DIR") {
        return (PathBuf::from(named), true);
    }
    let package = env::var_os("CARGO_MANIFEST_DIR").expect("cargo names the package's folder");
    (Path::new(&package).join("../target/staticlib"), false)
}

fn main() {
    println!("cargo:rerun-if-env-changed=GINGERFILE_LIB_DIR");
    println!("cargo:rerun-if-changed=build.rs");
    let target = |what: &str| env::var(format!("CARGO_CFG_TARGET_{}", what)).unwrap_or_default();
    if target("ARCH") != "x86_64"
        || target("POINTER_WIDTH") != "64"
        || target("FAMILY") != "unix"
        || target("VENDOR") == "apple"
    {
        fail("libgingerfile.a is made for x86-64 and ELF, as on Linux, and the target is another");
    }
    let (folder, named) = folder();
    let archive = folder.join("libgingerfile.a");
    println!("cargo:rerun-if-changed={}", archive.display());
    if !archive.is_file() {
        let remedy = if named {
            "GINGERFILE_LIB_DIR names that folder; it must be a whole path"
        } else {
            "make it with `scripts/build gingerfile` at the repository's root, or name the folder that has it in GINGERFILE_LIB_DIR"
        };
        fail(&format!("there is no {}: {remedy}", archive.display()));
    }
    println!("cargo:rustc-link-search=native={}", folder.display());
    println!("cargo:rustc-link-lib=static=gingerfile");
}
