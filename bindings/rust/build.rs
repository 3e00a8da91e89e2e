//! Tells cargo where libblentovar.a is, and warns where a program could not be linked with it.

use std::env;
use std::path::{Path, PathBuf};

fn main() {
    let folder = library_folder();
    let library = folder.join("libblentovar.a");
    println!("cargo:rustc-link-search=native={}", folder.display());
    println!("cargo:rustc-link-lib=static=blentovar");
    println!("cargo:rerun-if-env-changed=BLENTOVAR_LIB_DIR");
    println!("cargo:rerun-if-changed={}", library.display());
    warn_of_what_cannot_be_linked(&library);
}

/// What BLENTOVAR_LIB_DIR says, or the folder in which the repository builds the library. A path that is not absolute starts at this crate's folder.
fn library_folder() -> PathBuf {
    let said = env::var_os("BLENTOVAR_LIB_DIR").unwrap_or("../../target/staticlib".into());
    Path::new(&variable("CARGO_MANIFEST_DIR")).join(said)
}

/// Only warnings, since checking the crate and making its pages need no library; a build that links says itself that it is missing.
fn warn_of_what_cannot_be_linked(library: &Path) {
    let processor = variable("CARGO_CFG_TARGET_ARCH");
    if processor != "x86_64" {
        println!("cargo:warning=libblentovar.a is x86-64 code and cannot be linked for {processor}: build with `--target x86_64-unknown-linux-gnu`");
    }
    if !library.exists() {
        println!("cargo:warning=there is no {}: build it with `./library` in the repository of Blentovar, or set BLENTOVAR_LIB_DIR to the folder that holds it", library.display());
    }
}

fn variable(name: &str) -> String {
    env::var(name).expect("cargo sets this variable")
}
