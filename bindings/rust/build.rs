//! Says where the archives stand: in the folder that `ANSI_LIB` names, or where `make library` leaves them.

use std::env;
use std::path::{Path, PathBuf};
use std::process;

fn main() {
    println!("cargo:rerun-if-changed=build.rs");
    println!("cargo:rerun-if-env-changed=ANSI_LIB");
    link_to("libansi.a", "ansi");
    if env::var_os("CARGO_FEATURE_SCREEN").is_some() {
        link_to("libansi_screen.a", "ansi_screen_c");
    }
}

/// An archive, and the crate whose folder it is left in.
fn link_to(file: &str, name: &str) {
    let folder = named().unwrap_or_else(|| left_in(name));
    let archive = folder.join(file);
    if !archive.exists() {
        eprintln!("\nansi-proved is linked to {file}, and {} is not there.", archive.display());
        eprintln!("Either run `make library` at the top of its repository, which builds the library (by the kit of Rattle);");
        eprintln!("or name the folder that has it, as where `make install` has put it: ANSI_LIB=/usr/local/lib cargo build\n");
        process::exit(1);
    }
    println!("cargo:rerun-if-changed={}", archive.display());
    println!("cargo:rustc-link-search=native={}", folder.display());
}

fn named() -> Option<PathBuf> {
    env::var_os("ANSI_LIB").filter(|it| !it.is_empty()).map(PathBuf::from)
}

fn left_in(name: &str) -> PathBuf {
    let package = env::var_os("CARGO_MANIFEST_DIR").expect("cargo says where the package is");
    Path::new(&package).join("../../crates").join(name).join("out")
}
