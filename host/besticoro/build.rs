//! Finds the library that host/library builds: in the folder BESTICORO_LIB, or in target/lib of this repository.
use std::path::{Path, PathBuf};

fn main() {
    println!("cargo:rerun-if-env-changed=BESTICORO_LIB");
    let own = Path::new(env!("CARGO_MANIFEST_DIR")).join("../../target/lib");
    let folder = std::env::var_os("BESTICORO_LIB").map_or(own, PathBuf::from);
    let library = folder.join("libbesticoro.a");
    if !library.is_file() {
        eprintln!("there is no {}: run host/library in the repository of besticoro, or set BESTICORO_LIB to the folder that has libbesticoro.a", library.display());
        std::process::exit(1);
    }
    println!("cargo:rerun-if-changed={}", library.display());
    println!("cargo:rustc-link-search=native={}", folder.display());
    println!("cargo:rustc-link-lib=static=besticoro");
}
