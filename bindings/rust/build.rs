//! Links libepoch_index.a, which `./build archive` writes at the top of the repository. It is looked for in the folder that
//! EPOCH_INDEX_LIB_DIR names, and without that variable in target/staticlib of the repository that this crate stands in.
use std::env;
use std::path::{Path, PathBuf};

fn main() {
    println!("cargo:rerun-if-env-changed=EPOCH_INDEX_LIB_DIR");
    let manifest = env::var_os("CARGO_MANIFEST_DIR").expect("cargo sets CARGO_MANIFEST_DIR");
    let folder = match env::var_os("EPOCH_INDEX_LIB_DIR") {
        Some(named) => PathBuf::from(named),
        None => Path::new(&manifest).join("../../target/staticlib"),
    };
    let archive = folder.join("libepoch_index.a");
    if !archive.is_file() {
        panic!("there is no {}: run `./build archive` at the top of the repository, or set EPOCH_INDEX_LIB_DIR to its folder", archive.display());
    }
    println!("cargo:rerun-if-changed={}", archive.display());
    println!("cargo:rustc-link-search=native={}", folder.display());
    println!("cargo:rustc-link-lib=static=epoch_index");
}
