//! Links libepoch_index.a from the folder that EPOCH_INDEX_LIB_DIR names.

fn main() {
    println!("cargo:rerun-if-env-changed=EPOCH_INDEX_LIB_DIR");
    let folder = std::env::var("EPOCH_INDEX_LIB_DIR").expect("EPOCH_INDEX_LIB_DIR is the folder of libepoch_index.a; `run` sets it");
    println!("cargo:rerun-if-changed={folder}/libepoch_index.a");
    println!("cargo:rustc-link-search=native={folder}");
    println!("cargo:rustc-link-lib=static=epoch_index");
}
