//! Finds the static library of the proved code: in the folder that DEWGNEISS_LIB names, or where `bindings/library dewgneiss`
//! leaves it in this repository.

use std::path::PathBuf;

fn main() {
    println!("cargo:rerun-if-env-changed=DEWGNEISS_LIB");
    let here = PathBuf::from(std::env::var_os("CARGO_MANIFEST_DIR").expect("cargo sets it"));
    let folder = match std::env::var_os("DEWGNEISS_LIB") {
        Some(named) => PathBuf::from(named),
        None => here.ancestors().nth(2).expect("the repository").join("target/staticlib"),
    };
    let library = folder.join("libdewgneiss.a");
    println!("cargo:rerun-if-changed={}", library.display());
    if !library.exists() {
        eprintln!("there is no {}: run bindings/library dewgneiss at the root of the repository first", library.display());
        std::process::exit(1);
    }
    println!("cargo:rustc-link-search=native={}", folder.display());
    println!("cargo:rustc-link-lib=static=dewgneiss");
}
