//! Links what `bindings/library bench_exports` leaves in the repository.

use std::path::PathBuf;

fn main() {
    let here = PathBuf::from(std::env::var_os("CARGO_MANIFEST_DIR").expect("cargo sets it"));
    let folder = here.ancestors().nth(2).expect("the repository").join("target/staticlib");
    println!("cargo:rustc-link-search=native={}", folder.display());
    println!("cargo:rerun-if-changed={}", folder.join("libbench_exports.a").display());
    println!("cargo:rustc-link-lib=static=bench_exports");
}
