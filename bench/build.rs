//! Links what `bindings/library matching_exports` leaves in the repository. The benchmark's own come with `live_calls`.

use std::path::PathBuf;

fn main() {
    let here = PathBuf::from(std::env::var_os("CARGO_MANIFEST_DIR").expect("cargo sets it"));
    let folder = here.parent().expect("the repository").join("target/staticlib");
    println!("cargo:rustc-link-search=native={}", folder.display());
    println!("cargo:rerun-if-changed={}", folder.join("libmatching_exports.a").display());
    println!("cargo:rustc-link-lib=static=matching_exports");
}
