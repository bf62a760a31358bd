//! Links the static library with the exported calls.

use std::env;
use std::path::Path;

fn main() {
    let here = env::var_os("CARGO_MANIFEST_DIR").expect("cargo says where the crate is");
    let place = Path::new(&here).join("../../target/staticlib");
    let library = place.join("libbankplan.a");
    println!("cargo::rerun-if-changed={}", library.display());
    if !library.exists() {
        println!(
            "cargo::error=target/staticlib/libbankplan.a is missing: \
             run `make` at the root of the repository first"
        );
        return;
    }
    println!("cargo::rustc-link-search=native={}", place.display());
    println!("cargo::rustc-link-lib=static=bankplan");
}
