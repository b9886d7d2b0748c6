//! Links the host's build of the proved library, which `tools/host-build ewplander` makes first.

use std::path::Path;

fn main() {
    let libraries = concat!(env!("CARGO_MANIFEST_DIR"), "/../target/host");
    let archive = format!("{libraries}/libewplander.a");
    println!("cargo::rerun-if-changed={archive}");
    if !Path::new(&archive).exists() {
        println!("cargo::error={archive} is missing: run `tools/host-build ewplander` first");
        return;
    }
    println!("cargo::rustc-link-search=native={libraries}");
    println!("cargo::rustc-link-lib=static=ewplander");
}
