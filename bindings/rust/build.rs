//! Links target/staticlib/libpmu.a and, with the feature `calls`, libpmu_access.a and
//! libpmu_calls.a beside it. tools/build writes them.

use std::path::Path;

/// Links a library that tools/build writes.
fn link(folder: &str, name: &str) {
    let file = format!("{folder}/lib{name}.a");
    if !Path::new(&file).exists() {
        panic!("target/staticlib/lib{name}.a is not there: run `tools/build {name}` first");
    }
    println!("cargo:rustc-link-lib=static={name}");
    println!("cargo:rerun-if-changed={file}");
}

fn main() {
    let folder = concat!(env!("CARGO_MANIFEST_DIR"), "/../../target/staticlib");
    println!("cargo:rustc-link-search=native={folder}");
    link(folder, "pmu");
    if std::env::var_os("CARGO_FEATURE_CALLS").is_some() {
        link(folder, "pmu_access");
        link(folder, "pmu_calls");
    }
}
