//! Links the measured libraries of target/staticlib, which tools/build writes.

fn main() {
    let folder = concat!(env!("CARGO_MANIFEST_DIR"), "/../target/staticlib");
    println!("cargo:rustc-link-search=native={folder}");
    let loops = ["bench_by_value", "bench_in_parts", "bench_in_place", "bench_register"];
    for library in loops.into_iter().chain(["pmu_access", "pmu_calls"]) {
        println!("cargo:rustc-link-lib=static={library}");
        println!("cargo:rerun-if-changed={folder}/lib{library}.a");
    }
}
