//! Links the static library of the crate `cells`, which must have been built before.

fn main() {
    let here = std::env::var("CARGO_MANIFEST_DIR").unwrap();
    println!("cargo:rustc-link-search=native={here}/../../crates/cells/out");
    println!("cargo:rerun-if-changed={here}/../../crates/cells/out/libcells.a");
}
