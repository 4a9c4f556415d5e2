//! Links the archive that `compare/run` makes of `crates/heatcost`, and for the
//! benchmarks the one that `compare/run` makes of the division.

fn main() {
    let root = std::env::var("CARGO_MANIFEST_DIR").expect("cargo sets it");
    link(&root, "staticlib", "heatcost");
    if std::env::var("CARGO_FEATURE_DIVISION").is_ok() {
        link(&root, "division/target/staticlib", "division");
    }
}

fn link(root: &str, folder: &str, name: &str) {
    let folder = format!("{root}/../../target/{folder}");
    println!("cargo:rustc-link-search={folder}");
    println!("cargo:rustc-link-lib=static={name}");
    println!("cargo:rerun-if-changed={folder}/lib{name}.a");
}
