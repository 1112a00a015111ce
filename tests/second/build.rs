//! With the feature `first`: where the first program's static library lies.

/// The folder that `make library` writes it to, from this package's folder: a relative path, so
/// that a copy of the repository links its own.
const FOLDER: &str = "../../target/staticlib";

fn main() {
    println!("cargo:rerun-if-changed=build.rs");
    if std::env::var_os("CARGO_FEATURE_FIRST").is_some() {
        println!("cargo:rustc-link-search=native={FOLDER}");
        println!("cargo:rerun-if-changed={FOLDER}/liblellmusu.a");
    }
}
