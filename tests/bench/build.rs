//! Links the static library that `make library` writes.

/// Where it is written, from this package's folder: a relative path, so that a copy of the repository links its own.
const FOLDER: &str = "../../target/staticlib";

fn main() {
    println!("cargo:rustc-link-search=native={FOLDER}");
    println!("cargo:rustc-link-lib=static=lellmusu");
    println!("cargo:rerun-if-changed={FOLDER}/liblellmusu.a");
}
