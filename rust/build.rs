//! Links the proved static library, libcapi.a, which `scripts/archive capi` makes.

use std::path::{Path, PathBuf};

/// The environment variable that names the folder of the library, by an absolute path, if it isn't target/staticlib of the
/// repository.
const FOLDER: &str = "COGTHUNDER_LIB";
const LIBRARY: &str = "libcapi.a";

fn main() {
    println!("cargo::rerun-if-env-changed={FOLDER}");
    let folder = folder();
    let library = folder.join(LIBRARY);
    println!("cargo::rerun-if-changed={}", library.display());
    if !library.is_file() {
        println!(
            "cargo::error=there is no {}: make it by `scripts/archive capi`, or name the folder that has {LIBRARY} in {FOLDER}",
            library.display()
        );
        return;
    }
    println!("cargo::rustc-link-search=native={}", folder.display());
    println!("cargo::rustc-link-lib=static=capi");
}

fn folder() -> PathBuf {
    match std::env::var_os(FOLDER) {
        Some(folder) => folder.into(),
        None => {
            let package = std::env::var_os("CARGO_MANIFEST_DIR").expect("cargo names the package's folder");
            Path::new(&package).join("../target/staticlib")
        }
    }
}
