//! Says where the proved static libraries are, which `scripts/archive` makes.

fn main() {
    let package = std::env::var("CARGO_MANIFEST_DIR").expect("cargo names the package's folder");
    let folder = format!("{package}/../target/staticlib");
    println!("cargo:rustc-link-search=native={folder}");
    for name in ["capi", "check_speed"] {
        println!("cargo:rerun-if-changed={folder}/lib{name}.a");
    }
}
