//! Links the static library, which is built before this crate.

use std::path::Path;

fn main() {
    let crate_dir = std::env::var("CARGO_MANIFEST_DIR").expect("cargo names the crate's directory");
    let library_dir = format!("{crate_dir}/../../target/staticlib");
    let library = format!("{library_dir}/libexports.a");
    if !Path::new(&library).exists() {
        println!("cargo:warning=libexports.a isn't built: run `tools/build` first");
    }
    println!("cargo:rustc-link-search=native={library_dir}");
    println!("cargo:rustc-link-lib=static=exports");
    println!("cargo:rerun-if-changed={library}");
}
