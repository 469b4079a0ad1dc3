//! Links the proved checker, which `./build exports` writes.

use std::env;
use std::path::Path;

fn main() {
    let here = env::var("CARGO_MANIFEST_DIR").expect("cargo names the folder");
    let folder = Path::new(&here).join("../../target/staticlib");
    let library = folder.join("libexports.a");
    println!("cargo::rerun-if-changed={}", library.display());
    if library.exists() {
        println!("cargo::rustc-link-search=native={}", folder.display());
        println!("cargo::rustc-link-lib=static=exports");
    } else {
        println!("cargo::error=target/staticlib/libexports.a: run `./build exports` first");
    }
}
