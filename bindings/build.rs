//! Finds the proved archive.

use std::path::Path;

fn main() {
    let package = std::env::var("CARGO_MANIFEST_DIR").expect("set by cargo");
    let folder = Path::new(&package).join("../target/staticlib");
    let archive = folder.join("libexports.a");
    println!("cargo:rerun-if-changed={}", archive.display());
    if !archive.exists() {
        eprintln!(
            "dacom450: the proved archive is missing; make it with\n    tools/build exports\n\
             at the repository's root, and build again. It is looked for at\n    {}",
            archive.display()
        );
        std::process::exit(1);
    }
    println!("cargo:rustc-link-search=native={}", folder.display());
    println!("cargo:rustc-link-lib=static=exports");
}
