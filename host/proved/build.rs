//! Links the proved library.

use std::path::Path;
use std::{env, process};

fn main() {
    let package = env::var_os("CARGO_MANIFEST_DIR").expect("cargo names the package's folder");
    // The package lies two folders below the repository's root.
    let root = Path::new(&package).ancestors().nth(2);
    let folder = root.expect("it has them").join("crates/exports/out");
    let archive = folder.join("libexports.a");
    println!("cargo:rerun-if-changed=build.rs");
    println!("cargo:rerun-if-changed={}", archive.display());
    if !archive.is_file() {
        let archive = archive.display();
        eprintln!("the proved library {archive} is not there yet;");
        eprintln!("`.ci/build exports`, run at the repository's root, proves and builds it");
        process::exit(1);
    }
    println!("cargo:rustc-link-search=native={}", folder.display());
    println!("cargo:rustc-link-lib=static=exports");
}
