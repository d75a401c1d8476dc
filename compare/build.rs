//! Links liblampferret.a, from the folder that LAMPFERRET_LIB names or else from where the proved one is built.

use std::env;
use std::path::{Path, PathBuf};

fn main() {
    println!("cargo:rerun-if-env-changed=LAMPFERRET_LIB");
    let package = env::var("CARGO_MANIFEST_DIR").expect("cargo names the package's folder");
    let folder = match env::var("LAMPFERRET_LIB") {
        Ok(folder) => PathBuf::from(folder),
        Err(_) => Path::new(&package).join("../target/staticlib"),
    };
    let archive = folder.join("liblampferret.a");
    println!("cargo:rerun-if-changed={}", archive.display());
    assert!(archive.exists(), "there is no {}", archive.display());
    println!("cargo:rustc-link-search=native={}", folder.display());
    println!("cargo:rustc-link-lib=static=lampferret");
}
