//! Links the proved libraries, which `tools/build` writes below the repository's root.

use std::env;
use std::path::PathBuf;

fn main() {
    let host = PathBuf::from(env::var_os("CARGO_MANIFEST_DIR").expect("cargo names the package's folder"));
    let folder = host.join("..").join("target").join("staticlib");
    println!("cargo:rerun-if-changed={}", folder.display());
    println!("cargo:rustc-link-search=native={}", folder.display());
    for library in ["calls", "exchange"] {
        let file = folder.join(format!("lib{library}.a"));
        assert!(file.is_file(), "there is no {}: make it by `tools/build {library}`", file.display());
        println!("cargo:rustc-link-lib=static={library}");
    }
}
