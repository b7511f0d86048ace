//! Finds the archives: in the folder `BLUEFIN_ARCHIVE`, or in `target/staticlib` of the repository.

use std::env;
use std::path::PathBuf;

fn main() {
    let here = PathBuf::from(env::var_os("CARGO_MANIFEST_DIR").expect("cargo sets it"));
    let folder = match env::var_os("BLUEFIN_ARCHIVE") {
        Some(folder) => PathBuf::from(folder),
        None => here.join("../../target/staticlib"),
    };
    println!("cargo:rerun-if-env-changed=BLUEFIN_ARCHIVE");
    println!("cargo:rustc-link-search=native={}", folder.display());
    for name in ["bluefin_c", "bluefin_ring_c"] {
        let archive = folder.join(format!("lib{name}.a"));
        println!("cargo:rerun-if-changed={}", archive.display());
        if !archive.is_file() {
            panic!(
                "no archive at {}: run hosts/archives, or set BLUEFIN_ARCHIVE to its folder",
                archive.display()
            );
        }
        println!("cargo:rustc-link-lib=static={name}");
    }
}
