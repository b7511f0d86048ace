//! Finds the eight published files, holds them against SHA256SUMS, and lays out the folder `net`: `mod.rs` and
//! `close_handler.rs` open with what `include!` does not take, so the compiler has to find them as files of a module.
//! Nothing of the original is copied: the layout is links.

use std::path::{Path, PathBuf};
use std::process::Command;
use std::{env, fs, os::unix};

fn main() {
    let here = PathBuf::from(env::var("CARGO_MANIFEST_DIR").unwrap());
    let out = PathBuf::from(env::var("OUT_DIR").unwrap());
    let original = published(&here);
    check_sums(&here, &original);
    lay_out_net(&here, &original, &out);
    // A test of the original's own, for a tool that is not used here.
    println!("cargo:rustc-check-cfg=cfg(kani)");
    println!("cargo:rustc-env=BLUEFIN={}", original.display());
    println!("cargo:rerun-if-env-changed=BLUEFIN_SRC");
    println!(
        "cargo:rerun-if-changed={}",
        here.join("SHA256SUMS").display()
    );
    println!("cargo:rerun-if-changed={}", here.join("src/net").display());
    println!("cargo:rerun-if-changed={}", original.display());
}

/// The folder of the published files: `BLUEFIN_SRC`, or `shared/docs/src` beside the repository.
fn published(here: &Path) -> PathBuf {
    let src = match env::var_os("BLUEFIN_SRC") {
        Some(src) => PathBuf::from(src),
        None => here.join("../../shared/docs/src"),
    };
    let original = src.join("bluefin/src");
    original.canonicalize().unwrap_or_else(|_| {
        panic!(
            "no published files at {}: set BLUEFIN_SRC",
            original.display()
        )
    })
}

fn check_sums(here: &Path, original: &Path) {
    let status = Command::new("sha256sum")
        .args(["--check", "--strict", "--quiet"])
        .arg(here.join("SHA256SUMS"))
        .current_dir(original)
        .status()
        .expect("sha256sum runs");
    assert!(
        status.success(),
        "the published files are not those of SHA256SUMS"
    );
}

/// `net/` as the compiler meets it: two files of the original, and ours from src/net beside them.
fn lay_out_net(here: &Path, original: &Path, out: &Path) {
    let net = out.join("net");
    let _ = fs::remove_dir_all(&net);
    fs::create_dir_all(&net).unwrap();
    for name in ["mod.rs", "close_handler.rs"] {
        unix::fs::symlink(original.join("net").join(name), net.join(name)).unwrap();
    }
    for entry in fs::read_dir(here.join("src/net")).unwrap() {
        let ours = entry.unwrap().path();
        unix::fs::symlink(&ours, net.join(ours.file_name().unwrap())).unwrap();
    }
    fs::write(out.join("tree.rs"), "pub mod net;\n").unwrap();
}
