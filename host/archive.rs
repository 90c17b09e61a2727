//! Makes a static library of the repository with the Rattle toolchain, which proves it first, and links it.
use std::fs::{create_dir_all, read_dir, File};
use std::path::Path;
use std::process::Command;

/// `root` is the repository's. One library at a time: cargo may build two packages at once, and both would prove the crates below them.
pub fn link(root: &Path, name: &str) {
    let target = root.join("target");
    create_dir_all(&target).expect("target/ can be made");
    let lock = File::create(target.join("staticlib.lock")).expect("target/ can be written");
    lock.lock().expect("a file can be locked");
    let made = Command::new(root.join("tools/archive")).arg(name).status().expect("tools/archive can be run");
    assert!(made.success(), "the static library {name} was not made: the Rattle toolchain says why");
    println!("cargo:rustc-link-search=native={}", target.join("staticlib").display());
    println!("cargo:rustc-link-lib=static={name}");
    println!("cargo:rerun-if-changed={}", root.join("crates.txt").display());
    println!("cargo:rerun-if-changed={}", root.join("tools/archive").display());
    for krate in read_dir(root.join("crates")).expect("crates/ can be read") {
        let krate = krate.expect("crates/ can be read").path();
        // not out/, which every check writes
        for part in ["src", "specs", "proofs"] {
            if krate.join(part).exists() {
                println!("cargo:rerun-if-changed={}", krate.join(part).display());
            }
        }
    }
}
