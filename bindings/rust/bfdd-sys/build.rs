//! Finds the archive by `pkg-config`, so that a program has the library in itself.

use std::process::Command;

fn main() {
    println!("cargo:rerun-if-env-changed=PKG_CONFIG_PATH");
    let asked = Command::new("pkg-config").args(["--variable=libdir", "bfdd"]).output().expect("pkg-config can't be started");
    assert!(asked.status.success(), "pkg-config doesn't find bfdd: {}", String::from_utf8_lossy(&asked.stderr));
    println!("cargo:rustc-link-search=native={}", String::from_utf8_lossy(&asked.stdout).trim());
    println!("cargo:rustc-link-lib=static=bfdd");
}
