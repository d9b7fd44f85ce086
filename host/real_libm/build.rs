//! Compiles the real libm, where its source is found: in the folder that the environment variable
//! LIBM names, by default that of Debian's package librust-libm-dev.

use std::env;
use std::path::PathBuf;
use std::process::Command;

const DEBIAN: &str = "/usr/share/cargo/registry/libm-0.2.1";

fn main() {
    println!("cargo::rerun-if-env-changed=LIBM");
    println!("cargo::rerun-if-changed=build.rs");
    println!("cargo::rustc-check-cfg=cfg(real_libm)");
    let folder = PathBuf::from(env::var_os("LIBM").unwrap_or_else(|| DEBIAN.into()));
    let source = folder.join("src/lib.rs");
    println!("cargo::rerun-if-changed={}", source.display());
    if !source.is_file() {
        println!(
            "cargo::warning=no libm at {}: install librust-libm-dev or set LIBM",
            folder.display()
        );
        return;
    }
    let out = PathBuf::from(env::var_os("OUT_DIR").expect("cargo sets it"));
    let rustc = env::var_os("RUSTC").expect("cargo sets it");
    let compiled = Command::new(rustc)
        .args(["--crate-name", "real", "--crate-type", "rlib"])
        .args(["--edition", "2018", "--cap-lints", "allow"])
        .args(["-C", "opt-level=3", "--out-dir"])
        .args([&out, &source])
        .status();
    if !compiled.is_ok_and(|status| status.success()) {
        println!("cargo::error=cannot compile {}", source.display());
        std::process::exit(1);
    }
    println!("cargo::rustc-link-search=crate={}", out.display());
    println!("cargo::rustc-cfg=real_libm");
}
