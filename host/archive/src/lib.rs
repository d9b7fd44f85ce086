//! For build scripts: the static library that the environment variable IDENTIFY_LIB names, a path
//! as crates/exports/out/libexports.a, seen from the project's root where it is relative.

use std::env;
use std::path::{Path, PathBuf};
use std::process::exit;

/// The static library, where one is named. The build stops where there is none at that path.
pub fn named() -> Option<PathBuf> {
    println!("cargo::rerun-if-env-changed=IDENTIFY_LIB");
    println!("cargo::rustc-check-cfg=cfg(identify_lib)");
    let given = env::var_os("IDENTIFY_LIB")?;
    let manifest = PathBuf::from(env::var_os("CARGO_MANIFEST_DIR").expect("cargo sets it"));
    let project = manifest
        .ancestors()
        .nth(2)
        .expect("a crate of host/ is in the project");
    Some(there(project.join(given)))
}

/// Another crate's static library: in its own out/ where the first is in that of `exports`, as
/// `rt lib` leaves both, and else beside the first. The build stops where there is none.
pub fn of_crate(name: &str, first: &Path) -> PathBuf {
    let file = format!("lib{name}.a");
    if !first.ends_with("crates/exports/out/libexports.a") {
        return there(first.with_file_name(file));
    }
    let crates = first.ancestors().nth(3).expect("it ends so");
    there(crates.join(name).join("out").join(file))
}

fn there(library: PathBuf) -> PathBuf {
    println!("cargo::rerun-if-changed={}", library.display());
    if !library.is_file() {
        stop(&format!("no static library at {}", library.display()));
    }
    library
}

/// Links a static library and sets the configuration `identify_lib`.
pub fn link(library: &Path) {
    let folder = library.parent().expect("a file has a folder");
    let name = library
        .file_name()
        .expect("a file has a name")
        .to_string_lossy();
    println!("cargo::rustc-link-search=native={}", folder.display());
    println!("cargo::rustc-link-lib=static:+verbatim={name}");
    println!("cargo::rustc-cfg=identify_lib");
}

/// Stops the build with a line about IDENTIFY_LIB.
pub fn stop(why: &str) -> ! {
    println!("cargo::error=IDENTIFY_LIB: {why}");
    exit(1)
}
