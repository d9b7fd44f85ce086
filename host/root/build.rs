//! Links a copy of the static library that the environment variable IDENTIFY_LIB names, where it is
//! set. In the copy `float::root`, which the library keeps to itself, has a name that can be called.

use std::env;
use std::path::{Path, PathBuf};
use std::process::Command;

const NAME: &str = "identify_float_root";

fn main() {
    let Some(library) = archive::named() else {
        return;
    };
    let folder = PathBuf::from(env::var_os("OUT_DIR").expect("cargo sets it"));
    let renamed = folder.join("renamed.a");
    let copy = folder.join("libroot.a");
    let rename = format!("--redefine-sym=float::root={NAME}");
    objcopy(&rename, &library, &renamed);
    if !names(&renamed).contains(NAME) {
        archive::stop("float::root is no function of its own in it");
    }
    objcopy(&format!("--globalize-symbol={NAME}"), &renamed, &copy);
    archive::link(&copy);
    println!("cargo::rustc-env=ROOT_LIBRARY={}", library.display());
}

fn objcopy(option: &str, from: &Path, to: &Path) {
    let done = Command::new("objcopy")
        .arg(option)
        .args([from, to])
        .status();
    if !done.is_ok_and(|status| status.success()) {
        archive::stop("objcopy, of binutils, did not copy it");
    }
}

fn names(library: &Path) -> String {
    match Command::new("nm").arg(library).output() {
        Ok(output) => String::from_utf8_lossy(&output.stdout).into_owned(),
        Err(error) => archive::stop(&format!("nm, of binutils: {error}")),
    }
}
