//! Says where `libitree.a` lies: in the folder that `ITREE_LIB_DIR` names, in this crate where it was packaged, in
//! `bindings/built` of a checkout, or where `pkg-config` finds it.

use std::env;
use std::path::{Path, PathBuf};
use std::process::{exit, Command};

const ARCHIVE: &str = "libitree.a";

fn main() {
    println!("cargo:rerun-if-env-changed=ITREE_LIB_DIR");
    println!("cargo:rerun-if-env-changed=PKG_CONFIG_PATH");
    let here = PathBuf::from(env::var_os("CARGO_MANIFEST_DIR").expect("cargo says where the crate lies"));
    match folder_of_archive(&here) {
        Ok(folder) => link(&folder),
        Err(missing) => {
            eprintln!("itree: {missing}; set ITREE_LIB_DIR to a folder that has it, as lib of an installed itree");
            exit(1);
        }
    }
    if here.join("tests").exists() {
        // The tests refuse memory: they have a malloc and a realloc of their own.
        println!("cargo:rustc-link-arg-tests=-Wl,--wrap=malloc,--wrap=realloc");
    }
}

fn link(folder: &Path) {
    println!("cargo:rerun-if-changed={}", folder.join(ARCHIVE).display());
    println!("cargo:rustc-link-search=native={}", folder.display());
    println!("cargo:rustc-link-lib=static=itree");
}

fn folder_of_archive(here: &Path) -> Result<PathBuf, String> {
    if let Some(named) = env::var_os("ITREE_LIB_DIR") {
        let named = PathBuf::from(named);
        let missing = format!("there is no {ARCHIVE} in {}", named.display());
        return has_archive(&named).then_some(named).ok_or(missing);
    }
    let carried = here.join("lib");
    if fits_what_is_built() && has_archive(&carried) {
        return Ok(carried);
    }
    let built = here.join("../built");
    if has_archive(&built) {
        return Ok(built);
    }
    let installed = installed().filter(|it| has_archive(it));
    installed.ok_or(format!("there is no {ARCHIVE} here, and pkg-config knows of none"))
}

fn has_archive(folder: &Path) -> bool {
    folder.join(ARCHIVE).exists()
}

/// Whether the archive that a packaged crate carries is for the machine that is compiled for.
fn fits_what_is_built() -> bool {
    let is = |name: &str, value: &str| env::var(name).as_deref() == Ok(value);
    is("CARGO_CFG_TARGET_OS", "linux") && is("CARGO_CFG_TARGET_ARCH", "x86_64")
}

/// The folder that `pkg-config` names.
fn installed() -> Option<PathBuf> {
    let told = Command::new("pkg-config")
        .args(["--variable=libdir", "itree"])
        .output()
        .ok()?;
    let folder = String::from_utf8(told.stdout).ok()?;
    (told.status.success() && !folder.trim().is_empty()).then(|| PathBuf::from(folder.trim()))
}
