//! Finds the archive of proved functions and links it. Where it is looked for: in the folder that XRS_LIB_DIR names; in the repository
//! around this crate, where `./package` leaves it; where pkg-config finds an installed package.

use std::path::{Path, PathBuf};
use std::process::{exit, Command};

const MISSING: &str = "xrs: the archive libxrs.a is missing.
    In the repository run ./package, which proves and builds it.
    Elsewhere set XRS_LIB_DIR to the folder that has it, from / on, or PKG_CONFIG_PATH to the one that has xrs.pc.";

/// The folder that the user names, if any.
fn named() -> Option<PathBuf> {
    println!("cargo:rerun-if-env-changed=XRS_LIB_DIR");
    std::env::var_os("XRS_LIB_DIR").map(PathBuf::from)
}

/// The folder of the repository's archive, if it was built.
fn built() -> Option<PathBuf> {
    let root = std::env::var_os("CARGO_MANIFEST_DIR").expect("cargo sets this");
    let folder = Path::new(&root).join("../target/staticlib");
    println!("cargo:rerun-if-changed={}", folder.join("libxrs.a").display());
    folder.join("libxrs.a").exists().then_some(folder)
}

/// The folder of an installed package, if pkg-config knows one.
fn installed() -> Option<PathBuf> {
    println!("cargo:rerun-if-env-changed=PKG_CONFIG_PATH");
    let said = Command::new("pkg-config").args(["--variable=libdir", "xrs"]).output().ok()?;
    let folder = String::from_utf8(said.stdout).ok()?;
    (said.status.success() && !folder.trim().is_empty()).then(|| PathBuf::from(folder.trim()))
}

/// Links the archive in the folder, or says that it is not there.
fn link(folder: &Path) {
    let archive = folder.join("libxrs.a");
    if !archive.exists() {
        eprintln!("{MISSING}\n    {} does not exist.", archive.display());
        exit(1);
    }
    println!("cargo:rerun-if-changed={}", archive.display());
    println!("cargo:rustc-link-search=native={}", folder.display());
    println!("cargo:rustc-link-lib=static=xrs");
}

fn main() {
    println!("cargo:rerun-if-changed=build.rs");
    match named().or_else(built).or_else(installed) {
        Some(folder) => link(&folder),
        None => {
            eprintln!("{MISSING}");
            exit(1);
        }
    }
}
