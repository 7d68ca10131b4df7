//! Finds libhagzimot: in the folder that `HAGZIMOT_LIB_DIR` names, or where pkg-config says that it is.
//!
//! The archive is linked if the folder has it, so that the program needs no other file. Otherwise the shared library is.
use std::env;
use std::path::Path;
use std::process::Command;

/// Returns the folder that pkg-config names for the library; `None` if it names none.
fn folder_of_pkg_config() -> Option<String> {
    let words = ["--variable=libdir", "hagzimot"];
    let run = Command::new("pkg-config").args(words).output().ok()?;
    let folder = String::from_utf8(run.stdout).ok()?;
    let folder = folder.trim();
    (run.status.success() && !folder.is_empty()).then(|| folder.to_owned())
}

fn main() {
    println!("cargo:rerun-if-env-changed=HAGZIMOT_LIB_DIR");
    println!("cargo:rerun-if-env-changed=PKG_CONFIG_PATH");
    match env::var("HAGZIMOT_LIB_DIR").ok().or_else(folder_of_pkg_config) {
        Some(folder) => link_from(&folder),
        // The linker looks in its own folders.
        None => println!("cargo:rustc-link-lib=hagzimot"),
    }
}

/// Links the library of a folder.
fn link_from(folder: &str) {
    let archive = Path::new(folder).join("libhagzimot.a");
    let kind = if archive.is_file() { "static" } else { "dylib" };
    println!("cargo:rerun-if-changed={}", archive.display());
    println!("cargo:rustc-link-search=native={folder}");
    println!("cargo:rustc-link-lib={kind}=hagzimot");
}
