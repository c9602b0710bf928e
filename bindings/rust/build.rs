//! Finds `liboer.a`: in the folder that `OER_LIB_DIR` names, or else in the one that `pkg-config` says.

use std::env;
use std::path::PathBuf;
use std::process::Command;

fn main() {
    println!("cargo:rerun-if-env-changed=OER_LIB_DIR");
    println!("cargo:rerun-if-env-changed=PKG_CONFIG");
    println!("cargo:rerun-if-env-changed=PKG_CONFIG_PATH");
    let folder = match env::var_os("OER_LIB_DIR") {
        Some(folder) => PathBuf::from(folder),
        None => installed().unwrap_or_else(|| panic!("set OER_LIB_DIR to the folder of liboer.a: pkg-config knows no oer")),
    };
    let library = folder.join("liboer.a");
    if !library.is_file() {
        panic!("there is no {}", library.display());
    }
    println!("cargo:rerun-if-changed={}", library.display());
    println!("cargo:rustc-link-search=native={}", folder.display());
    println!("cargo:rustc-link-lib=static=oer");
}

/// The folder of the library that is installed, if `pkg-config` knows one.
fn installed() -> Option<PathBuf> {
    let tool = env::var_os("PKG_CONFIG").unwrap_or_else(|| "pkg-config".into());
    let answer = Command::new(tool).args(["--variable=libdir", "oer"]).output().ok()?;
    let folder = String::from_utf8(answer.stdout).ok()?;
    (answer.status.success() && !folder.trim().is_empty()).then(|| PathBuf::from(folder.trim()))
}
