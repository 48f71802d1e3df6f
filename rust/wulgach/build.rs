//! Finds `libwulgach.a`: in the folder that `WULGACH_LIB_DIR` names, else where pkg-config says, else where `make -C c` leaves it.

use std::env;
use std::path::Path;
use std::process::Command;

fn main() {
    println!("cargo:rerun-if-env-changed=WULGACH_LIB_DIR");
    let folder = from_environment()
        .or_else(from_pkg_config)
        .or_else(from_repository);
    match folder {
        Some(folder) => {
            println!("cargo:rerun-if-changed={folder}/libwulgach.a");
            println!("cargo:rustc-link-search=native={folder}");
            println!("cargo:rustc-link-lib=static=wulgach");
        }
        None => panic!("libwulgach.a isn't found: run `make -C c install`, or name its folder in WULGACH_LIB_DIR"),
    }
}

fn from_environment() -> Option<String> {
    env::var("WULGACH_LIB_DIR").ok()
}

fn from_pkg_config() -> Option<String> {
    let found = Command::new("pkg-config")
        .args(["--variable=libdir", "wulgach"])
        .output()
        .ok()?;
    let folder = String::from_utf8(found.stdout).ok()?.trim().to_owned();
    (found.status.success() && !folder.is_empty()).then_some(folder)
}

fn from_repository() -> Option<String> {
    let folder = format!("{}/../../c/out", env::var("CARGO_MANIFEST_DIR").ok()?);
    Path::new(&folder)
        .join("libwulgach.a")
        .exists()
        .then_some(folder)
}
