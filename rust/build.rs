//! Links `libwentuqis.a` from the folder in `WENTUQIS_LIB_DIR`, for any target, else from where
//! `make library` of the repository puts the one for this target, below `../target/staticlib`. A
//! relative folder counts from this crate's own. Without the archive the build ends with one line
//! that says how to make it.

use std::env;
use std::path::{Path, PathBuf};

const ARCHIVE: &str = "libwentuqis.a";

/// Architecture and system as Cargo has them, the target as `make library` has it, and the folder
/// that the archive is made in.
const MADE: [[&str; 4]; 5] = [
    ["x86_64", "linux", "x86_64-unknown-linux-gnu", ""],
    [
        "aarch64",
        "linux",
        "aarch64-unknown-linux-gnu",
        "aarch64-unknown-linux-gnu",
    ],
    [
        "wasm64",
        "unknown",
        "wasm64-unknown-unknown",
        "wasm64-unknown-unknown",
    ],
    [
        "x86_64",
        "windows",
        "x86_64-pc-windows",
        "x86_64-pc-windows",
    ],
    [
        "x86_64",
        "macos",
        "x86_64-apple-macos",
        "x86_64-apple-macos",
    ],
];

fn main() {
    println!("cargo::rerun-if-env-changed=WENTUQIS_LIB_DIR");
    let crate_folder = PathBuf::from(var("CARGO_MANIFEST_DIR"));
    let system = [var("CARGO_CFG_TARGET_ARCH"), var("CARGO_CFG_TARGET_OS")];
    let made = MADE.iter().find(|it| it[..2] == system);
    let given = env::var_os("WENTUQIS_LIB_DIR").map(|it| crate_folder.join(it));
    let folder = match (given, made) {
        (Some(folder), _) => folder,
        (None, Some([.., below])) => crate_folder
            .parent()
            .unwrap_or(Path::new("/"))
            .join("target/staticlib")
            .join(below),
        (None, None) => {
            println!(
                "cargo::error=the repository makes no {ARCHIVE} for {}: set WENTUQIS_LIB_DIR to the folder of one",
                system.join("-")
            );
            return;
        }
    };
    let archive = folder.join(ARCHIVE);
    println!("cargo::rerun-if-changed={}", archive.display());
    if !archive.is_file() {
        let how = made.map_or(String::new(), |it| {
            format!(
                "make it by `make library TARGET={}` in the repository, or ",
                it[2]
            )
        });
        println!(
            "cargo::error=there is no {}: {how}set WENTUQIS_LIB_DIR to its folder",
            archive.display()
        );
        return;
    }
    println!("cargo::rustc-link-search=native={}", folder.display());
    println!("cargo::rustc-link-lib=static=wentuqis");
}

/// A variable that Cargo sets for every build script.
fn var(name: &str) -> String {
    env::var(name).unwrap_or_else(|_| panic!("Cargo sets {name}"))
}
