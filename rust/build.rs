//! Links the tests with the static library `capi`, from target/staticlib of the repository or from
//! the folder that CUTLIST_LIB_DIR names, and tells the benchmark how it was built.

use std::env;
use std::path::PathBuf;
use std::process::{self, Command};

fn main() {
    println!("cargo:rerun-if-changed=build.rs");
    println!("cargo:rerun-if-env-changed=CUTLIST_LIB_DIR");

    let folder = match env::var_os("CUTLIST_LIB_DIR") {
        Some(folder) => PathBuf::from(folder),
        None => {
            let package = env::var_os("CARGO_MANIFEST_DIR").expect("cargo sets CARGO_MANIFEST_DIR");
            PathBuf::from(package).join("../target/staticlib")
        }
    };
    let archive = folder.join("libcapi.a");
    println!("cargo:rerun-if-changed={}", archive.display());
    if !archive.is_file() {
        eprintln!(
            "{} is missing. Make it with `./cutlist` at the root of the repository.",
            archive.display()
        );
        process::exit(1);
    }
    println!("cargo:rustc-link-search=native={}", folder.display());
    println!("cargo:rustc-link-lib=static=capi");

    let told = |name: &str| env::var(name).unwrap_or_else(|_| panic!("cargo sets {name}"));
    let version = Command::new(told("RUSTC")).arg("--version").output();
    let version = String::from_utf8(version.expect("a compiler").stdout).expect("its version");
    println!("cargo:rustc-env=BUILT_BY={}", version.trim());
    println!("cargo:rustc-env=BUILT_AT_LEVEL={}", told("OPT_LEVEL"));
    println!(
        "cargo:rustc-env=BUILT_FOR={}",
        told("CARGO_CFG_TARGET_FEATURE")
    );
}
