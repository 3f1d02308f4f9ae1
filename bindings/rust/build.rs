//! Where the library for C is: in the directory that `MERGEJOIN_LIB` names; else where `pkg-config` has it installed; else
//! where bin/library of this repository makes it. Its archive is linked if it is there, and else the shared library.
use std::{
    env,
    path::{Path, PathBuf},
    process::Command,
};

/// The least version whose exports are those of `src/raw.rs`.
const INSTALLED: &str = "mergejoin >= 0.3.0";

fn main() {
    for name in ["MERGEJOIN_LIB", "PKG_CONFIG", "PKG_CONFIG_PATH"] {
        println!("cargo:rerun-if-env-changed={name}");
    }
    let directory = env::var_os("MERGEJOIN_LIB")
        .map(PathBuf::from)
        .or_else(installed)
        .unwrap_or_else(built_here);
    let archive = directory.join("libmergejoin.a");
    let kind = if archive.is_file() { "static" } else { "dylib" };
    println!("cargo:rerun-if-changed={}", archive.display());
    println!("cargo:rustc-link-search=native={}", directory.display());
    println!("cargo:rustc-link-lib={kind}=mergejoin");
}

/// The directory of an installed library, if `pkg-config` knows one.
fn installed() -> Option<PathBuf> {
    let command = env::var_os("PKG_CONFIG").unwrap_or_else(|| "pkg-config".into());
    let words = ["--variable=libdir", INSTALLED];
    let done = Command::new(command).args(words).output().ok()?;
    let printed = String::from_utf8(done.stdout).ok()?;
    let directory = printed.trim();
    (done.status.success() && !directory.is_empty()).then(|| PathBuf::from(directory))
}

fn built_here() -> PathBuf {
    let here = env::var_os("CARGO_MANIFEST_DIR").expect("cargo names the crate's directory");
    Path::new(&here).join("../../out/lib")
}
