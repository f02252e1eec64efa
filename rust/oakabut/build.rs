//! Finds the proved library, liboakabut.a, and links it.
//!
//! It is in the folder that OAKABUT_LIB_DIR names. Without that it is where this crate's own folder says: in a package below `lib`, in the repository where
//! `arm/build` makes it; each has an archive for x86-64, for Arm Linux, and for an Arm machine without an operating system.

use std::{
    env,
    path::{Path, PathBuf},
    process,
};

fn main() {
    println!("cargo:rerun-if-env-changed=OAKABUT_LIB_DIR");
    let folder = match env::var_os("OAKABUT_LIB_DIR") {
        Some(folder) => PathBuf::from(folder),
        None => standing(),
    };
    let archive = folder.join("liboakabut.a");
    println!("cargo:rerun-if-changed={}", archive.display());
    if !archive.is_file() {
        fail(&format!("there is no file {}", archive.display()));
    }
    println!("cargo:rustc-link-search=native={}", folder.display());
    println!("cargo:rustc-link-lib=static=oakabut");
}

/// The folder of the target's archive.
fn standing() -> PathBuf {
    let variable = |name| env::var(name).unwrap_or_default();
    let (arch, system) = (variable("CARGO_CFG_TARGET_ARCH"), variable("CARGO_CFG_TARGET_OS"));
    let (packed, made) = match (arch.as_str(), system.as_str()) {
        ("x86_64", _) => ("lib/x86_64", "target/staticlib"),
        ("aarch64", "none") => ("lib/aarch64", "target/arm"),
        ("aarch64", _) => ("lib/aarch64-linux", "target/arm/linux"),
        _ => fail(&format!("the library is not made for {arch}")),
    };
    let here = env::var_os("CARGO_MANIFEST_DIR").expect("cargo names the crate's folder");
    let above = Path::new(&here).join("../..");
    if above.join("lib").is_dir() {
        above.join(packed)
    } else {
        above.join(made)
    }
}

fn fail(why: &str) -> ! {
    eprintln!("oakabut: {why}");
    eprintln!("oakabut: make the library with `arm/build`, or name the folder that holds liboakabut.a in OAKABUT_LIB_DIR");
    process::exit(1);
}
