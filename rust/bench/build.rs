//! Compiles the plain engine in C, bench/plain.c of the repository, into an archive of its own.

use std::env;
use std::path::PathBuf;
use std::process::{self, Command};

/// How it is compiled, behind the compiler's name.
const FLAGS: &str = "-std=c11 -O3 -Wall -Wextra -Werror";

fn main() {
    let folder = |name: &str| PathBuf::from(env::var_os(name).expect("cargo names the folders"));
    let root = folder("CARGO_MANIFEST_DIR").join("../..");
    let (object, archive) = (folder("OUT_DIR").join("plain.o"), folder("OUT_DIR").join("libplain_c.a"));
    for file in ["bench/plain.c", "bench/plain.h", "include/oakabut.h"] {
        println!("cargo:rerun-if-changed={}", root.join(file).display());
    }
    println!("cargo:rerun-if-env-changed=CC");

    let compiler = env::var("CC").unwrap_or("gcc".to_string());
    let mut compile = Command::new(&compiler);
    compile.args(FLAGS.split(' ')).arg("-I").arg(root.join("include")).arg("-c").arg(root.join("bench/plain.c"));
    run(compile.arg("-o").arg(&object));
    run(Command::new("ar").arg("rcs").arg(&archive).arg(&object));
    println!("cargo:rustc-link-search=native={}", folder("OUT_DIR").display());
    println!("cargo:rustc-link-lib=static=plain_c");
    println!("cargo:rustc-env=PLAIN_C_BY={compiler} {FLAGS}");
}

fn run(command: &mut Command) {
    if !matches!(command.status(), Ok(status) if status.success()) {
        eprintln!("bench: failed: {command:?}");
        process::exit(1);
    }
}
