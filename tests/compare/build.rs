//! Links the two archives that `tools/archives` makes, and the plain C of
//! `plain/`.

use std::env;
use std::path::{Path, PathBuf};
use std::process::Command;

fn main() {
    let root = PathBuf::from(env::var("CARGO_MANIFEST_DIR").expect("set by cargo"));
    let archives = root.join("../../target/lib");
    println!("cargo:rustc-link-search=native={}", archives.display());
    for name in ["hydra", "hydra-desk"] {
        println!("cargo:rustc-link-lib=static={name}");
        // A new archive is to be linked anew.
        let archive = archives.join(format!("lib{name}.a"));
        println!("cargo:rerun-if-changed={}", archive.display());
    }
    build_plain(&root);
}

/// Compiles the plain C, optimised as other C here, and makes an archive of it.
fn build_plain(root: &Path) {
    let out = PathBuf::from(env::var("OUT_DIR").expect("set by cargo"));
    let include = root.join("../../include");
    let options = ["-std=c11", "-O2", "-Wall", "-Wextra", "-Werror", "-c", "-I"];
    let mut ar = Command::new("ar");
    ar.arg("rcs").arg(out.join("libplain.a"));
    for name in ["box", "replay"] {
        let object = out.join(format!("{name}.o"));
        let source = root.join(format!("plain/{name}.c"));
        let mut gcc = Command::new("gcc");
        gcc.args(options).arg(&include).arg(&source);
        run(gcc.arg("-o").arg(&object));
        ar.arg(object);
    }
    run(&mut ar);
    println!("cargo:rustc-link-search=native={}", out.display());
    println!("cargo:rustc-link-lib=static=plain");
    for folder in [root.join("plain"), include] {
        println!("cargo:rerun-if-changed={}", folder.display());
    }
}

fn run(command: &mut Command) {
    let status = command.status().expect("gcc and ar are there");
    assert!(status.success(), "{command:?}");
}
