//! Links the two proved archives that `tools/archives` makes.
//! HYDRA_ARCHIVES names another folder for them.

use std::env;
use std::path::PathBuf;

/// A site in memory and reduction; demands by the hour.
const ARCHIVES: [&str; 2] = ["hydra-desk", "hydra"];

fn main() {
    println!("cargo:rerun-if-env-changed=HYDRA_ARCHIVES");
    let root = PathBuf::from(env::var("CARGO_MANIFEST_DIR").expect("set by cargo"));
    let folder = match env::var_os("HYDRA_ARCHIVES") {
        Some(folder) => PathBuf::from(folder),
        None => root.join("../../target/lib"),
    };
    println!("cargo:rustc-link-search=native={}", folder.display());
    for name in ARCHIVES {
        let archive = folder.join(format!("lib{name}.a"));
        if !archive.exists() {
            println!(
                "cargo:warning={} is missing: make it with `make archives`",
                archive.display()
            );
        }
        println!("cargo:rustc-link-lib=static={name}");
        // A new archive is to be linked anew.
        println!("cargo:rerun-if-changed={}", archive.display());
    }
}
