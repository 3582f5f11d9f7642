//! Where the engine's archive is: in the folder that JISAMPODE_LIB_DIR names, or
//! where `tools/archive` writes it.

use std::env;
use std::path::PathBuf;

fn main() {
    println!("cargo:rerun-if-env-changed=JISAMPODE_LIB_DIR");
    let folder = match env::var_os("JISAMPODE_LIB_DIR") {
        Some(folder) => PathBuf::from(folder),
        None => PathBuf::from(
            env::var_os("CARGO_MANIFEST_DIR").expect("cargo names the crate's folder"),
        )
        .join("../../target/staticlib"),
    };
    let archive = folder.join("libjisampode.a");
    if !archive.exists() {
        println!(
            "cargo:warning=no {}: run `make`, or name its folder by JISAMPODE_LIB_DIR",
            archive.display()
        );
    }
    println!("cargo:rustc-link-search=native={}", folder.display());
    println!("cargo:rustc-link-lib=static=jisampode");
    println!("cargo:rerun-if-changed={}", archive.display());
}
