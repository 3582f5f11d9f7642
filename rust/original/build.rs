//! Finds the shared folder, which holds the original's files.

use std::path::{Path, PathBuf};
use std::{env, fs, process};

/// The name of the shared folder's copy of the traits module.
const TRAITS: &str = "src--src--types--computation--traits--mod.rs.txt";

fn main() {
    println!("cargo:rerun-if-env-changed=SHARED_DIR");
    println!("cargo:rerun-if-changed=src/types/computation/traits/implicit_functions.rs");
    let crate_dir = PathBuf::from(env::var("CARGO_MANIFEST_DIR").unwrap());
    let folder = match env::var("SHARED_DIR") {
        Ok(named) => PathBuf::from(named),
        Err(_) => crate_dir.join("../../../shared"),
    };
    let shared = match folder.canonicalize() {
        Ok(found) if found.join(TRAITS).is_file() => found,
        _ => missing(&folder),
    };
    println!("cargo:rerun-if-changed={}", shared.display());
    println!("cargo:rustc-env=SHARED_DIR={}", shared.display());
    lay_out_traits(&crate_dir, &shared);
}

/// The traits module names a submodule by `mod`, which the compiler looks for
/// beside it. So it is laid out in the build folder, with the stub beside it.
fn lay_out_traits(crate_dir: &Path, shared: &Path) {
    let folder = PathBuf::from(env::var("OUT_DIR").unwrap()).join("traits");
    fs::create_dir_all(&folder).unwrap();
    fs::write(
        folder.join("mod.rs"),
        fs::read(shared.join(TRAITS)).unwrap(),
    )
    .unwrap();
    let stub = crate_dir.join("src/types/computation/traits/implicit_functions.rs");
    fs::write(
        folder.join("implicit_functions.rs"),
        fs::read(stub).unwrap(),
    )
    .unwrap();
}

fn missing(folder: &Path) -> ! {
    eprintln!(
        "the original's files are not at {}: put the shared folder beside the repository, or name it in SHARED_DIR",
        folder.display()
    );
    process::exit(1)
}
