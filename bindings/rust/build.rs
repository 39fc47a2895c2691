//! Links `librig.a`: the one that `RIG_LIBRARY` names, or else the one that this repository builds.

use std::env;
use std::path::{Path, PathBuf};

/// Where `rt lib` in `crates/rig` leaves the library, from this folder.
const BUILT: &str = "../../crates/rig/out/librig.a";

fn main() {
    println!("cargo::rerun-if-env-changed=RIG_LIBRARY");
    println!("cargo::rerun-if-changed=build.rs");
    let library = library();
    println!("cargo::rerun-if-changed={}", library.display());
    match folder(&library) {
        Ok(folder) => {
            println!("cargo::rustc-link-search=native={}", folder.display());
            println!("cargo::rustc-link-lib=static=rig");
        }
        Err(message) => println!("cargo::error={message}"),
    }
}

fn library() -> PathBuf {
    let this = PathBuf::from(env::var_os("CARGO_MANIFEST_DIR").expect("cargo names the folder of the crate"));
    env::var_os("RIG_LIBRARY").map_or_else(|| this.join(BUILT), PathBuf::from)
}

/// The folder to search; the linker looks for the name `librig.a` in it.
fn folder(library: &Path) -> Result<&Path, String> {
    if library.file_name() != Some("librig.a".as_ref()) {
        return Err(format!("RIG_LIBRARY is {}, which is no path of a librig.a", library.display()));
    }
    if !library.is_file() {
        return Err(format!(
            "{} is missing: run `rt lib` in `crates/rig`, or name the library in RIG_LIBRARY (an absolute path)",
            library.display()
        ));
    }
    library.parent().ok_or_else(|| "librig.a has no folder".to_string())
}
