//! Links libspeldervacht.a from the folder that `SPELDERVACHT_LIB_DIR` names; or else from lib beside this
//! file, where an archive has it; or else from the repository's target/staticlib.

use std::path::PathBuf;

const LIBRARY: &str = "libspeldervacht.a";

fn main() {
    println!("cargo::rerun-if-changed=build.rs");
    println!("cargo::rerun-if-env-changed=SPELDERVACHT_LIB_DIR");
    let package = PathBuf::from(std::env::var_os("CARGO_MANIFEST_DIR").unwrap());
    let folder = match std::env::var_os("SPELDERVACHT_LIB_DIR") {
        Some(named) => package.join(named),
        None if package.join("lib").join(LIBRARY).is_file() => package.join("lib"),
        None => package.join("../../target/staticlib"),
    };
    let folder = folder.canonicalize().unwrap_or(folder);
    let library = folder.join(LIBRARY);
    println!("cargo::rerun-if-changed={}", library.display());
    if !library.is_file() {
        println!("cargo::error=there is no {LIBRARY} in {}", folder.display());
        println!("cargo::error=build the library, or set SPELDERVACHT_LIB_DIR to the absolute path of the folder that has it");
        return;
    }
    println!("cargo::rustc-link-search=native={}", folder.display());
    println!("cargo::rustc-link-lib=static=speldervacht");
}
