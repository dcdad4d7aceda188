//! Links the static library, from `lib/` of the repository or from the folder that `FULLERCORAL_LIB_DIR` names.
use std::env;
use std::path::{Path, PathBuf};

fn main() {
    println!("cargo::rerun-if-env-changed=FULLERCORAL_LIB_DIR");
    let target = ["CARGO_CFG_TARGET_OS", "CARGO_CFG_TARGET_ARCH"].map(env::var);
    if target != [Ok("linux".to_owned()), Ok("x86_64".to_owned())] {
        println!("cargo::error=the library is built only for Linux on x86-64");
    }
    let folder = env::var_os("FULLERCORAL_LIB_DIR").map_or_else(shipped, PathBuf::from);
    let archive = folder.join("libfullercoral.a");
    println!("cargo::rerun-if-changed={}", archive.display());
    if !archive.is_file() {
        let archive = archive.display();
        println!("cargo::error={archive} is missing: set FULLERCORAL_LIB_DIR to its folder");
    }
    println!("cargo::rustc-link-search=native={}", folder.display());
    println!("cargo::rustc-link-lib=static=fullercoral");
}

// The repository's folder with the library.
fn shipped() -> PathBuf {
    let here = env::var_os("CARGO_MANIFEST_DIR").unwrap_or_default();
    Path::new(&here).join("../../lib")
}
