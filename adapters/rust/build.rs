//! Says where the library of the session lies: LAPIN_LIBRARY is the shared object, or LAPIN_LIBRARY_DIR the folder of `liblapin.so`; else it is the
//! folder of this checkout's top.

use std::{env, path::PathBuf};

fn main() {
    for name in ["LAPIN_LIBRARY", "LAPIN_LIBRARY_DIR"] {
        println!("cargo:rerun-if-env-changed={name}");
    }
    let here = PathBuf::from(env::var_os("CARGO_MANIFEST_DIR").unwrap_or_default());
    let top = || here.ancestors().find(|it| it.join("crates.txt").exists()).unwrap_or(&here).to_owned();
    let file = env::var_os("LAPIN_LIBRARY").map(PathBuf::from);
    let folder = file.and_then(|it| it.parent().map(PathBuf::from)).or_else(|| env::var_os("LAPIN_LIBRARY_DIR").map(PathBuf::from));
    let folder = folder.unwrap_or_else(top);
    let folder = folder.canonicalize().unwrap_or(folder);
    println!("cargo:rustc-link-search=native={}", folder.display());
    println!("cargo:rustc-link-lib=dylib=lapin");
    println!("cargo:rustc-link-arg=-Wl,-rpath,{}", folder.display());
}
