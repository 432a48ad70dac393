//! Links libyengrazul.a, where it stands in the folder of YENGRAZUL_LIB.
use std::path::Path;

fn main() {
    println!("cargo:rerun-if-changed=build.rs");
    println!("cargo:rerun-if-env-changed=YENGRAZUL_LIB");
    println!("cargo:rustc-check-cfg=cfg(has_library)");
    let Some(folder) = std::env::var_os("YENGRAZUL_LIB") else { return };
    // a relative folder is meant from the project's root
    let folder = Path::new(env!("CARGO_MANIFEST_DIR")).join("../..").join(folder);
    let archive = folder.join("libyengrazul.a");
    println!("cargo:rerun-if-changed={}", archive.display());
    println!("cargo:rustc-link-search=native={}", folder.display());
    if archive.exists() {
        println!("cargo:rustc-cfg=has_library");
        println!("cargo:rustc-link-lib=static=yengrazul");
    }
}
