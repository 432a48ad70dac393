//! Links libyengrazul.a: `tools/prove.sh yengrazul_c` writes it to target/staticlib of the project; YENGRAZUL_LIB may name another folder.
use std::path::PathBuf;

fn main() {
    println!("cargo::rerun-if-changed=build.rs");
    println!("cargo::rerun-if-env-changed=YENGRAZUL_LIB");
    // asked when this runs: compiled in, it would be the folder of the checkout that first filled a shared target folder
    let here = PathBuf::from(std::env::var_os("CARGO_MANIFEST_DIR").expect("cargo names the folder"));
    let root = here.join("..");
    // a relative folder is meant from the project's root
    let folder = root.join(std::env::var_os("YENGRAZUL_LIB").unwrap_or("target/staticlib".into()));
    let archive = folder.join("libyengrazul.a");
    println!("cargo::rerun-if-changed={}", archive.display());
    println!("cargo::rustc-link-search=native={}", folder.display());
    println!("cargo::rustc-link-lib=static=yengrazul");
    if !archive.exists() {
        println!(
            "cargo::error={} is missing: run `tools/prove.sh yengrazul_c` in the project, or set YENGRAZUL_LIB to its folder",
            archive.display()
        );
    }
}
