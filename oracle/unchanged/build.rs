//! Names the files of the source where they stand; nothing of them is copied or changed.
include!("../bridge/locate.rs");

fn main() {
    println!("cargo:rerun-if-changed=../bridge/locate.rs");
    write_modules(&source());
}
