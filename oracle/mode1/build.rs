//! Copies the source, with continue's place in the two for loops edited and nothing else.
include!("../bridge/locate.rs");
include!("../bridge/continues.rs");

fn main() {
    println!("cargo:rerun-if-changed=build.rs");
    write_copy(|name, text| if name == "compiler" { with_continues(&text, |_, new| new.into()) } else { text });
}
