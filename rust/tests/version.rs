//! One version: the file VERSION, this crate, the C header and every command.
use std::path::{Path, PathBuf};
use std::process::Command;

fn root() -> PathBuf {
    Path::new(env!("CARGO_MANIFEST_DIR")).join("..")
}

fn text_of(path: &str) -> String {
    std::fs::read_to_string(root().join(path)).unwrap_or_else(|problem| panic!("{path}: {problem}"))
}

#[test]
fn of_the_crate_and_of_the_file() {
    assert_eq!(text_of("VERSION"), format!("{}\n", yengrazul::VERSION));
}

#[test]
fn of_the_header() {
    let header = text_of("include/yengrazul.h");
    let defined = |name: &str| {
        let line = header.lines().find_map(|line| line.strip_prefix(&format!("#define YENGRAZUL_VERSION{name} ")));
        line.unwrap_or_else(|| panic!("YENGRAZUL_VERSION{name} is defined")).trim_matches('"').to_string()
    };
    assert_eq!(defined(""), yengrazul::VERSION);
    assert_eq!(["_MAJOR", "_MINOR", "_PATCH"].map(defined).join("."), yengrazul::VERSION);
}

#[test]
fn of_every_command() {
    let mut asked = 0;
    for entry in std::fs::read_dir(root().join("bin")).expect("bin/") {
        let path = entry.expect("a file").path();
        let name = path.file_name().and_then(|name| name.to_str()).expect("a name");
        let told = Command::new(&path).arg("--version").output().expect("the command runs");
        assert!(told.status.success(), "{name} --version fails");
        assert_eq!(String::from_utf8_lossy(&told.stdout), format!("{name} (yengrazul) {}\n", yengrazul::VERSION));
        asked += 1;
    }
    assert!(asked >= 4, "lower, tree, listing and install");
}
