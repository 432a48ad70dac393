// Part of three build scripts: where the source stands, and the text of one of its files.

const FILES: [&str; 7] = ["compiler", "errors", "expr", "instruction", "stmt", "token", "value"];

/// The folder of the source: GROTSKY_SRC, else ../shared/docs/src/src; a relative one is meant from the project's root.
fn source() -> std::path::PathBuf {
    println!("cargo:rerun-if-env-changed=GROTSKY_SRC");
    let root = std::path::Path::new(env!("CARGO_MANIFEST_DIR")).join("../..");
    let folder = root.join(std::env::var_os("GROTSKY_SRC").unwrap_or("../shared/docs/src/src".into()));
    let folder =
        folder.canonicalize().unwrap_or_else(|_| panic!("the source is not at {}: set GROTSKY_SRC", folder.display()));
    for name in FILES {
        println!("cargo:rerun-if-changed={}", folder.join(name).with_extension("rs").display());
    }
    folder
}

/// Writes modules.rs: one `pub mod` for each file of the source, from `folder`.
fn write_modules(folder: &std::path::Path) {
    let mut text = String::new();
    for name in FILES {
        let file = folder.join(name).with_extension("rs");
        text += &format!("#[allow(warnings)]\n#[path = {file:?}]\npub mod {name};\n");
    }
    std::fs::write(std::path::Path::new(&std::env::var("OUT_DIR").unwrap()).join("modules.rs"), text).unwrap();
}

/// Writes the files of the source as `edited(name, text)` has them, and modules.rs for the copy.
#[allow(dead_code)]
fn write_copy(edited: impl Fn(&str, String) -> String) {
    println!("cargo:rerun-if-changed=../bridge");
    let folder = source();
    let copy = std::path::PathBuf::from(std::env::var("OUT_DIR").unwrap()).join("source");
    std::fs::create_dir_all(&copy).unwrap();
    for name in FILES {
        let text = std::fs::read_to_string(folder.join(name).with_extension("rs")).unwrap();
        std::fs::write(copy.join(name).with_extension("rs"), edited(name, text)).unwrap();
    }
    write_modules(&copy);
}
