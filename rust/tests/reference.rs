//! The examples, the reference programs of document 01 among them, each held to its listings there: NAME.listing, and in mode 1 NAME.mode1.listing
//! where that stands beside it. bin/tree makes the tree, bin/listing lists the image.
use yengrazul::{lower, lower_in, Mode};

mod common;
use common::{root, through};

/// The listing of the image, or the refusal as a line.
fn told(tree: &[u8], mode: Mode) -> String {
    match lower_in(tree, mode) {
        Ok(image) => String::from_utf8(through("listing", image.as_bytes())).expect("a text"),
        Err(refusal) => format!("{refusal}\n"),
    }
}

#[test]
fn each_is_what_its_listing_says() {
    let (mut tried, mut apart) = (0, 0);
    for entry in std::fs::read_dir(root().join("examples")).expect("examples/") {
        let path = entry.expect("a file").path();
        if path.extension().is_some_and(|kind| kind == "tree") {
            let tree = through("tree", &std::fs::read(&path).expect("a text"));
            let listing = std::fs::read_to_string(path.with_extension("listing")).expect("a listing");
            let in_mode_1 = std::fs::read_to_string(path.with_extension("mode1.listing")).ok();
            apart += usize::from(in_mode_1.is_some());
            assert_eq!(told(&tree, Mode::Zero), listing, "{}", path.display());
            let differs = lower_in(&tree, Mode::One) != lower(&tree);
            assert_eq!(differs.then(|| told(&tree, Mode::One)), in_mode_1, "{} in mode 1", path.display());
            tried += 1;
        }
    }
    assert!(tried >= 24 && apart >= 4, "the examples have listings");
}

#[test]
fn program_1_by_its_bytes() {
    let due = [0x41, 0, 0x0A, 0xFF, 0xFF, 0, 0, 0, 0, 0, 0, 0, 1, 0x43, 0, 6, 0x14, 0, 0, 0, 0xFF, 0xFF];
    assert_eq!(lower(&[0x1E, 0, 0]).unwrap().into_bytes(), due);
}
