//! Images read back: the examples' listings made from the typed views are the judge's; what is no image is refused.
use std::path::{Path, PathBuf};
use std::process::Command;
use yengrazul::{line_and_column, lower_in, mend, walk, Capture, Cause, Constant, Coverage, Image, Mode};

mod common;
use common::{root, through};

fn word(word: Option<impl ToString>) -> String {
    word.map_or("none".into(), |word| word.to_string())
}

/// The judge's listing of an image, line by line.
fn listing(image: &Image) -> String {
    let mut text = String::new();
    for (k, p) in image.prototypes().enumerate() {
        text +=
            &format!("prototype {k}: name {}, {} parameters, {} registers\n", word(p.name), p.parameters, p.registers);
        for capture in p.captures() {
            text += &match capture {
                Capture::Register(index) => format!("  captures register {index}\n"),
                Capture::Capture(index) => format!("  captures capture {index}\n"),
            };
        }
        for (at, i) in p.instructions().enumerate() {
            text += &format!("  {at:5} {i}  mark {}\n", word(i.mark));
        }
    }
    for (k, constant) in image.constants().enumerate() {
        text += &match constant {
            Constant::Number(bits) => format!("constant {k}: number {} ({bits:016X})\n", f64::from_bits(bits)),
            Constant::Text(name) => format!("constant {k}: text {}\n", word(name)),
            Constant::Other(other) => format!("constant {k}: other {other}\n"),
        };
    }
    text
}

/// The judge, built where its own folder says.
fn judge() -> PathBuf {
    let mut cargo = Command::new("cargo");
    cargo.args(["build", "--offline", "--release", "--quiet", "-p", "oracle"]).current_dir(root().join("oracle"));
    assert!(cargo.status().expect("cargo runs").success(), "the judge is built");
    root().join("target/oracle/release/oracle")
}

/// What the judge lists.
fn judged(judge: &Path, image: &Path) -> String {
    let told = Command::new(judge).arg("show").arg(image).output().expect("the judge runs");
    String::from_utf8(told.stdout).expect("a text")
}

fn trees() -> Vec<PathBuf> {
    let all = std::fs::read_dir(root().join("examples")).expect("examples/");
    let mut all: Vec<PathBuf> = all.map(|entry| entry.expect("a file").path()).collect();
    all.retain(|path| path.extension().is_some_and(|kind| kind == "tree"));
    all
}

#[test]
fn lists_as_the_judge_does() {
    let place = std::env::temp_dir().join(format!("yengrazul-image-{}", std::process::id()));
    let (mut listed, judge) = (0, judge());
    for path in trees() {
        let tree = through("tree", &std::fs::read(&path).expect("a text"));
        for mode in [Mode::Zero, Mode::One] {
            let Ok(image) = lower_in(&tree, mode) else { continue };
            assert_eq!(Image::read(image.as_bytes()).as_ref(), Ok(&image), "{}", path.display());
            std::fs::write(&place, image.as_bytes()).expect("a file");
            assert_eq!(listing(&image), judged(&judge, &place), "{} in {mode:?}", path.display());
            listed += 1;
        }
    }
    let _ = std::fs::remove_file(place);
    assert!(listed >= 30, "{listed} images");
}

#[test]
fn instructions_have_their_prototype_and_index() {
    let tree = through("tree", &std::fs::read(root().join("examples/09-function.tree")).expect("a text"));
    let image = lower_in(&tree, Mode::Zero).expect("an image");
    let told: Vec<String> =
        image.instructions().map(|(k, at, i)| format!("{k} {at} {i} {}", i.mark.unwrap_or(65_535))).collect();
    assert_eq!(told[1], "0 1 Neg 1 1 0 10");
    assert_eq!(told.last().map(String::as_str), Some("1 2 Return 0 0 0 65535"));
    assert_eq!(told.len(), image.prototypes().map(|p| p.instructions().count()).sum::<usize>());
}

/// The same program in both widths: everything is the same but the marks, and a wide image says that it is one.
#[test]
fn wide_images() {
    // return @1:2, bare; a narrow tree has the line alone
    let wide = lower_in(&[0x18, 0, 4, 0, 1, 0, 2, 0x3E, 0, 2, 0, 0], Mode::Zero).expect("an image");
    let narrow = lower_in(&[0x18, 0, 2, 0, 1, 0x1E, 0, 2, 0, 0], Mode::Zero).expect("an image");
    assert_eq!((wide.is_wide(), narrow.is_wide()), (true, false));
    let marks = |image: &Image| image.instructions().map(|(_, _, i)| (i.to_string(), i.mark)).collect::<Vec<_>>();
    let due = |mark| vec![("Return 0 0 0".to_string(), Some(mark)), ("Return 0 0 0".to_string(), None)];
    assert_eq!((marks(&wide), marks(&narrow)), (due(0x0001_0002), due(1)));
    assert_eq!(line_and_column(0x0001_0002), (1, 2));
    assert_eq!(wide.as_bytes().len(), narrow.as_bytes().len() + 4);
    // 65,535 is a mark like any other in four bytes, and none in two
    let edge =
        |tree: &[u8]| lower_in(tree, Mode::Zero).expect("an image").instructions().next().expect("a Return").2.mark;
    assert_eq!(edge(&[0x18, 0, 4, 0, 0, 255, 255, 0x3E, 0, 2, 0, 0]), Some(65_535));
    assert_eq!(edge(&[0x18, 0, 4, 255, 255, 255, 255, 0x3E, 0, 2, 0, 0]), None);
    assert_eq!(edge(&[0x18, 0, 2, 255, 255, 0x1E, 0, 2, 0, 0]), None);
    // a payload of the wrong width does not fit, and neither does a program that is not last
    let refused = |tree: &[u8]| lower_in(tree, Mode::Zero).map_err(|refusal| (refusal.cause, refusal.node));
    assert_eq!(refused(&[0x16, 0, 2, 0, 5, 0x3E, 0, 2, 0, 0]), Err((Cause::Shape, 0)));
    assert_eq!(refused(&[0x3E, 0, 0, 0x1E, 0, 0]), Err((Cause::Shape, 0)));
}

/// An image of both widths is none, whichever comes first.
#[test]
fn mixed_images_are_refused() {
    let head = [0x41, 0, 10, 255, 255, 0, 0, 0, 0, 0, 0, 0, 2];
    let (narrow, wide) = ([0x43, 0, 6, 20, 0, 0, 0, 0, 1], [0x47, 0, 8, 20, 0, 0, 0, 0, 1, 0, 2]);
    let told =
        |parts: &[&[u8]]| Image::read(&parts.concat()).map(|image| image.is_wide()).map_err(|refusal| refusal.node);
    assert_eq!(told(&[&head, &narrow, &narrow]), Ok(false));
    assert_eq!(told(&[&head, &wide, &wide]), Ok(true));
    assert_eq!(told(&[&head, &narrow, &wide]), Err(2));
    assert_eq!(told(&[&head, &wide, &narrow]), Err(2));
}

/// A wide card is mended and walked as a narrow one: the mark of four bytes stays.
#[test]
fn wide_cards_are_mended_and_walked() {
    let card = [
        &[0x41, 0, 10, 255, 255, 0, 0, 0, 0, 0, 0, 0, 2][..],
        &[0x47, 0, 8, 3, 2, 0, 0, 0, 12, 0, 5], // a stray break
        &[0x47, 0, 8, 20, 0, 0, 0, 255, 255, 255, 255],
    ]
    .concat();
    assert!(Image::read(&card).is_err());
    let mended = mend(&card).expect("a mended card");
    let (found, image) = (&mended.replaced[0], &mended.image);
    assert_eq!((found.old.to_string(), found.old.mark), ("Jmp 2 0 0".to_string(), Some(0x000C_0005)));
    assert_eq!((image.is_wide(), &image.as_bytes()[20..24]), (true, &[0, 12, 0, 5][..]));
    let walked = walk(image, 0, &[], &[], 9).expect("a walk");
    assert_eq!((walked.steps, walked.index, walked.visited), (0, 0, vec![true, false]));
    assert_eq!(Coverage::new(image).marks_never(), [0x000C_0005]);
}

#[test]
fn what_is_no_image_is_refused() {
    let whole = lower_in(&[0x1E, 0, 0], Mode::Zero).expect("an image").into_bytes();
    let told = |bytes: &[u8]| Image::read(bytes).map_err(|refusal| (refusal.cause, refusal.node));
    assert!(told(&whole).is_ok());
    for cut in 0..whole.len() {
        let due = if cut == 13 { (Cause::ImageRule, 1) } else { (Cause::ImageFrame, u64::from(cut > 13)) };
        assert_eq!(told(&whole[..cut]), Err(due), "{cut} bytes");
    }
    for (at, value) in [(0, 0x40), (2, 9), (12, 0), (12, 2), (13, 0x47), (16, 21), (18, 1), (18, 255)] {
        let mut other = whole.clone();
        other[at] = value;
        assert!(Image::try_from(&other[..]).is_err(), "byte {at} is {value}");
    }
}
