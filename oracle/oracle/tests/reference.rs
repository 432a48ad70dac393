//! The reference programs of 01, with the listings that 01 gives.
use files::image::{Constant, Image};
use files::listing::line;
use oracle::answer::answer;
use oracle::trees::reference::{programs, F, X};

const ENOUGH: u64 = 1_000_000;

fn tree(name: &str) -> Vec<u8> {
    programs().into_iter().find(|(n, _)| *n == name).expect("a reference program").1.expand()
}

fn accepted(name: &str) -> Image {
    let (answer, image) = answer(&tree(name), 0, ENOUGH, ENOUGH);
    assert_eq!((answer.number, answer.place, answer.length), (0, 0, image.len() as u64), "program {name}");
    Image::from_bytes(&image).unwrap()
}

fn refused(name: &str, number: u8, place: u64) {
    let (answer, image) = answer(&tree(name), 0, ENOUGH, ENOUGH);
    assert_eq!((answer.number, answer.place, answer.length), (number, place, 0), "program {name}");
    assert!(image.is_empty());
}

/// The instructions of prototype k; its last Return is looked at and left out, as in 01.
fn code(image: &Image, k: usize) -> Vec<String> {
    let mut lines: Vec<String> = image.prototypes[k].instructions.iter().map(line).collect();
    assert_eq!(lines.pop().as_deref(), Some("Return 0 0 0"));
    lines
}

fn one(x: f64) -> Constant {
    Constant::Number(x.to_bits())
}

#[test]
fn program_1_by_its_bytes() {
    let due = [0x41, 0, 0x0A, 0xFF, 0xFF, 0, 0, 0, 0, 0, 0, 0, 1, 0x43, 0, 6, 0x14, 0, 0, 0, 0xFF, 0xFF];
    let (answer, image) = answer(&[0x1E, 0, 0], 0, 12_288 + 16, 22);
    assert_eq!(answer.numbers(), [0, 0, 22, 1]);
    assert_eq!(image, due);
}

#[test]
fn programs_2_10_11_12_13_14_15_refused() {
    refused("2", 1, 0);
    refused("10", 12, 2);
    refused("11b", 7, 510);
    refused("12b", 13, 509);
    refused("13b", 17, 2 + 2 * 10_921 + 3 + 1);
    refused("14", 11, 0);
    refused("15", 9, 3);
}

#[test]
fn program_3() {
    let image = accepted("3");
    assert_eq!(code(&image, 0), ["LoadK 0 0 1", "SetGlobal 0 0 0"]);
    assert_eq!(image.constants, [Constant::Text(X), one(1.0)]);
}

#[test]
fn program_4() {
    let image = accepted("4");
    assert_eq!(code(&image, 0), ["LoadK 0 0 0", "Addi 1 0 3"]);
    assert_eq!((image.constants.len(), image.prototypes[0].registers), (1, 2));
}

#[test]
fn programs_5_and_6() {
    let image = accepted("5");
    assert_eq!(code(&image, 0), ["LoadK 2 0 1", "LoadK 3 0 2", "Sub 4 2 3"]);
    assert_eq!(image.constants, [one(2.0), one(3.0), one(2.0)]);
    assert_eq!(image.prototypes[0].registers, 5);
    assert_eq!(code(&accepted("6"), 0), ["LoadK 0 0 0", "LoadK 1 0 1", "Sub 2 0 1"]);
}

#[test]
fn program_7() {
    let begin = ["LoadK 0 0 0", "Test 0 0 0", "Jmp 0 0 3"];
    assert_eq!(code(&accepted("7"), 0), [&begin[..], &["Jmp 0 0 2", "Jmp 0 255 252"]].concat());
    assert_eq!(code(&accepted("7b"), 0), [&begin[..], &["Jmp 0 255 253", "Jmp 0 255 252"]].concat());
}

#[test]
fn program_8() {
    let due = [
        "RegisterTryCatch 0 0 3",
        "DeregisterTryCatch 0 0 0",
        "Jmp 0 0 3",
        "GetExcept 0 0 0",
        "DeregisterTryCatch 0 0 0",
    ];
    assert_eq!(code(&accepted("8"), 0), due);
}

#[test]
fn program_9() {
    let image = accepted("9");
    assert_eq!(code(&image, 0), ["GetCurrentFunc 0 0 0", "Neg 1 1 0", "Return 1 3 0"]);
    assert_eq!(code(&image, 1), ["Closure 0 0 0", "SetGlobal 0 0 0"]);
    assert_eq!(image.constants, [Constant::Text(F)]);
}

#[test]
fn programs_11_12_13_accepted() {
    assert_eq!(accepted("11").prototypes[0].registers, 255);
    let twelve = accepted("12");
    assert_eq!(code(&twelve, 0).last().unwrap(), "Return 253 255 0");
    assert_eq!(accepted("13").prototypes[0].instructions.len(), 32_767);
}

#[test]
fn program_15_in_the_loop_is_a_capture() {
    let image = accepted("15b");
    assert_eq!(image.prototypes[0].captures.len(), 1);
    assert!(image.prototypes[0].captures[0].local);
    assert_eq!(code(&image, 0)[1], "GetUpval 1 0 0");
}
