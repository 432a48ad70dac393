//! The mode: 0 where none is said, continue's place in 0 and 1, classes in 0 alone, and 21 for every other number.
use yengrazul::{lower, lower_in, Cause, Lowerer, Mode, Refusal};

/// `for 1; 1; io continue`: a literal for a condition, a builtin for an increment, and a continue as the body.
const CONTINUES: [u8; 45] = [
    0x01, 0, 8, 0x3F, 0xF0, 0, 0, 0, 0, 0, 0, // 0: number 1
    0x04, 0, 4, 0, 0, 0, 7, // 1: variable io
    0x17, 0, 2, 0, 8, // 2: continue
    0x14, 0, 10, 0, 9, 255, 255, 0, 0, 0, 1, 0, 2, // 3: for, no initializer, condition 0, increment 1, body 2
    0x1E, 0, 2, 0, 3, // 4: program
    0, 0, 0, 0, // not of the tree
];

fn tree() -> &'static [u8] {
    &CONTINUES[..41]
}

/// The offset of the continue's Jmp: instruction 3 behind LoadK, Test and Jmp.
fn offset(image: &[u8]) -> i16 {
    let at = 13 + 3 * 9 + 3;
    assert_eq!([image[at], image[at + 1]], [3, 0], "a Jmp with 0 as a");
    i16::from_be_bytes([image[at + 2], image[at + 3]])
}

#[test]
fn where_continue_goes() {
    let [zero, one] = [Mode::Zero, Mode::One].map(|mode| lower_in(tree(), mode).unwrap().into_bytes());
    assert_eq!([offset(&zero), offset(&one)], [-3, 1]);
    let differ: Vec<usize> = (0..zero.len()).filter(|at| zero[*at] != one[*at]).collect();
    assert_eq!((zero.len() == one.len(), differ), (true, vec![45, 46]));
}

#[test]
fn the_default_is_mode_0() {
    assert_eq!(Mode::default(), Mode::Zero);
    let due = lower_in(tree(), 0u64);
    assert_eq!(
        [lower(tree()), Lowerer::new().lower(tree()), lower_in(tree(), Mode::default())],
        [due.clone(), due.clone(), due]
    );
    assert_eq!(lower_in(tree(), 1u64), lower_in(tree(), Mode::One));
}

#[test]
fn any_other_number_is_refused_before_the_tree_is_looked_at() {
    let refusal = Refusal { cause: Cause::Mode, node: 0 };
    for mode in [2, 3, 256, 1 << 32, (1 << 32) + 1, 1 << 63, u64::MAX - 1, u64::MAX] {
        for bytes in [tree(), &[], &CONTINUES] {
            assert_eq!(lower_in(bytes, mode), Err(refusal), "mode {mode}");
        }
    }
    assert_eq!(refusal.to_string(), "refused 21 Mode: the mode must be 0 or 1");
}

/// An empty block, a class with no superclass and no method, and the program that has both.
const CLASS: [u8; 21] = [0x12, 0, 0, 0x1D, 0, 8, 0, 20, 0, 3, 255, 255, 0, 0, 0x1E, 0, 4, 0, 1, 0, 0];

#[test]
fn a_class_is_retired_in_mode_1() {
    assert!(lower(&CLASS).is_ok());
    let refusal = Refusal { cause: Cause::Retired, node: 1 };
    assert_eq!(lower_in(&CLASS, Mode::One), Err(refusal));
    assert_eq!(
        refusal.to_string(),
        "refused 27 Retired at node 1: classes are retired: mode 1 lowers none, and mode 0 lowers them as before"
    );
    // a broken node comes before it, and a mode that is none before both
    assert_eq!(lower_in(&CLASS[3..], Mode::One), Err(Refusal { cause: Cause::Shape, node: 1 }));
    assert_eq!(lower_in(&CLASS, 2u64), Err(Refusal { cause: Cause::Mode, node: 0 }));
}

#[test]
fn a_lowerer_keeps_its_mode_and_its_buffers() {
    let mut lowerer = Lowerer::new().mode(Mode::One);
    for _ in 0..2 {
        assert_eq!(lowerer.lower(tree()), lower_in(tree(), Mode::One));
    }
    assert_eq!(lowerer.mode(Mode::Zero).lower(tree()), lower(tree()));
}
