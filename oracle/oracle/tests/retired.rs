//! 27 Retired: by hand, against mode 0's answer on many trees, and what a tree without classes answers.
use files::tree::fields;
use oracle::judge::check;
use oracle::limits::{ask_in, cases, edited_shapes, zoo, Room, Work};
use oracle::modes::has_class;
use oracle::questions::{self, Question};
use oracle::trees::build::*;
use oracle::trees::order::post;

fn empty() -> Node {
    class((20, 7), None, vec![], vec![])
}

fn numbers(tree: &[u8], mode: u64) -> [u64; 4] {
    ask_in(mode, tree.to_vec(), Work::Exact, Room::Plenty).answer.numbers()
}

#[test]
fn places_by_hand() {
    let method = || function_statement((21, 7), &[], vec![empty()]);
    let deep = (0..130).fold(empty(), |x, _| block(vec![x]));
    for (tree, place) in [
        (program(vec![empty()]), 0),
        (program(vec![block(vec![]), empty(), empty()]), 1),
        (program(vec![class((20, 7), Some(variable((2, 7))), vec![], vec![])]), 1),
        (program(vec![class((20, 7), None, vec![method()], vec![method()])]), 0),
        (program(vec![expression(function(&[], vec![break_(7), empty()]))]), 1),
        (program(vec![deep]), 0),
    ] {
        let file = post(&tree);
        assert_eq!(numbers(&file, 1), [27, place, 0, 0], "{tree:?}");
        assert_ne!(numbers(&file, 0)[0], 27);
        // neither a work area nor an output is asked for
        assert_eq!(ask_in(1, file, Work::Words(0), Room::Bytes(0)).answer.numbers(), [27, place, 0, 0]);
    }
}

/// A class that nothing holds, one held twice, and a broken node below or above it.
#[test]
fn order_by_hand() {
    let one = [0x1D, 0, 8, 0, 20, 0, 7, 255, 255, 0, 0];
    let (block, broken) = ([0x12, 0, 0], [0x12, 0, 1, 0]);
    let end = |children: &[u8]| {
        [&[0x1E, 0, 2 * children.len() as u8][..], &children.iter().flat_map(|c| [0, *c]).collect::<Vec<_>>()].concat()
    };
    for (parts, zero, mode_1) in [
        (vec![&one[..], &end(&[])], [4, 0], [27, 0]),
        (vec![&one[..], &end(&[0, 0])], [4, 0], [27, 0]),
        (vec![&block[..], &one, &end(&[])], [4, 0], [27, 1]),
        (vec![&broken[..], &one, &end(&[0, 1])], [3, 0], [3, 0]),
        (vec![&one[..], &broken, &end(&[0, 1])], [3, 1], [3, 1]),
        (vec![&one[..], &end(&[1])], [3, 1], [3, 1]),
        (vec![&one[..], &[0x1E, 0]], [1, 1], [1, 1]),
        (vec![&one[..]], [3, 0], [3, 0]),
    ] {
        let tree = parts.concat();
        assert_eq!([numbers(&tree, 0)[..2].to_vec(), numbers(&tree, 1)[..2].to_vec()], [zero, mode_1], "{tree:02X?}");
    }
    let many = [one.repeat(32_768), end(&[])].concat();
    assert_eq!([numbers(&many, 0), numbers(&many, 1)], [[2, 32_768, 0, 0]; 2]);
}

/// In mode 1 a tree without classes answers as it did, which is as in mode 0; one with a class by 27 at the lowest, unless 1 to 3 refuse it.
#[test]
fn with_and_without_classes() {
    let (mut without, mut retired, mut held) = (0, [0; 30], 0);
    let of = |make: fn(u64, u64, u64) -> Question, n: u64| (0..n).map(move |k| make(31, k, k % 2));
    let asked = of(questions::random, 3000).chain(of(questions::damaged, 3000)).chain(of(questions::classes, 3000));
    let shapes = edited_shapes().into_iter().chain([post(&zoo())]);
    let fixed = cases().into_iter().map(|case| case.rule.expand()).chain(shapes);
    for tree in asked.map(|question| question.tree).chain(fixed) {
        let [zero, one] = [0, 1].map(|mode| numbers(&tree, mode));
        if !has_class(&tree) || (1..=3).contains(&zero[0]) {
            assert_eq!(zero, one);
            assert_eq!(check(&tree, 0, u64::MAX), check(&tree, 1, u64::MAX));
            without += u32::from(!has_class(&tree));
            held += u32::from(has_class(&tree));
        } else {
            let lowest = fields(&tree).unwrap().iter().position(|f| f.tag == 0x1D).unwrap();
            assert_eq!(one, [27, lowest as u64, 0, 0]);
            retired[zero[0] as usize] += 1;
        }
    }
    assert!(without > 5000 && held > 200, "{without} {held}");
    assert!([0, 4, 5, 9].iter().all(|n| retired[*n] > 20), "by mode 0's number {retired:?}");
}
