//! Visits (document 02, E6): of each program by its text, in both modes.
use yengrazul::{Lowerer, Mode};

mod common;
use common::through;

/// The program's statements, and its visits; x is a global.
const DUE: [(&str, u64); 9] = [
    ("expression\n    binary +\n      number 2\n      number 3", 2),
    ("expression\n    binary -\n      number 3\n      number 2", 4),
    ("expression\n    binary -\n      variable x\n      number 3", 3),
    ("expression\n    binary +\n      variable x\n      number 256", 3),
    ("expression\n    binary -\n      number 3\n      binary +\n        variable x\n        number 3", 6),
    ("expression\n    binary -\n      number 3\n      binary -\n        number 3\n        variable x", 10),
    ("expression\n    binary -\n      number 2.5\n      number 2", 3),
    ("expression\n    binary -\n      number -0\n      variable x", 4),
    ("expression\n    variable x", 1),
];

#[test]
fn each_program_has_its_visits() {
    for (text, due) in DUE {
        let text = format!("program\n  let x\n    number 1\n  {text}\n");
        let tree = through("tree", text.as_bytes());
        for mode in [Mode::Zero, Mode::One] {
            let mut lowerer = Lowerer::new().mode(mode);
            lowerer.lower(&tree).unwrap_or_else(|refusal| panic!("{text}{refusal}"));
            // the program, the let with its number, the expression statement
            assert_eq!(lowerer.visits(), 1 + 2 + 1 + due, "{text}");
        }
    }
}

#[test]
fn a_refusal_has_none() {
    let mut lowerer = Lowerer::new();
    lowerer.lower(&[0x1E, 0, 0]).unwrap();
    assert_eq!(lowerer.visits(), 1);
    lowerer.lower(&[0x16, 0, 2, 0, 5, 0x1E, 0, 2, 0, 0]).unwrap_err();
    assert_eq!(lowerer.visits(), 0);
}
