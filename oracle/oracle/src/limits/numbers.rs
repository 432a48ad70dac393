//! The small-number test: every number of interest on either side of Plus and Minus.
use super::Case;
use crate::trees::build::*;
use crate::trees::values::NUMBERS;

pub fn cases() -> Vec<Case> {
    let mut all = vec![];
    let small = (0..=257).map(|n| f64::from(n).to_bits());
    for value in NUMBERS.into_iter().chain(small) {
        for (name, op, left, right) in [
            ("on the right of Plus", 1, text(9), bits(value)),
            ("on the left of Minus", 8, bits(value), text(9)),
            ("on both sides of Plus", 1, bits(value), bits(value)),
            ("on both sides of Minus", 8, bits(value), bits(value)),
            ("on the right of Minus", 8, text(9), bits(value)),
            ("on the right of Star", 11, text(9), bits(value)),
        ] {
            let tree = program(vec![expression(binary(op, 7, left, right))]);
            all.push(Case::tree(format!("{value:016X} {name}"), &tree, (0, 0)));
        }
    }
    all
}
