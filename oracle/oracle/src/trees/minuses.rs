//! Numerals on the left of Minus within each other, in functions within each other, up to what registers, constants and prototypes allow:
//! what stands innermost is lowered up to 1,024 times, and each time its nodes are visited.
use super::build::*;
use super::costly::{ands, A};
use super::random::{self, Taste};
use super::values;
use crate::rng::Rng;

/// Up to seven levels in main, whose registers allow six, and up to five in each function within it.
pub fn any(rng: &mut Rng) -> Node {
    let mut x = innermost(rng);
    for _ in 0..rng.below(3) {
        let levels = rng.below(6);
        x = function(&[A], vec![expression(minuses(rng, levels, x))]);
    }
    let levels = *rng.pick(&[1, 2, 3, 4, 5, 6, 6, 6, 6, 7]);
    let x = minuses(rng, levels, x);
    program(vec![block(vec![let_(A, Some(number(1.0))), expression(x)])])
}

/// A left number is mostly small; what is between two levels takes no constant.
fn minuses(rng: &mut Rng, levels: usize, x: Node) -> Node {
    (0..levels).fold(x, |x, _| {
        let mark = values::mark(rng);
        let left = if rng.chance(30) { bits(values::number_bits(rng)) } else { number(rng.below(256) as f64) };
        let x = binary(8, mark, left, x);
        match rng.below(30) {
            0 => unary(2, mark, x),
            1 => logical(1, mark, x, variable(A)),
            2 => binary(1, mark, x, number(rng.below(257) as f64)),
            _ => x,
        }
    })
}

fn innermost(rng: &mut Rng) -> Node {
    let mark = values::mark(rng);
    let leaves = *rng.pick(&[1, 3, 20, 120, 120]);
    match rng.below(12) {
        0..=2 => ands(A, leaves),
        3 => (0..leaves.min(20)).fold(variable(A), |x, _| unary(1, mark, x)),
        4 => binary(1, mark, variable(A), number(rng.below(257) as f64)),
        5 => number(0.5),
        6 => call(variable(A), mark, vec![]),
        7 => function(&[], every_child(mark)),
        8 => {
            let taste =
                Taste { size: rng.range(1, 20), deepest: 6, mischief: 0, stuffing: 0, loops: false, classes: true };
            function(&[], random::program(rng, taste).children().cloned().collect())
        }
        _ => variable(A),
    }
}

/// The children that no visitor of the source is called for, or another one than their parent's list would have: elifs, methods, a
/// superclass, an initializer; and absent ones.
fn every_child(mark: u16) -> Vec<Node> {
    let a = || variable(A);
    let method = |name| function_statement((name, mark), &[], vec![return_(mark, None)]);
    vec![
        if_(mark, a(), vec![], vec![elif(a(), vec![]), elif(a(), vec![return_(mark, None)])], vec![]),
        for_(mark, Some(let_((30, mark), None)), a(), a(), block(vec![])),
        for_(mark, None, a(), a(), block(vec![])),
        class((31, mark), Some(a()), vec![method(32)], vec![method(33)]),
        class((34, mark), None, vec![], vec![]),
    ]
}
