//! Distances around one byte, forward and back, in every form that jumps.
use super::Case;
use crate::trees::build::*;

const A: Pair = (20, 7);

fn a() -> Node {
    variable(A)
}

fn code(n: usize) -> Vec<Node> {
    (0..n).map(|_| return_(7, None)).collect()
}

fn body(n: usize) -> Node {
    block(code(n))
}

/// A body of n returns with a jump in front and one behind.
fn between(n: usize) -> Node {
    block([vec![break_(1), continue_(2)], code(n), vec![continue_(3), break_(4)]].concat())
}

pub fn cases() -> Vec<Case> {
    let mut all = vec![];
    for n in (248..=262).chain(506..=514) {
        for (name, statement) in forms(n) {
            let tree = program(vec![block(vec![let_(A, Some(number(1.0))), statement])]);
            all.push(Case::tree(format!("{name} over {n}"), &tree, (0, 0)));
        }
    }
    all
}

/// n instructions of one expression without a register: minuses, and three for each logical.
fn wide(n: usize) -> Node {
    let minuses = |k| (0..k).fold(a(), |x, _| unary(2, 7, x));
    logical(2, 7, logical(1, 7, minuses(82), minuses(82)), minuses(n - 2 * 82 - 2 * 3))
}

fn forms(n: usize) -> Vec<(&'static str, Node)> {
    vec![
        ("while", while_(7, a(), between(n))),
        ("for", for_(7, Some(expression(a())), a(), unary(2, 7, a()), between(n))),
        ("for-in", for_in(7, a(), between(n), &[(21, 7)])),
        ("for-in of two", for_in(7, a(), between(n), &[(21, 7), (22, 7)])),
        ("if", if_(7, a(), code(n), vec![elif(a(), code(n))], code(n))),
        ("try body", try_(body(n), (21, 7), body(0))),
        ("catch", try_(body(0), (21, 7), body(n))),
        ("try", try_(body(n), (21, 7), body(n))),
        ("or", expression(logical(1, 7, a(), if n < 280 { wide(n) } else { a() }))),
    ]
}
