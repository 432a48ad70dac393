//! 17 Long: 32,767 instructions with the last Return.
use super::Case;
use crate::trees::build::*;
use crate::trees::rule::{bare_returns, ifs_and_returns};

const A: Pair = (20, 7);

fn a() -> Node {
    variable(A)
}

/// Empty ifs on a: three instructions and two nodes each.
fn ifs(n: usize) -> Vec<Node> {
    (0..n).map(|_| if_(7, a(), vec![], vec![], vec![])).collect()
}

fn returns(n: usize) -> Vec<Node> {
    (0..n).map(|_| return_(7, None)).collect()
}

fn let_a() -> Node {
    let_(A, Some(number(1.0)))
}

/// One LoadK, then code, in a block of main.
fn in_block(code: Vec<Node>) -> Node {
    program(vec![block([vec![let_a()], code].concat())])
}

/// The same in a function expression, whose node is the third from the end.
fn in_function(code: Vec<Node>) -> Node {
    program(vec![expression(function(&[], [vec![let_a()], code].concat()))])
}

pub fn cases() -> Vec<Case> {
    let mut all = lengths();
    all.extend(loops());
    all.extend(order());
    all
}

fn lengths() -> Vec<Case> {
    let mut all = vec![
        Case::file("32,766 returns", bare_returns(32_766), Some((0, 0))),
        Case::file("32,767 returns", bare_returns(32_767), Some((17, 32_767))),
    ];
    for (n, over) in [(0, false), (1, false), (2, false), (3, true), (4, true), (200, true)] {
        let node = 2 + 2 * 10_921 + n + 1;
        let due = if over { (17, node) } else { (0, 0) };
        all.push(Case::file(format!("10,921 ifs and {n} returns"), ifs_and_returns(10_921, n), Some(due)));
        let body = [ifs(10_921), returns(n)].concat();
        let due = if over { (17, 2 + 2 * 10_921 + n) } else { (0, 0) };
        all.push(Case::tree(format!("function of 10,921 ifs and {n} returns"), &in_function(body), due));
    }
    all
}

/// A loop whose way back is n, n + 1, ..: all the loops that are too long are 17, also one of exactly 32,768.
fn loops() -> Vec<Case> {
    let mut all = vec![];
    for n in [32_759, 32_761, 32_762, 32_763, 32_764, 32_765, 32_766, 32_767] {
        let body = || block([ifs(n / 3), returns(n % 3)].concat());
        let size = in_block(vec![while_(7, a(), body())]).size();
        // LoadK, Test, Jmp, the body, Jmp and the last Return
        let due = if n + 5 > 32_767 { (17, size - 1) } else { (0, 0) };
        all.push(Case::tree(format!("while of {n}"), &in_block(vec![while_(7, a(), body())]), due));
        let for_loop = in_block(vec![for_(7, None, a(), a(), body())]);
        let due = if n + 5 > 32_767 { (17, for_loop.size() - 1) } else { (0, 0) };
        all.push(Case::tree(format!("for of {n}"), &for_loop, due));
        let for_in_loop = in_block(vec![for_in(7, a(), body(), &[(21, 7)])]);
        // two LoadK, Length, Lt, Test, Jmp, GetIterk, the body, Addi, Jmp and the last Return
        let due = if n + 10 > 32_767 { (17, for_in_loop.size() - 1) } else { (0, 0) };
        all.push(Case::tree(format!("for-in of {n}"), &for_in_loop, due));
    }
    all
}

/// 7 to 14 and 16 within a body that is too long come first; then 17, then 15.
fn order() -> Vec<Case> {
    let long = || ifs(10_930);
    let more = |statement: Node| in_block([long(), vec![statement]].concat());
    let functions = |n| (0..n).map(|_| expression(function(&[], vec![]))).collect::<Vec<_>>();
    // a function of 128 functions, 127 more, then the 257th prototype, which is too long
    let mut full = vec![expression(function(&[], functions(128)))];
    full.extend(functions(127));
    full.push(expression(function(&[], [vec![let_a()], long()].concat())));
    let full = program(full);
    let before = 2 + 2 * 10_930;
    vec![
        Case::tree("9 within a long body", &more(expression(variable((30, 7)))), (9, before)),
        Case::tree("11 within a long body", &more(break_(7)), (11, before)),
        Case::tree("17 before 15", &full, (17, full.size() - 3)),
    ]
}
