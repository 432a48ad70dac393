//! 15 Prototypes and 16 Nesting.
use super::{Case, Due};
use crate::trees::build::*;
use crate::trees::reference::literal_statements;

/// n functions within each other, the innermost with this body and these parameters.
fn nested(n: usize, params: &[Pair], body: Vec<Node>) -> Node {
    let innermost = function(params, body);
    program(vec![expression((1..n).fold(innermost, |f, _| function(&[], vec![expression(f)])))])
}

fn parameters(n: u16) -> Vec<Pair> {
    (0..n).map(|k| (100 + k, k)).collect()
}

fn functions(n: usize) -> Vec<Node> {
    (0..n).map(|_| expression(function(&[], vec![]))).collect()
}

pub fn cases() -> Vec<Case> {
    let mut all = open_functions();
    all.extend(finished());
    all
}

/// Main is the first of eight.
fn open_functions() -> Vec<Case> {
    let mut all: Vec<Case> = [(6, (0, 0)), (7, (0, 0)), (8, (16, 0)), (20, (16, 2 * 12))]
        .into_iter()
        .map(|(n, due): (usize, Due)| Case::tree(format!("{n} functions within main"), &nested(n, &[], vec![]), due))
        .collect();
    let statement = |n| {
        let innermost = function_statement((50, 7), &[], vec![]);
        program(vec![(1..n).fold(innermost, |f, _| function_statement((50, 7), &[], vec![f]))])
    };
    all.push(Case::tree("7 function statements within main", &statement(7), (0, 0)));
    all.push(Case::tree("8 function statements within main", &statement(8), (16, 0)));
    let method = |n| {
        let f = |body| function_statement((50, 7), &[], body);
        let innermost = class((51, 7), None, vec![f(vec![])], vec![]);
        program(vec![(1..n).fold(innermost, |c, _| class((51, 7), None, vec![], vec![f(vec![c])]))])
    };
    all.push(Case::tree("7 methods within main", &method(7), (0, 0)));
    all.push(Case::tree("8 methods within main", &method(8), (16, 0)));
    all.push(Case::tree("16 before 7 of its own registers", &nested(8, &parameters(255), vec![]), (16, 0)));
    let full = nested(7, &parameters(254), vec![expression(function(&[], vec![]))]);
    all.push(Case::tree("7 of the result before 16", &full, (7, 0)));
    all.push(Case::tree("the body is not lowered", &nested(8, &[], vec![break_(7)]), (16, 1)));
    all.push(Case::tree(
        "what stands before it is",
        &nested(7, &[], vec![break_(7), expression(function(&[], vec![]))]),
        (11, 0),
    ));
    all
}

/// Main is a prototype too. A function of 128 functions (nodes 0 to 257), then more of them.
fn finished() -> Vec<Case> {
    let with = |n: usize| {
        let mut body = vec![expression(function(&[], functions(128)))];
        body.extend(functions(n));
        body
    };
    // a numeral (node 0) minus a function of n functions, which is lowered twice
    let doubled = |n: usize| {
        let inner = function(&[], functions(n));
        program(vec![expression(binary(8, 7, number(3.0), inner))])
    };
    let mut then_literal = with(128);
    then_literal.extend(literal_statements(200));
    vec![
        Case::tree("255 functions and main", &program(functions(255)), (0, 0)),
        Case::tree("255 functions in two levels", &program(with(126)), (0, 0)),
        Case::tree("256 functions and main", &program(with(127)), (15, 258 + 2 * 127)),
        Case::tree("257 functions", &program(with(128)), (15, 258 + 2 * 127)),
        Case::tree("15 before 7", &program(then_literal), (15, 258 + 2 * 127)),
        Case::tree("254 prototypes in two passes, and main", &doubled(126), (0, 0)),
        Case::tree("256 prototypes in two passes, and main", &doubled(127), (15, 2 * 127 + 4)),
        Case::tree("258 prototypes in two passes", &doubled(128), (15, 1 + 2 * 127)),
    ]
}
