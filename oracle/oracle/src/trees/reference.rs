//! The reference programs of 01, by their numbers.
use super::build::*;
use super::order::post;
use super::rule::{ifs_and_returns, Rule};
use files::NONE;

/// Names that no builtin has.
pub const F: u16 = 11;
pub const G: u16 = 12;
pub const X: u16 = 10;
const MARK: u16 = 7;

pub fn literal_statements(n: usize) -> Vec<Node> {
    (0..n).map(|_| expression(number(1.0))).collect()
}

fn of(statement: Node) -> Rule {
    Rule::plain(post(&program(vec![statement])))
}

fn while_one(body: Node) -> Rule {
    of(while_(MARK, number(1.0), body))
}

fn function_of_x(body: Node) -> Node {
    function_statement((F, MARK), &[(X, MARK)], vec![body])
}

fn literals_then_return(n: usize) -> Rule {
    let mut body = literal_statements(n);
    body.push(return_(MARK, Some(number(1.0))));
    Rule::plain(post(&program(body)))
}

/// A function that reads the for-in variable X.
fn reader_of_x() -> Node {
    function_statement((G, MARK), &[], vec![expression(variable((X, MARK)))])
}

/// Each line of 01's list, with a letter where a line has two programs.
pub fn programs() -> Vec<(&'static str, Rule)> {
    let minus = |left, right| of(expression(binary(8, MARK, number(left), number(right))));
    let for_x = |body| for_in(MARK, number(1.0), block(body), &[(X, MARK)]);
    vec![
        ("1", Rule::plain(vec![0x1E, 0, 0])),
        ("2", Rule::plain(vec![])),
        ("3", of(let_((X, MARK), Some(number(1.0))))),
        ("4", of(expression(binary(1, MARK, number(2.0), number(3.0))))),
        ("5", minus(3.0, 2.0)),
        ("6", minus(2.5, 2.0)),
        ("7", while_one(break_(MARK))),
        ("7b", while_one(continue_(MARK))),
        ("8", of(try_(block(vec![]), (X, MARK), block(vec![])))),
        ("9", of(function_of_x(expression(unary(2, MARK, variable((X, MARK))))))),
        ("10", of(function_of_x(expression(variable((X, MARK)))))),
        ("11", Rule::plain(post(&program(literal_statements(255))))),
        ("11b", Rule::plain(post(&program(literal_statements(256))))),
        ("12", literals_then_return(253)),
        ("12b", literals_then_return(254)),
        ("13", ifs_and_returns(10_921, 2)),
        ("13b", ifs_and_returns(10_921, 3)),
        ("14", of(break_(NONE))),
        ("15", Rule::plain(post(&program(vec![for_x(vec![]), reader_of_x()])))),
        ("15b", of(for_x(vec![reader_of_x()]))),
    ]
}
