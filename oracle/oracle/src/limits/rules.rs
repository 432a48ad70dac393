//! 3 Shape, 4 Tree and 5 Depth.
use super::{Case, Due, Room, Work};
use crate::trees::build::*;
use crate::trees::rule::Rule;
use files::tree::push_field;
use files::NONE;

type Row<'r> = (u8, &'r [u16]);

const ONE: Row = (0x01, &[0x3FF0, 0, 0, 0]);

fn rows(name: impl Into<String>, rows: &[Row], due: Due) -> Case {
    let mut file = vec![];
    for (tag, words) in rows {
        let payload: Vec<u8> = words.iter().flat_map(|w| w.to_be_bytes()).collect();
        push_field(&mut file, *tag, &payload);
    }
    Case::file(name, Rule::plain(file), Some(due))
}

pub fn cases() -> Vec<Case> {
    let mut all = vec![];
    all.extend(operators());
    all.extend(names());
    all.extend(children());
    all.extend(roles());
    all.extend(counts());
    all.extend(programs());
    all.extend(trees());
    all.extend(depths());
    all
}

fn operators() -> Vec<Case> {
    let mut all = vec![];
    for (tag, last) in [(0x05, 2), (0x06, 12), (0x07, 2)] {
        for op in [0, 1, last, last + 1, NONE] {
            let due = if (1..=last).contains(&op) { (0, 0) } else { (3, if tag == 5 { 1 } else { 2 }) };
            let name = format!("tag {tag:02X} op {op}");
            all.push(match tag {
                5 => rows(name, &[ONE, (5, &[op, 0, 0]), (0x10, &[1]), (0x1E, &[2])], due),
                _ => rows(name, &[ONE, ONE, (tag, &[op, 0, 0, 1]), (0x10, &[2]), (0x1E, &[3])], due),
            });
        }
    }
    all
}

/// 65,535 is no name but in a text; 65,534 is one, and every mark is lawful.
fn names() -> Vec<Case> {
    let mut all = vec![];
    for (n, m, lawful) in [(NONE, 0, false), (65_534, NONE, true), (9, 0, true)] {
        let mut add = |what: &str, list: &[Row], node: usize| {
            let due = if lawful { (0, 0) } else { (3, node) };
            all.push(rows(format!("name {n} in {what}"), list, due));
        };
        add("let", &[(0x11, &[n, m]), (0x1E, &[0])], 0);
        add("variable", &[(0x11, &[65_534, m]), (0x11, &[9, m]), (0x04, &[n, m]), (0x10, &[2]), (0x1E, &[0, 1, 3])], 2);
        add("function's parameter", &[(0x09, &[1, n, m]), (0x10, &[0]), (0x1E, &[1])], 0);
        add("for-in", &[ONE, (0x12, &[]), (0x15, &[m, 0, 1, n, m]), (0x1E, &[2])], 2);
        add("for-in's second pair", &[ONE, (0x12, &[]), (0x15, &[m, 0, 1, 10, m, n, m]), (0x1E, &[2])], 2);
        add("try", &[(0x12, &[]), (0x12, &[]), (0x1B, &[0, n, m, 1]), (0x1E, &[2])], 2);
        add("function statement", &[(0x1C, &[n, m, 0]), (0x1E, &[0])], 0);
        add("function statement's parameter", &[(0x1C, &[10, m, 2, 11, m, n, m]), (0x1E, &[0])], 0);
        add("class", &[(0x1D, &[n, m, NONE, 0]), (0x1E, &[0])], 0);
    }
    all.push(rows("the empty text", &[(0x02, &[NONE]), (0x10, &[0]), (0x1E, &[1])], (0, 0)));
    all.push(rows("another literal 65,535", &[(0x03, &[NONE]), (0x10, &[0]), (0x1E, &[1])], (0, 0)));
    all
}

/// A child that is the node itself, above it, far above it, or absent.
fn children() -> Vec<Case> {
    let mut all = vec![];
    for (child, what) in [(1, "itself"), (2, "the next"), (3, "the last"), (4, "beyond"), (NONE, "absent")] {
        all.push(rows(format!("unary of {what}"), &[ONE, (5, &[1, 0, child]), (0x10, &[1]), (0x1E, &[2])], (3, 1)));
        all.push(rows(format!("let to {what}"), &[ONE, (0x11, &[10, 0, child]), (0x10, &[0]), (0x1E, &[1])], (3, 1)));
    }
    for at in 1..5 {
        let mut payload = [7, NONE, 0, 1, 2];
        payload[at] = NONE;
        let due = if at == 1 { (0, 0) } else { (3, 3) };
        all.push(rows(
            format!("for with child {at} absent"),
            &[ONE, ONE, (0x12, &[]), (0x14, &payload), (0x1E, &[3])],
            due,
        ));
    }
    all.push(rows("class without superclass", &[(0x1D, &[10, 0, NONE, 0]), (0x1E, &[0])], (0, 0)));
    all.push(rows("class with an absent method", &[(0x1D, &[10, 0, NONE, 1, NONE]), (0x1E, &[0])], (3, 0)));
    all
}

fn roles() -> Vec<Case> {
    let block: Row = (0x12, &[]);
    vec![
        rows("an expression as statement", &[ONE, (0x1E, &[0])], (3, 1)),
        rows("a statement as expression", &[block, (0x10, &[0]), (0x1E, &[1])], (3, 1)),
        rows("an elif as statement", &[ONE, (0x1A, &[0]), (0x1E, &[1])], (3, 2)),
        rows("a statement as elif", &[ONE, block, (0x19, &[0, 0, 0, 1, 1]), (0x1E, &[2])], (3, 2)),
        rows("an elif under if", &[ONE, ONE, (0x1A, &[1]), (0x19, &[0, 0, 0, 1, 2]), (0x1E, &[3])], (0, 0)),
        rows("an elif as else", &[ONE, ONE, (0x1A, &[1]), (0x19, &[0, 0, 0, 0, 2]), (0x1E, &[3])], (3, 3)),
        rows("a literal as superclass", &[ONE, (0x1D, &[10, 0, 0, 0]), (0x1E, &[1])], (3, 1)),
        rows("a variable as superclass", &[(0x04, &[1, 0]), (0x1D, &[10, 0, 0, 0]), (0x1E, &[1])], (0, 0)),
        rows("a let as method", &[(0x11, &[10, 0]), (0x1D, &[10, 0, NONE, 1, 0]), (0x1E, &[1])], (3, 1)),
        rows("a function expression as method", &[(0x09, &[0]), (0x1D, &[10, 0, NONE, 1, 0]), (0x1E, &[1])], (3, 1)),
        rows("a block as static method", &[block, (0x1D, &[10, 0, NONE, 0, 0]), (0x1E, &[1])], (3, 1)),
        rows("a block as initializer", &[block, ONE, ONE, block, (0x14, &[0, 0, 1, 2, 3]), (0x1E, &[4])], (3, 4)),
        rows(
            "a return as initializer",
            &[(0x18, &[0]), ONE, ONE, block, (0x14, &[0, 0, 1, 2, 3]), (0x1E, &[4])],
            (3, 4),
        ),
        rows(
            "a let as initializer",
            &[(0x11, &[10, 0]), ONE, ONE, block, (0x14, &[0, 0, 1, 2, 3]), (0x1E, &[4])],
            (0, 0),
        ),
        rows("a program as statement", &[(0x1E, &[]), (0x1E, &[0])], (3, 0)),
    ]
}

fn counts() -> Vec<Case> {
    let block: Row = (0x12, &[]);
    vec![
        rows("for-in without a pair", &[ONE, block, (0x15, &[0, 0, 1]), (0x1E, &[2])], (3, 2)),
        rows("for-in with half a pair", &[ONE, block, (0x15, &[0, 0, 1, 10]), (0x1E, &[2])], (3, 2)),
        rows("for-in with a pair and a half", &[ONE, block, (0x15, &[0, 0, 1, 10, 0, 11]), (0x1E, &[2])], (3, 2)),
        rows("function that lacks a parameter", &[(0x09, &[1]), (0x10, &[0]), (0x1E, &[1])], (3, 0)),
        rows("function of 65,535 parameters", &[(0x09, &[NONE]), (0x10, &[0]), (0x1E, &[1])], (3, 0)),
        rows("function without a count", &[(0x09, &[]), (0x10, &[0]), (0x1E, &[1])], (3, 0)),
        rows("function statement that lacks a mark", &[(0x1C, &[10, 0, 1, 11]), (0x1E, &[0])], (3, 0)),
        rows("if with too large a count", &[ONE, block, (0x19, &[0, 0, 2, 1, 0]), (0x1E, &[2])], (3, 2)),
        rows("if without a second count", &[ONE, block, (0x19, &[0, 0, 1, 1]), (0x1E, &[2])], (3, 2)),
        rows("if with too many elifs", &[ONE, (0x19, &[0, 0, 0, 1]), (0x1E, &[1])], (3, 1)),
        rows(
            "class with too large a count",
            &[(0x1C, &[10, 0, 0]), (0x1D, &[10, 0, NONE, 2, 0]), (0x1E, &[1])],
            (3, 1),
        ),
        rows("let with two initializers", &[ONE, ONE, (0x11, &[10, 0, 0, 1]), (0x1E, &[2])], (3, 2)),
        rows("return with two values", &[ONE, ONE, (0x18, &[0, 0, 1]), (0x1E, &[2])], (3, 2)),
        rows("number of six bytes", &[(0x01, &[0, 0, 0]), (0x10, &[0]), (0x1E, &[1])], (3, 0)),
        rows("number of ten bytes", &[(0x01, &[0, 0, 0, 0, 0]), (0x10, &[0]), (0x1E, &[1])], (3, 0)),
    ]
}

/// The last node is a program and no other is; tags that are not listed; the lowest of several.
fn programs() -> Vec<Case> {
    let mut all = vec![
        rows("no program", &[ONE, (0x10, &[0])], (3, 1)),
        rows("two programs", &[(0x1E, &[]), (0x1E, &[])], (3, 0)),
        rows("a program first", &[(0x1E, &[]), (0x12, &[])], (3, 0)),
        rows("the lowest of two", &[(0x04, &[NONE, 0]), (0x05, &[9, 0, 0]), (0x10, &[1]), (0x1E, &[2])], (3, 0)),
        rows("shape before tree", &[ONE, ONE, (0x05, &[9, 0, 1]), (0x10, &[2]), (0x1E, &[3])], (3, 2)),
        Case::file("an odd program", Rule::plain(vec![0x1E, 0, 1, 0]), Some((3, 0))),
    ];
    for tag in [0x00, 0x0A, 0x0F, 0x1F, 0x3D, 0x3F, 0x41, 0xFF] {
        all.push(rows(format!("tag {tag:02X}"), &[(tag, &[]), (0x1E, &[])], (3, 0)));
        all.push(rows(format!("tag {tag:02X} last"), &[(tag, &[])], (3, 0)));
    }
    all
}

fn trees() -> Vec<Case> {
    vec![
        rows("a child of nothing", &[ONE, (0x1E, &[])], (4, 0)),
        rows("twice under one parent", &[ONE, (0x10, &[0]), (0x1E, &[1, 1])], (4, 1)),
        rows("twice in one expression", &[ONE, (0x06, &[1, 0, 0, 0]), (0x10, &[1]), (0x1E, &[2])], (4, 0)),
        rows("under two parents", &[ONE, (0x10, &[0]), (0x10, &[0]), (0x1E, &[1, 2])], (4, 0)),
        rows("the lowest of two", &[ONE, ONE, (0x10, &[0]), (0x1E, &[2, 2])], (4, 1)),
        rows("a loose tree", &[ONE, (0x10, &[0]), ONE, (0x10, &[2]), (0x1E, &[3])], (4, 1)),
        rows("tree before work", &[ONE, (0x1E, &[])], (4, 0)).lending(Work::Words(0), Room::Bytes(0)),
    ]
}

fn chain(depth: usize) -> Node {
    (0..depth - 3).fold(number(1.0), |x, _| unary(1, 7, x))
}

fn blocks(depth: usize, inner: Node) -> Node {
    (0..depth).fold(inner, |s, _| block(vec![s]))
}

fn depths() -> Vec<Case> {
    let elif_at = |k| {
        let branch = if_(7, number(1.0), vec![], vec![elif(number(2.0), vec![])], vec![]);
        program(vec![blocks(k, branch)])
    };
    let chain_of = |depth| program(vec![expression(chain(depth))]);
    let second = program(vec![expression(chain(3)), expression(chain(129))]);
    vec![
        Case::tree("depth 127", &chain_of(127), (0, 0)),
        Case::tree("depth 128", &chain_of(128), (0, 0)),
        Case::tree("depth 129", &chain_of(129), (5, 0)),
        Case::tree("depth 200", &chain_of(200), (5, 0)),
        Case::tree("the second branch is too deep", &second, (5, 2)),
        Case::tree("128 by an elif", &elif_at(124), (0, 0)),
        Case::tree("129 by an elif", &elif_at(125), (5, 1)),
        Case::tree("128 blocks", &program(vec![blocks(126, block(vec![]))]), (0, 0)),
        Case::tree("129 blocks", &program(vec![blocks(127, block(vec![]))]), (5, 0)),
        Case::tree("depth before work", &chain_of(129), (5, 0)).lending(Work::Words(0), Room::Bytes(0)),
    ]
}
