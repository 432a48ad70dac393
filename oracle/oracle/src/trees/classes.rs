//! Programs with classes of every kind in every place, some of them files that are no tree: mode 1 refuses them all by 27, unless 1 to 3
//! do; mode 0 lowers them, or refuses them by 4 and what follows.
use super::build::*;
use super::damage::{damaged, joined, loose, Loose};
use super::order::{file, Order};
use super::values;
use crate::rng::Rng;

const CLASS: u8 = 0x1D;

/// A file in any order of its nodes.
pub fn any(rng: &mut Rng) -> Vec<u8> {
    let body = (0..rng.range(1, 3)).map(|_| statement(rng)).collect();
    let program = program(body);
    let order = if rng.chance(400) { Order::Post } else { Order::Random(rng) };
    let whole = file(&program, order);
    match rng.below(10) {
        0 => held_by_nothing(rng, &whole),
        1 => held_twice(&whole),
        2 => damaged(rng, &whole),
        _ => whole,
    }
}

/// A class within statements, functions, methods and classes, now and then deeper than 128, or no class at all.
fn statement(rng: &mut Rng) -> Node {
    let mut inner = if rng.chance(800) { class_of(rng, vec![]) } else { block(vec![]) };
    let deep = if rng.chance(80) { rng.range(118, 130) } else { rng.below(6) };
    let mut functions = 0;
    for _ in 0..deep {
        // seven functions within main may be open
        inner = if rng.chance(if deep > 6 { 950 } else { 600 }) || functions == 7 {
            within(rng, inner)
        } else {
            functions += 1;
            within_function(rng, inner)
        };
    }
    inner
}

/// A class with or without a superclass, methods and static methods; `more` stands among these.
fn class_of(rng: &mut Rng, mut more: Vec<Node>) -> Node {
    let superclass = rng.chance(400).then(|| variable((rng.below(9) as u16, values::mark(rng))));
    let method = |rng: &mut Rng| {
        let value = rng.chance(300).then(|| number(2.0));
        function_statement((values::name(rng), values::mark(rng)), &[], vec![return_(values::mark(rng), value)])
    };
    let methods: Vec<Node> = (0..rng.below(3)).map(|_| method(rng)).collect();
    let mut statics: Vec<Node> = (0..rng.below(3)).map(|_| method(rng)).collect();
    statics.append(&mut more);
    let pair = (values::name(rng), values::mark(rng));
    match rng.chance(500) {
        true => class(pair, superclass, methods, statics),
        false => class(pair, superclass, statics, methods),
    }
}

/// Wherever a statement may stand in a function.
fn within(rng: &mut Rng, inner: Node) -> Node {
    let (mark, x) = (values::mark(rng), || number(1.0));
    match rng.below(10) {
        0 => while_(mark, x(), inner),
        1 => for_(mark, None, x(), x(), inner),
        2 => for_in(mark, x(), inner, &[(values::name(rng), mark)]),
        3 => if_(mark, x(), vec![inner], vec![], vec![]),
        4 => if_(mark, x(), vec![], vec![elif(x(), vec![inner])], vec![]),
        5 => if_(mark, x(), vec![], vec![], vec![inner]),
        6 => try_(inner, (values::name(rng), mark), block(vec![])),
        7 => try_(block(vec![]), (values::name(rng), mark), inner),
        _ => block(vec![inner]),
    }
}

/// In a function, a function statement, or a method of a class around it.
fn within_function(rng: &mut Rng, inner: Node) -> Node {
    let pair = (values::name(rng), values::mark(rng));
    let body = vec![inner, return_(pair.1, None)];
    match rng.below(3) {
        0 => expression(function(&[], body)),
        1 => function_statement(pair, &[], body),
        _ => {
            let method = function_statement(pair, &[], body);
            class_of(rng, vec![method])
        }
    }
}

/// A class before the last node that is no node's child.
fn held_by_nothing(rng: &mut Rng, whole: &[u8]) -> Vec<u8> {
    let mut fields = loose(whole);
    let name = values::name(rng).to_be_bytes();
    let payload = [name, [0, 7], [255, 255], [0, 0]].concat();
    fields.insert(fields.len() - 1, Loose { tag: CLASS, payload });
    joined(&fields)
}

/// The lowest class is the program's child once more.
fn held_twice(whole: &[u8]) -> Vec<u8> {
    let mut fields = loose(whole);
    if let Some(lowest) = fields.iter().position(|f| f.tag == CLASS) {
        let last = fields.last_mut().expect("a program");
        last.payload.extend((lowest as u16).to_be_bytes());
    }
    joined(&fields)
}
