//! Long accepted scripts, for speed: global functions with ordinary bodies that stay within every limit.
use super::build::*;
use super::values;
use crate::rng::Rng;

/// About so many nodes (1,000 to 32,000), always accepted.
pub fn script(rng: &mut Rng, nodes: usize) -> Node {
    let functions = (nodes / 130).clamp(1, 240);
    let each = nodes / functions;
    program((0..functions as u16).map(|k| one_function(rng, 100 + k, each)).collect())
}

const A: u16 = 10;
const LOCALS: [u16; 6] = [A, A + 1, A + 2, A + 3, A + 4, A + 5];

/// A function of three parameters and three locals.
fn one_function(rng: &mut Rng, name: u16, nodes: usize) -> Node {
    let params = [A, A + 1, A + 2].map(|p| (p, values::mark(rng)));
    let mut body =
        vec![let_((A + 3, 1), Some(text(name))), let_((A + 4, 2), Some(number(0.5))), let_((A + 5, 3), None)];
    let mut left = nodes as isize - 8;
    while left > 0 {
        // smaller statements towards the end
        let s = statement(rng, (left as usize / 30).min(3));
        left -= s.size() as isize;
        body.push(s);
    }
    function_statement((name, values::mark(rng)), &params, body)
}

fn local(rng: &mut Rng) -> Node {
    variable((*rng.pick(&LOCALS), values::mark(rng)))
}

fn statement(rng: &mut Rng, deep: usize) -> Node {
    let mark = values::mark(rng);
    match rng.below(if deep == 0 { 5 } else { 12 }) {
        0 => let_((*rng.pick(&LOCALS), mark), Some(value(rng))),
        1 => expression(call(local(rng), mark, vec![local(rng), local(rng)])),
        2..=3 => expression(value(rng)),
        4 => return_(mark, Some(value(rng))),
        5..=7 => if_(mark, value(rng), several(rng, deep), vec![], several(rng, deep)),
        8 => if_(mark, local(rng), several(rng, deep), vec![elif(local(rng), several(rng, deep))], vec![]),
        9 => while_(mark, local(rng), block([several(rng, deep), vec![break_(mark)]].concat())),
        10 => for_(mark, None, value(rng), value(rng), block([several(rng, deep), vec![continue_(mark)]].concat())),
        _ => try_(block(several(rng, deep)), (A + 5, mark), block(several(rng, deep))),
    }
}

fn several(rng: &mut Rng, deep: usize) -> Vec<Node> {
    (0..rng.range(1, 2)).map(|_| statement(rng, deep - 1)).collect()
}

/// An expression over locals; it takes one register at most and makes no constant.
fn value(rng: &mut Rng) -> Node {
    let mark = values::mark(rng);
    match rng.below(6) {
        0 => binary(1, mark, local(rng), number(rng.below(256) as f64)),
        1 => binary(rng.range(1, 12), mark, local(rng), local(rng)),
        2 => logical(rng.range(1, 2), mark, local(rng), local(rng)),
        3 => unary(rng.range(1, 2), mark, local(rng)),
        _ => local(rng),
    }
}
