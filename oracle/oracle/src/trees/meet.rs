//! Programs in which several limits of 01 are near at once, so that two refusals meet in one step: first what there is of
//! constants, prototypes, registers, captures and open functions is taken, then come steps that ask for more of it.
use super::build::*;
use super::values;
use crate::rng::Rng;

/// A global, a name that is nowhere, and one that the steps give to what they declare.
const X: u16 = 20;
const UNKNOWN: u16 = 21;
const NEW: u16 = 22;

/// Any of these programs; those of 17 have some 25,000 nodes and are rare.
pub fn any(rng: &mut Rng) -> Node {
    match rng.below(1000) {
        0..=7 => long(rng),
        8..=199 => captures(rng),
        200..=299 => nested(rng),
        300..=339 => named(rng),
        _ => short(rng),
    }
}

/// Mostly nothing or little is left, sometimes enough.
fn left(rng: &mut Rng) -> usize {
    match rng.below(20) {
        0..=10 => 0,
        11..=14 => 1,
        15..=18 => rng.range(2, 6),
        _ => 60,
    }
}

/// Statements that take exactly so many constants and prototypes, two registers, and few nodes: a numeral on the left of Minus
/// has its right side lowered twice.
fn taken(mut constants: usize, mut prototypes: usize) -> Vec<Node> {
    let six = |x: Node| vec![expression((0..6).fold(x, |x, _| binary(8, 7, number(3.0), x)))];
    let mut bodies = vec![];
    let mut take = |c: usize, p: usize, body: Vec<Node>| {
        (constants, prototypes) = (constants - c, prototypes - p);
        bodies.push(expression(function(&[], body)));
        (constants, prototypes)
    };
    let mut left = take(0, 3, vec![]);
    while left.0 >= 63 && left.1 > 80 {
        left = take(63, 65, six(function(&[], vec![])));
    }
    while left.1 > 0 {
        left = match left.0 {
            127.. => take(127, 1, six(number(0.5))),
            n => take(n, 1, (0..n).map(|_| expression(number(0.5))).collect()),
        };
    }
    assert_eq!(left.0, 0, "there are prototypes enough for the constants");
    let others = bodies.split_off(bodies.len() / 2);
    [bodies, others].map(|body| expression(function(&[], body))).into()
}

/// Statements that take so many registers and nothing else.
fn registers(n: usize) -> Vec<Node> {
    vec![block((0..n).map(|_| let_((NEW, 7), None)).collect())]
}

/// The global X, then all but some of the constants and prototypes.
fn beginning(rng: &mut Rng) -> Vec<Node> {
    let mut body = vec![let_((X, 7), None)];
    body.extend(taken(1023 - left(rng), 256 - left(rng)));
    body
}

/// Steps at top level, in a block, or in functions within each other, whose registers are taken but for some.
fn short(rng: &mut Rng) -> Node {
    let mut body = beginning(rng);
    let free = left(rng);
    match rng.below(4) {
        0 => {
            body.extend(registers(252 - free));
            body.extend(steps(rng));
        }
        1 => {
            body.extend(registers(252 - free));
            body.push(block(steps(rng)));
        }
        _ => {
            let innermost = full_function(rng, free);
            body.push(around(rng.range(0, 6), innermost));
        }
    }
    program(body)
}

/// A statement in so many functions within each other.
fn around(deep: usize, innermost: Node) -> Node {
    (0..deep).fold(innermost, |f, _| expression(function(&[], vec![f])))
}

/// A function in the eighth open one, whose registers are taken but for some.
fn nested(rng: &mut Rng) -> Node {
    let mut body = if rng.chance(500) { beginning(rng) } else { vec![] };
    let ninth = match rng.below(3) {
        0 => class((NEW, 7), None, methods(rng), methods(rng)),
        1 => function_statement((NEW, 7), &some_parameters(rng), self::body(rng)),
        _ => expression(function(&some_parameters(rng), self::body(rng))),
    };
    body.push(around(6, expression(function(&parameters(254 - left(rng)), vec![ninth]))));
    program(body)
}

/// A global function or class whose own registers there are, as the last that can be named or made.
fn named(rng: &mut Rng) -> Node {
    let mut body = beginning(rng);
    body.push(match rng.below(4) {
        0 => class((NEW, 7), None, methods(rng), vec![]),
        _ => function_statement((NEW, 7), &parameters(rng.below(3)), vec![]),
    });
    program(body)
}

/// A function of which so many registers are free: parameters have taken the others, or lets in its body.
fn full_function(rng: &mut Rng, free: usize) -> Node {
    let params: Vec<Pair> = if rng.chance(600) { parameters(254 - free) } else { vec![] };
    let mut body = if params.is_empty() { registers(254 - free) } else { vec![] };
    body.extend(if rng.chance(300) { vec![last_step(rng, &params)] } else { steps(rng) });
    if rng.chance(500) {
        expression(function(&params, body))
    } else {
        function_statement((NEW, values::mark(rng)), &params, body)
    }
}

fn parameters(n: usize) -> Vec<Pair> {
    (0..n as u16).map(|k| (100 + k, 7)).collect()
}

/// 12 and 13: a statement whose result is the last parameter or a new register, with an instruction or without.
fn last_step(rng: &mut Rng, params: &[Pair]) -> Node {
    let last = variable(params.last().copied().unwrap_or((NEW, 7)));
    match rng.below(7) {
        0 => expression(last),
        1 => let_((NEW, 7), None),
        2 => let_((NEW, 7), Some(last)),
        3 => return_(7, Some(last)),
        4 => while_(7, last, block(vec![])),
        5 => expression(unary(1, 7, last)),
        _ => expression(logical(1, 7, last, number(1.0))),
    }
}

fn steps(rng: &mut Rng) -> Vec<Node> {
    (0..rng.range(1, 3)).map(|_| within(rng)).collect()
}

/// A step, often within another statement.
fn within(rng: &mut Rng) -> Node {
    let inner = step(rng);
    match rng.below(12) {
        0 => block(vec![inner]),
        1 => if_(7, operand(rng), vec![inner], vec![], vec![]),
        2 => if_(7, operand(rng), vec![], vec![elif(operand(rng), vec![inner])], vec![step(rng)]),
        3 => while_(7, operand(rng), inner),
        4 => try_(block(vec![]), (NEW, 7), inner),
        5 => for_(7, Some(let_((NEW, 7), None)), operand(rng), operand(rng), inner),
        _ => inner,
    }
}

fn step(rng: &mut Rng) -> Node {
    let mark = values::mark(rng);
    match rng.below(15) {
        0..=4 => expression(compound(rng)),
        5 => let_((*rng.pick(&[X, NEW]), mark), None),
        6..=7 => let_((*rng.pick(&[X, NEW]), mark), Some(operand(rng))),
        8 => for_in(mark, operand(rng), block(vec![]), &parameters(rng.range(1, 3))),
        9 => class((NEW, mark), superclass(rng), methods(rng), methods(rng)),
        10..=11 => function_statement((*rng.pick(&[X, NEW]), mark), &some_parameters(rng), body(rng)),
        12 => try_(expression(operand(rng)), (NEW, mark), expression(operand(rng))),
        13 => return_(mark, Some(operand(rng))),
        _ => break_(mark),
    }
}

fn superclass(rng: &mut Rng) -> Option<Node> {
    rng.chance(600).then(|| name(rng))
}

fn methods(rng: &mut Rng) -> Vec<Node> {
    (0..rng.below(3)).map(|_| function_statement((NEW, 7), &some_parameters(rng), body(rng))).collect()
}

fn some_parameters(rng: &mut Rng) -> Vec<Pair> {
    parameters(*rng.pick(&[0, 0, 1, 2, 253, 254, 255]))
}

/// The body of a function: nothing, one statement that gives no instruction or some, or two.
fn body(rng: &mut Rng) -> Vec<Node> {
    match rng.below(5) {
        0 => vec![],
        1 => vec![let_((NEW, 7), None)],
        2 => vec![expression(name(rng))],
        3 => vec![return_(7, Some(operand(rng)))],
        _ => vec![expression(operand(rng)), expression(operand(rng))],
    }
}

/// A builtin, a global, a name that is nowhere, or one that perhaps stands around here.
fn name(rng: &mut Rng) -> Node {
    let name = *rng.pick(&[8, X, X, UNKNOWN, NEW, 100, 101]);
    variable((name, values::mark(rng)))
}

fn operand(rng: &mut Rng) -> Node {
    match rng.below(8) {
        0 => number(3.0),
        1 => text(30),
        2 => other(3),
        3 => function(&some_parameters(rng), body(rng)),
        _ => name(rng),
    }
}

fn compound(rng: &mut Rng) -> Node {
    let mark = values::mark(rng);
    match rng.below(8) {
        0 => unary(rng.range(1, 2), mark, operand(rng)),
        1 => binary(rng.range(1, 12), mark, operand(rng), operand(rng)),
        2 => binary(1, mark, operand(rng), number(3.0)),
        3 => binary(8, mark, number(3.0), operand(rng)),
        4 => logical(rng.range(1, 2), mark, operand(rng), operand(rng)),
        5 => {
            let arguments = (0..rng.below(4)).map(|_| operand(rng)).collect();
            call(operand(rng), mark, arguments)
        }
        _ => operand(rng),
    }
}

/// Two functions of 200 parameters around g, through which others have captured all but some of 255; then g or one in it, whose
/// registers are taken but for some, reads more of them.
fn captures(rng: &mut Rng) -> Node {
    let outer: Vec<Pair> = (0..200).map(|k| (1000 + k, 7)).collect();
    let inner: Vec<Pair> = (0..200).map(|k| (2000 + k, 7)).collect();
    let reads = |names: &[Pair]| names.iter().map(|pair| expression(variable(*pair))).collect::<Vec<Node>>();
    let kept = 55 - left(rng).min(55);
    let mut g = vec![expression(function(&[], reads(&outer))), expression(function(&[], reads(&inner[..kept])))];
    let free = left(rng);
    let mut more: Vec<Node> = (0..rng.range(1, 4)).map(|_| reader(rng)).collect();
    if rng.chance(500) {
        g.extend(registers(252 - free));
        g.append(&mut more);
    } else {
        g.push(expression(function(&parameters(254 - free), more)));
    }
    let f = function(&inner, vec![expression(function(&[], g))]);
    let around = expression(function(&outer, vec![expression(f)]));
    let mut body = if rng.chance(300) { beginning(rng) } else { vec![] };
    body.push(around);
    program(body)
}

/// A use of a name of either function, captured already or not, or of none.
fn reader(rng: &mut Rng) -> Node {
    let name = match rng.below(6) {
        0 => rng.range(1000, 1199),
        1..=4 => rng.range(2040, 2070),
        _ => UNKNOWN.into(),
    };
    let read = variable((name as u16, values::mark(rng)));
    match rng.below(4) {
        0 => expression(unary(2, 7, read)),
        1 => return_(7, Some(read)),
        2 => expression(function(&parameters(*rng.pick(&[0, 253, 254])), vec![expression(read)])),
        _ => expression(read),
    }
}

/// 17 with 13, 14 and 15: a function of about 32,767 instructions when constants and prototypes are near their end, or main so.
fn long(rng: &mut Rng) -> Node {
    let mut body = beginning(rng);
    let params = parameters(rng.range(252, 254));
    let last = || variable(*params.last().unwrap());
    let instructions = if rng.chance(200) { rng.range(32_758, 32_766) } else { rng.range(32_766, 32_790) };
    let ifs = (0..instructions / 3).map(|_| if_(7, variable((100, 7)), vec![], vec![], vec![]));
    let ifs = ifs.chain((0..instructions % 3).map(|_| return_(7, None)));
    let code: Vec<Node> = match rng.below(3) {
        0 => vec![while_(7, last(), block(ifs.collect()))],
        1 => vec![block(ifs.collect())],
        _ => ifs.collect(),
    };
    body.push(match rng.below(3) {
        0 => for_in(7, number(1.0), block(code.into_iter().filter(|node| node.tag != 0x13).collect()), &[(100, 7)]),
        1 => expression(function(&params, code)),
        _ => function_statement((NEW, 7), &params, code),
    });
    program(body)
}
