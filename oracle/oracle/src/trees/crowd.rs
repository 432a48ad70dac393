//! Random programs that crowd against one limit of 01: some stay within it, some do not.
use super::build::*;
use super::random::{self, Taste};
use super::script::script;
use super::values;
use crate::rng::Rng;

/// 7 and 13: bodies that begin with so many literals or parameters that few registers are left.
pub fn registers(rng: &mut Rng) -> Node {
    if rng.chance(300) {
        return last_register(rng);
    }
    let taste = Taste { size: rng.range(10, 60), deepest: 12, mischief: 0, stuffing: 300, loops: false, classes: true };
    random::program(rng, taste)
}

/// 13: a function of 250 to 255 parameters whose result is one of its last registers.
fn last_register(rng: &mut Rng) -> Node {
    let params: Vec<Pair> = (0..rng.range(250, 255) as u16).map(|k| (100 + k, values::mark(rng))).collect();
    let last = variable(*params.last().unwrap());
    let body = match rng.below(6) {
        0 => vec![return_(1, Some(last))],
        1 => vec![return_(1, Some(number(2.0))), return_(3, None)],
        2 => vec![expression(last)],
        3 => vec![let_((20, 2), None)],
        4 => vec![while_(3, last, block(vec![]))],
        _ => vec![expression(number(1.0))],
    };
    program(vec![expression(function(&params, body))])
}

/// 8: a function g through which others capture about 255 variables of two functions around it.
pub fn captures(rng: &mut Rng) -> Node {
    let outer: Vec<Pair> = (0..rng.range(120, 254) as u16).map(|k| (1000 + k, k)).collect();
    let inner: Vec<Pair> = (0..rng.range(140, 254) as u16).map(|k| (2000 + k, k)).collect();
    let mut names = [&outer[..], &inner[..]].concat();
    let mut uses = vec![];
    for _ in 0..rng.range(250, 260) {
        let at = rng.below(names.len());
        uses.push(if rng.chance(20) { names[at] } else { names.swap_remove(at) });
    }
    let mut body = vec![];
    while !uses.is_empty() {
        let n = rng.range(1, 150).min(uses.len());
        let reads: Vec<Node> = uses.drain(..n).map(|pair| expression(variable(pair))).collect();
        if rng.chance(850) {
            body.push(expression(function(&[], reads)))
        } else {
            body.extend(reads)
        }
    }
    let f = function(&inner, vec![expression(function(&[], body))]);
    program(vec![expression(function(&outer, vec![expression(f)]))])
}

/// 14: about 1,024 constants in functions, then a small random program.
pub fn constants(rng: &mut Rng) -> Node {
    let mut left = rng.range(1000, 1030);
    let mut body = vec![];
    while left > 0 {
        let n = rng.range(50, 250).min(left);
        left -= n;
        let literals = (0..n).map(|_| expression(bits(values::number_bits(rng)))).collect();
        body.push(expression(function(&[], literals)));
    }
    then_random(rng, body)
}

/// 15: about 256 functions, then a small random program.
pub fn prototypes(rng: &mut Rng) -> Node {
    let mut left = rng.range(245, 260);
    let mut body = vec![];
    while left > 0 {
        let n = rng.range(1, 60).min(left);
        left -= n;
        let inner = (1..n).map(|_| expression(function(&[], vec![]))).collect();
        body.push(expression(function(&[], inner)));
    }
    then_random(rng, body)
}

fn then_random(rng: &mut Rng, mut body: Vec<Node>) -> Node {
    let taste = Taste { size: rng.range(1, 30), deepest: 8, mischief: 0, stuffing: 0, loops: false, classes: true };
    let mut program = random::program(rng, taste);
    body.extend(program.slots.drain(..).map(|slot| match slot {
        Slot::Child(node) => node,
        Slot::Word(_) => unreachable!("a program has children alone"),
    }));
    super::build::program(body)
}

/// 16: functions, methods and function statements within each other, six to ten deep.
pub fn nesting(rng: &mut Rng) -> Node {
    let mut statement = expression(bits(values::number_bits(rng)));
    for level in 0..rng.range(5, 9) as u16 {
        let pair = (50 + level, values::mark(rng));
        let params: Vec<Pair> = (0..rng.below(3) as u16).map(|k| (100 + k, values::mark(rng))).collect();
        let body = vec![expression(number(1.0)), statement];
        statement = match rng.below(4) {
            0 => class(pair, None, vec![function_statement(pair, &params, body)], vec![]),
            1 => function_statement(pair, &params, body),
            _ => expression(function(&params, body)),
        };
    }
    program(vec![statement])
}

/// 17: a body of about 32,767 instructions that take no register.
pub fn long(rng: &mut Rng) -> Node {
    let a = || variable((20, 3));
    let mut left = rng.range(32_720, 32_790);
    let mut body = vec![let_((20, 3), Some(number(1.0)))];
    while left > 3 {
        let (instructions, statement) = match rng.below(200) {
            0..=9 => (8, while_(4, a(), if_(5, a(), vec![break_(6)], vec![], vec![continue_(7)]))),
            10..=19 => (3, expression(logical(1, 8, a(), a()))),
            20 => (5, try_(block(vec![]), (21, 9), block(vec![]))),
            _ => (3, if_(values::mark(rng), a(), vec![], vec![], vec![])),
        };
        left -= instructions.min(left);
        body.push(statement);
    }
    body.extend((0..rng.below(7)).map(|_| return_(10, None)));
    if rng.chance(500) {
        program(vec![block(body)])
    } else {
        program(vec![expression(function(&[], body))])
    }
}

/// 5: one chain of nodes, 118 to 131 deep.
pub fn deep(rng: &mut Rng) -> Node {
    let mut x = number(1.0);
    let (mut functions, mut doubled) = (0, 0);
    let depth = rng.range(118, 131);
    while x.depth() + 2 < depth {
        let mark = values::mark(rng);
        x = match rng.below(20) {
            0 if functions < 6 => {
                functions += 1;
                function(&[], vec![if_(mark, x, vec![], vec![], vec![])])
            }
            1 if functions < 6 => {
                functions += 1;
                function(&[], vec![while_(mark, number(1.0), block(vec![break_(mark), expression(x)]))])
            }
            2 if doubled < 4 => {
                doubled += 1;
                binary(8, mark, number(3.0), x)
            }
            3..=7 => logical(rng.range(1, 2), mark, x, number(2.0)),
            8..=10 => binary(rng.range(1, 12), mark, x, number(0.5)),
            _ => unary(rng.range(1, 2), mark, x),
        };
    }
    program(vec![expression(x)])
}

/// Numerals on the left of Minus within each other: the right side is lowered twice at each level.
pub fn minus(rng: &mut Rng) -> Node {
    let taste = Taste { size: rng.range(1, 10), deepest: 6, mischief: 0, stuffing: 0, loops: false, classes: true };
    let body = random::program(rng, taste).children().cloned().collect();
    let mut x = if rng.chance(700) { function(&[], body) } else { text(30) };
    for _ in 0..rng.range(1, 8) {
        let left = bits(values::number_bits(rng));
        x = binary(8, values::mark(rng), left, x);
        if rng.chance(100) {
            x = call(x, 1, vec![number(2.0)]);
        }
    }
    program(vec![expression(x)])
}

/// Any program: mostly small ones, now and then one that crowds a limit.
pub fn any(rng: &mut Rng, mode_1: bool) -> Node {
    match rng.below(10_000) {
        0..=14 => constants(rng),
        15..=34 => prototypes(rng),
        35..=74 => captures(rng),
        75..=76 => long(rng),
        77..=80 => {
            let nodes = rng.range(1000, 32_000);
            script(rng, nodes)
        }
        81..=199 => nesting(rng),
        200..=299 => deep(rng),
        300..=499 => minus(rng),
        500..=799 => registers(rng),
        800..=1299 => {
            let taste = Taste::any(rng, 600).in_mode(rng, mode_1);
            random::program(rng, taste)
        }
        _ => {
            let taste = Taste::any(rng, 100).in_mode(rng, mode_1);
            random::program(rng, taste)
        }
    }
}
