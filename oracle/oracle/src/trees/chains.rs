//! Trees as deep as may be, by each kind of node: what a call needs of the stack.
use super::build::*;
use super::costly::*;

pub fn chains() -> Vec<Worst> {
    [expressions(), statements(), functions()].into_iter().flatten().collect()
}

/// Around a, so many expressions.
fn around(n: usize, f: &dyn Fn(Node) -> Node) -> Node {
    (0..n).fold(a(), |x, _| f(x))
}

/// Around a use of a, so many statements.
fn within(n: usize, f: &dyn Fn(Vec<Node>) -> Node) -> Node {
    with_a(nested(n, vec![expression(a())], f))
}

fn expressions() -> Vec<Worst> {
    let deep = |x: Node| with_a(vec![expression(x)]);
    let binaries = |n: usize| around(n, &|x| binary(11, M, x, a()));
    vec![
        of("260 chains of 124 nots", with_a(times(260, || expression(around(124, &|x| unary(1, M, x)))))),
        of("124 logicals deep", deep(around(124, &|x| logical(1, M, x, a())))),
        of("124 binaries deep", deep(binaries(124))),
        of("124 binaries deep, on the right", deep(around(124, &|x| binary(11, M, a(), x)))),
        of("124 Addi deep", deep(around(124, &|x| binary(1, M, x, number(3.0))))),
        refused(7, of("6 numerals minus 118 binaries", deep(minuses(6, binaries(118))))),
        refused(7, of("124 numerals minus each other", deep(minuses(124, a())))),
        refused(7, of("124 callees deep", deep(around(124, &|x| call(x, M, vec![]))))),
        of("80 arguments deep", deep(around(80, &|x| call(a(), M, vec![x])))),
    ]
}

fn statements() -> Vec<Worst> {
    vec![
        of("124 blocks deep", within(124, &block)),
        of("124 loops deep", within(124, &|b| while_(M, a(), one(b)))),
        of("124 fors deep", within(124, &|b| for_(M, None, a(), a(), one(b)))),
        of("60 for-ins deep", within(60, &|b| for_in(M, a(), one(b), &[(21, M)]))),
        of("124 ifs deep", within(124, &|b| if_(M, a(), b, vec![], vec![]))),
        of("124 elses deep", within(124, &|b| if_(M, a(), vec![], vec![], b))),
        of("62 elifs deep", within(62, &|b| if_(M, a(), vec![], vec![elif(a(), b)], vec![]))),
        of("124 tries deep", within(124, &|b| try_(one(b), (21, M), block(vec![])))),
        of("124 catches deep", within(124, &|b| try_(block(vec![]), (21, M), one(b)))),
    ]
}

/// Seven functions around something deep.
fn functions() -> Vec<Worst> {
    let seven = |b: Vec<Node>| full(nested(7, b, &|b| expression(function(&[A], b))));
    let methods = |b: Vec<Node>| {
        full(nested(7, b, &|b| class((22, M), None, vec![function_statement((23, M), &[A], b)], vec![])))
    };
    let blocks = |n: usize| nested(n, vec![expression(unary(1, M, a()))], &block);
    let binaries = |n: usize| vec![expression(around(n, &|x| binary(11, M, x, a())))];
    vec![
        of("7 functions and 109 blocks", seven(blocks(109))),
        of("7 functions and 110 binaries", seven(binaries(110))),
        of("7 methods and 109 blocks", methods(blocks(109))),
        of("7 methods and 110 binaries", methods(binaries(110))),
    ]
}
