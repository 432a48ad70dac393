//! Trees that cost much: each aims at something that is done more than once for a node, an instruction or a local.
use super::build::*;
use super::chains::chains;
use super::costly::*;
use super::spines::spines;

pub fn worst() -> Vec<Worst> {
    [rows(), chains(), again(), names(), scans(), spines(), widths()].into_iter().flatten().collect()
}

/// The worst of each kind with marks of four bytes: longer payloads to pass over, and longer images.
fn widths() -> Vec<Worst> {
    let ifs_again = in_two(ifs(5_000), ifs(10_900));
    let loops = nested(120, ifs(10_700), &|b| while_(M, a(), one(b)));
    let spines = spines().into_iter().next().expect("a spine");
    vec![
        wide("wide: 32,766 returns", of("", program(returns(32_766)))),
        Worst { room: 0, ..wide("wide: 32,766 returns and no room", refused(18, of("", program(returns(32_766))))) },
        refused(
            7,
            wide(
                "wide: a call of 32,760 arguments",
                of("", alone(call(number(1.0), M, times(32_760, || number(1.0))))),
            ),
        ),
        wide("wide: 10,900 ifs, lowered 128 times", large("", ifs_again)),
        wide("wide: 10,900 ands, lowered 1,024 times", large("", ands_again(10_900))),
        wide("wide: 120 loops around 10,700 ifs", of("", with_a(loops))),
        wide("wide: a bucket of locals in 100 blocks, 1,024 times", large("", bucket_of_blocks(6_553, 100))),
        wide("wide: unaries 104 deep, 1,024 times", spines),
    ]
}

/// Much of one kind, each lowered once.
fn rows() -> Vec<Worst> {
    let functions = |n: usize| times(n, || expression(function(&[], returns(99))));
    let literals = |n: usize| times(n, || expression(number(0.5)));
    let elifs = |n: usize| with_a(vec![if_(M, a(), vec![], times(n, || elif(a(), vec![])), vec![])]);
    let methods = times(250, || function_statement((21, M), &[A], returns(129)));
    let constants = times(4, || expression(function(&[], literals(254))));
    let prototypes = [functions(127), vec![expression(function(&[], functions(127)))]].concat();
    let arguments = times(32_760, || number(1.0));
    vec![
        of("empty blocks in a row", full(vec![])),
        of("32,766 returns", program(returns(32_766))),
        Worst { room: 0, ..refused(18, of("32,766 returns and no room", program(returns(32_766)))) },
        refused(7, of("a call of 32,760 arguments", alone(call(number(1.0), M, arguments)))),
        of("an if of 10,900 elifs", elifs(10_900)),
        refused(17, of("an if of 16,000 elifs", elifs(16_000))),
        of("256 prototypes of 100 instructions", full(prototypes)),
        of("1,016 constants", full(constants)),
        of("a class of 250 methods", full(vec![class(A, None, methods, vec![])])),
    ]
}

/// What a numeral on the left of Minus has lowered again: registers, prototypes and constants bound how often.
fn again() -> Vec<Worst> {
    let lets = |n: usize| times(n, || let_((21, M), Some(a())));
    let registers = |b: Vec<Node>| [vec![expression(minuses(6, number(1.0)))], b].concat();
    let around = |b: Vec<Node>| expression(function(&[], registers(b)));
    vec![
        of("16,000 lets, lowered 64 times", alone(sixty_four(lets(16_000)))),
        of("16,000 lets, lowered 128 times", in_two(vec![], lets(16_000))),
        large("10,900 ifs, lowered 128 times", in_two(ifs(5_000), ifs(10_900))),
        large("10,900 ands, lowered 1,024 times", ands_again(10_900)),
        refused(17, of("16,300 ands, lowered 16 times", ands_again(16_300))),
        of("253 registers in each of 8 functions", full(registers(nested(7, vec![], &around)))),
        refused(7, of("120 numerals minus a function", alone(minuses(120, function(&[A], lets(15_000)))))),
    ]
}

/// Ten levels of Minus around ands, four of them in a function: as often as constants allow.
fn ands_again(leaves: usize) -> Node {
    alone(sixty_four(vec![expression(minuses(4, ands(A, leaves)))]))
}

/// Names that are sought for long.
fn names() -> Vec<Worst> {
    let globals: Vec<Node> = (0..250).map(|k| let_((100 + k, M), None)).collect();
    let users = |name: u16| times(3, || expression(function(&[], times(254, || expression(variable((name, M)))))));
    let params: Vec<Pair> = (0..250).map(|k| (100 + k, M)).collect();
    let captures: Vec<Node> = params.iter().map(|pair| expression(variable(*pair))).collect();
    let user = || function(&[], captures.clone());
    let through = |deep: usize, b: Vec<Node>| {
        full(vec![expression(function(&params, nested(deep, b, &|b| expression(function(&[], b)))))])
    };
    vec![
        of("762 uses of the first of 250 globals", full([globals.clone(), users(100)].concat())),
        of("762 uses of the last of 250 globals", full([globals, users(349)].concat())),
        of("250 captures by 64 functions, through 6", through(5, times(64, || expression(user())))),
        large("250 captures through 6 functions, 64 times", through(5, vec![expression(minuses(6, user()))])),
        large("a bucket of 400 locals, 1,024 times", bucket_of_lets(1_640, 400)),
        large("a bucket of 2,000 locals, 1,024 times", bucket_of_lets(6_553, 2_000)),
        large("captures behind a bucket of 2,000 locals", bucket_of_captures(6_553, 2_000)),
        large("a bucket of locals in 100 blocks, 1,024 times", bucket_of_blocks(6_553, 100)),
    ]
}

/// Two names that differ by the number of buckets, 10 for each node.
fn in_one_bucket(nodes: usize) -> (Pair, Pair) {
    ((1, M), ((10 * nodes + 1) as u16, M))
}

/// Locals of one name, then uses of the other one, a parameter, which are lowered 1,024 times.
fn bucket_of_lets(nodes: usize, lets: usize) -> Node {
    let (near, far) = in_one_bucket(nodes);
    let mut body = times(lets, || let_(far, Some(variable(near))));
    body.push(expression(minuses(4, ands(near, (nodes - 2 * lets - 40) / 2))));
    filled(nodes, vec![expression(minuses(6, function(&[near], body)))])
}

/// One local of a name in each of so many blocks within each other, then uses of the other one, which are lowered 1,024 times.
fn bucket_of_blocks(nodes: usize, blocks: usize) -> Node {
    let (near, far) = in_one_bucket(nodes);
    let uses = vec![expression(minuses(4, ands(near, (nodes - 3 * blocks - 40) / 2)))];
    let around = |b: Vec<Node>| block([vec![let_(far, Some(variable(near)))], b].concat());
    filled(nodes, vec![expression(minuses(6, function(&[near], nested(blocks, uses, &around))))])
}

/// Uses of a variable six functions out, behind the locals of the innermost function.
fn bucket_of_captures(nodes: usize, lets: usize) -> Node {
    let (near, far) = in_one_bucket(nodes);
    let mut body = times(lets, || let_(far, Some(a())));
    body.extend(times(240, || expression(variable(near))));
    let inside = vec![expression(minuses(6, function(&[A], body)))];
    let around = nested(5, inside, &|b| expression(function(&[], b)));
    filled(nodes, vec![expression(function(&[near], around))])
}

/// Jumps that are patched by a scan over the whole body, at each level again.
fn scans() -> Vec<Worst> {
    let loops = |n: usize, deep: usize| nested(deep, ifs(n), &|b| while_(M, a(), one(b)));
    let breaks = nested(60, times(32_000, || break_(M)), &|b| while_(M, a(), block(vec![one(b), continue_(M)])));
    let branches = |n: usize, deep: usize| nested(deep, ifs(n), &|b| if_(M, a(), b, vec![], vec![]));
    let tries = |n: usize, deep: usize| nested(deep, ifs(n), &|b| try_(one(b), (21, M), block(vec![])));
    vec![
        of("120 loops around 10,700 ifs", with_a(loops(10_700, 120))),
        refused(17, of("120 loops around 16,000 ifs", with_a(loops(16_000, 120)))),
        of("60 loops around 32,000 breaks", with_a(breaks)),
        of("120 ifs around 10,700 ifs", with_a(branches(10_700, 120))),
        of("120 tries around 10,700 ifs", with_a(tries(10_700, 120))),
        large("111 loops around 10,700 ifs, 128 times", in_two(vec![], loops(10_700, 111))),
        large("111 ifs around 10,700 ifs, 128 times", in_two(vec![], branches(10_700, 111))),
        large("111 tries around 10,700 ifs, 128 times", in_two(vec![], tries(10_700, 111))),
    ]
}
