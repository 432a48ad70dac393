//! 7 Registers, 13 Return and 14 Constants: which node takes each register and stores each constant, in order.
use super::Case;
use crate::trees::build::*;
use crate::trees::reference::literal_statements;
use files::NONE;

/// Statements at top level with, in order, the node (counted from the first, in post order) that takes each
/// register of main, and the node that stores each constant.
struct Row {
    name: &'static str,
    statements: Vec<Node>,
    takes: &'static [usize],
    stores: &'static [usize],
}

fn row(name: &'static str, statements: Vec<Node>, takes: &'static [usize], stores: &'static [usize]) -> Row {
    Row { name, statements, takes, stores }
}

const X: Pair = (10, 7);

fn one() -> Node {
    number(1.0)
}

fn says(x: Node) -> Node {
    expression(x)
}

fn rows() -> Vec<Row> {
    let mut all = expressions();
    all.extend(simple_statements());
    all.extend(loops_and_branches());
    all.extend(functions_and_classes());
    all
}

fn expressions() -> Vec<Row> {
    let global = let_(X, Some(one()));
    vec![
        row("number", vec![says(one())], &[0], &[0]),
        row("text", vec![says(text(NONE))], &[0], &[0]),
        row("other", vec![says(other(3))], &[0], &[0]),
        row("builtin", vec![says(variable((8, 7)))], &[0], &[0]),
        row("global", vec![global, says(variable(X))], &[0, 2], &[1, 0, 2]),
        row("unary", vec![says(unary(2, 7, one()))], &[0], &[0]),
        row("binary", vec![says(binary(11, 7, one(), one()))], &[0, 1, 2], &[0, 1]),
        row("Addi", vec![says(binary(1, 7, one(), number(255.0)))], &[0, 2], &[0]),
        row("no Addi", vec![says(binary(1, 7, one(), number(256.0)))], &[0, 1, 2], &[0, 1]),
        row("numeral minus", vec![says(binary(8, 7, number(3.0), number(2.0)))], &[1, 2, 0, 1, 2], &[1, 0, 1]),
        row("minus a numeral", vec![says(binary(8, 7, number(2.5), number(2.0)))], &[0, 1, 2], &[0, 1]),
        row("logical", vec![says(logical(1, 7, one(), one()))], &[0, 1], &[0, 1]),
        row("call of nothing", vec![says(call(one(), 7, vec![]))], &[0, 1, 1, 1], &[0]),
        row("call of one", vec![says(call(one(), 7, vec![one()]))], &[0, 2, 2, 1, 2], &[0, 1]),
        row("call of two", vec![says(call(one(), 7, vec![one(), one()]))], &[0, 3, 3, 3, 1, 2, 3], &[0, 1, 2]),
        row("function", vec![says(function(&[X], vec![]))], &[0], &[]),
    ]
}

fn simple_statements() -> Vec<Row> {
    vec![
        row("global let", vec![let_(X, Some(one()))], &[0], &[1, 0]),
        row("global let of nothing", vec![let_(X, None)], &[0], &[0]),
        row("local let", vec![block(vec![let_(X, Some(one()))])], &[0], &[0]),
        row("local let of nothing", vec![block(vec![let_(X, None)])], &[0], &[]),
        row("let of a let", vec![block(vec![let_(X, Some(one())), let_((11, 7), Some(variable(X)))])], &[0], &[0]),
        row("return", vec![return_(7, None)], &[], &[]),
        row("empty block", vec![block(vec![])], &[], &[]),
    ]
}

fn loops_and_branches() -> Vec<Row> {
    let body = || block(vec![]);
    let three = [X, (11, 7), (12, 7)];
    let elifs = || vec![elif(one(), vec![says(one())])];
    vec![
        row("while", vec![while_(7, one(), says(one()))], &[0, 1], &[0, 1]),
        row(
            "for",
            vec![for_(7, Some(let_(X, Some(one()))), one(), one(), says(one()))],
            &[0, 2, 4, 3],
            &[1, 0, 2, 4, 3],
        ),
        row("for without initializer", vec![for_(7, None, one(), one(), body())], &[0, 1], &[0, 1]),
        row("for-in", vec![for_in(7, one(), body(), &[X])], &[2, 2, 2, 2, 0], &[2, 0]),
        row("for-in of three", vec![for_in(7, one(), body(), &three)], &[2, 2, 2, 2, 0, 2, 2, 2], &[2, 0]),
        row("for-in with a body", vec![for_in(7, one(), says(one()), &[X])], &[3, 3, 3, 3, 0, 1], &[3, 0, 1]),
        row(
            "if",
            vec![if_(7, one(), vec![says(one())], elifs(), vec![says(one())])],
            &[0, 1, 3, 4, 7],
            &[0, 1, 3, 4, 7],
        ),
        row("try", vec![try_(says(one()), X, says(one()))], &[0, 4, 2], &[0, 2]),
    ]
}

fn functions_and_classes() -> Vec<Row> {
    let method = |name| function_statement((name, 7), &[], vec![]);
    vec![
        row("function statement", vec![function_statement(X, &[], vec![])], &[0], &[0]),
        row("local function statement", vec![block(vec![function_statement(X, &[], vec![])])], &[0], &[]),
        row("class", vec![class(X, None, vec![], vec![])], &[0, 0, 0], &[0, 0]),
        row("local class", vec![block(vec![class(X, None, vec![], vec![])])], &[0, 0, 0], &[0]),
        row(
            "class with methods",
            vec![class(X, None, vec![method(20)], vec![method(21)])],
            &[2, 2, 2, 0, 1],
            &[2, 2, 2, 2],
        ),
        row(
            "class with a superclass",
            vec![class(X, Some(variable((1, 7))), vec![method(20)], vec![])],
            &[2, 2, 0, 1],
            &[2, 0, 2, 2],
        ),
    ]
}

pub fn cases() -> Vec<Case> {
    let mut all = vec![];
    for r in rows() {
        for free in 0..=r.takes.len() {
            all.push(with_registers(&r, free));
        }
        for free in 0..=r.stores.len() {
            all.push(with_constants(&r, free));
        }
    }
    all.extend(parameters());
    all.extend(returns());
    all
}

/// So many literals that `free` registers are left.
fn with_registers(r: &Row, free: usize) -> Case {
    let mut body = literal_statements(255 - free);
    let first = 2 * body.len();
    body.extend(r.statements.iter().cloned());
    let due = r.takes.get(free).map_or((0, 0), |node| (7, first + node));
    Case::tree(format!("{} with {free} registers left", r.name), &program(body), due)
}

/// So many literals, in functions, that `free` constants are left.
fn with_constants(r: &Row, free: usize) -> Case {
    let mut body = vec![];
    let mut left = 1024 - free;
    while left > 0 {
        let n = left.min(250);
        left -= n;
        body.push(expression(function(&[], literal_statements(n))));
    }
    let first = body.iter().map(Node::size).sum::<usize>();
    body.extend(r.statements.iter().cloned());
    let due = r.stores.get(free).map_or((0, 0), |node| (14, first + node));
    Case::tree(format!("{} with {free} constants left", r.name), &program(body), due)
}

fn many_parameters(n: u16) -> Vec<Pair> {
    (0..n).map(|k| (100 + k, k)).collect()
}

/// A function takes one register for itself and one for each parameter.
fn parameters() -> Vec<Case> {
    let mut all = vec![];
    for (n, due) in [(253, (0, 0)), (254, (0, 0)), (255, (7, 0)), (300, (7, 0))] {
        let p = many_parameters(n);
        let statement = program(vec![function_statement(X, &p, vec![])]);
        all.push(Case::tree(format!("function statement of {n} parameters"), &statement, due));
        all.push(Case::tree(format!("function of {n} parameters"), &program(vec![says(function(&p, vec![]))]), due));
    }
    for (n, due) in [(253, (0, 0)), (254, (7, 2))] {
        let reads = function(&many_parameters(n), vec![says(variable(X)), return_(7, None)]);
        let tree = program(vec![block(vec![let_(X, Some(one())), says(reads)])]);
        all.push(Case::tree(format!("a capture behind {n} parameters"), &tree, due));
    }
    all
}

/// 13 before 12, at the function; at the return where that is a statement.
fn returns() -> Vec<Case> {
    let mut all = vec![];
    for n in [252u16, 253, 254] {
        let params = many_parameters(n);
        let last = || variable((100 + n - 1, 7));
        let of = |body| program(vec![says(function(&params, body))]);
        let over = n == 254;
        let at = |number, node| if over { (13, node) } else { (number, if number == 0 { 0 } else { node }) };
        all.push(Case::tree(format!("return of parameter {n}"), &of(vec![return_(7, Some(last()))]), at(0, 1)));
        all.push(Case::tree(format!("body of parameter {n}"), &of(vec![says(last())]), at(12, 2)));
        all.push(Case::tree(format!("minus parameter {n}"), &of(vec![says(unary(2, 7, last()))]), at(0, 3)));
        all.push(Case::tree(format!("while parameter {n}"), &of(vec![while_(7, last(), block(vec![]))]), at(0, 3)));
    }
    for (n, due) in [(252u16, (12, 1)), (253, (13, 1)), (254, (7, 0))] {
        let tree = program(vec![says(function(&many_parameters(n), vec![let_(X, None)]))]);
        all.push(Case::tree(format!("let of nothing behind {n} parameters"), &tree, due));
    }
    all
}
