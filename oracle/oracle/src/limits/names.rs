//! 9 Undefined, 10 Redefined, 11 Stray and 12 Empty.
use super::{Case, Due};
use crate::trees::build::*;

const X: Pair = (10, 7);
const Y: Pair = (11, 7);
const F: Pair = (12, 7);

fn one() -> Node {
    number(1.0)
}

fn says(x: Node) -> Node {
    expression(x)
}

fn x() -> Node {
    says(variable(X))
}

fn let_x() -> Node {
    let_(X, Some(one()))
}

/// A function expression with this body, as a statement.
fn fun(body: Vec<Node>) -> Node {
    says(function(&[], body))
}

fn case(name: &str, statements: Vec<Node>, due: Due) -> Case {
    Case::tree(name, &program(statements), due)
}

pub fn cases() -> Vec<Case> {
    let mut all = unknown();
    all.extend(again());
    all.extend(stray());
    all.extend(empty());
    all
}

fn unknown() -> Vec<Case> {
    let for_x = || for_in(7, one(), block(vec![]), &[X]);
    vec![
        case("an unknown name", vec![x()], (9, 0)),
        case("a name after its block", vec![block(vec![let_x()]), x()], (9, 3)),
        case("a local let of itself", vec![block(vec![let_(X, Some(variable(X)))])], (9, 0)),
        case("a global let of itself", vec![let_(X, Some(variable(X)))], (0, 0)),
        case("a name before its global let", vec![fun(vec![x()]), let_x()], (9, 0)),
        case("a global function reads itself", vec![function_statement(X, &[], vec![x(), x()])], (0, 0)),
        case("a local function reads itself", vec![block(vec![function_statement(X, &[], vec![x(), x()])])], (0, 0)),
        case("a parameter outside", vec![says(function(&[X], vec![])), x()], (9, 2)),
        case("a catch name after the try", vec![try_(block(vec![]), X, block(vec![])), x()], (9, 3)),
        case("a catch name in the body", vec![try_(x(), X, block(vec![]))], (9, 0)),
        case("a catch name in the catch", vec![try_(block(vec![]), X, x())], (0, 0)),
        case(
            "a method's name after the class",
            vec![class(Y, None, vec![function_statement(X, &[], vec![])], vec![]), x()],
            (9, 2),
        ),
        case(
            "a method's name in a later method",
            vec![class(
                Y,
                None,
                vec![function_statement(X, &[], vec![]), function_statement(F, &[], vec![x(), x()])],
                vec![],
            )],
            (0, 0),
        ),
        case("a class as its own superclass", vec![class(X, Some(variable(X)), vec![], vec![])], (0, 0)),
        case("an unknown superclass", vec![class(Y, Some(variable(X)), vec![], vec![])], (9, 0)),
        case(
            "a local class as its own superclass",
            vec![block(vec![class(X, Some(variable(X)), vec![], vec![])])],
            (9, 0),
        ),
        case("a top-level for-in name later", vec![for_x(), x()], (0, 0)),
        case("a top-level for-in name in a later function", vec![for_x(), fun(vec![x()])], (9, 3)),
        case("a top-level for-in name in a later block's function", vec![for_x(), block(vec![fun(vec![x()])])], (0, 0)),
        case(
            "a top-level for-in name in a later method",
            vec![for_x(), class(Y, None, vec![function_statement(F, &[], vec![x()])], vec![])],
            (0, 0),
        ),
        case("a top-level for-in name in a later catch", vec![for_x(), try_(block(vec![]), Y, fun(vec![x()]))], (0, 0)),
        case(
            "a top-level for-in name in a later try body",
            vec![for_x(), try_(fun(vec![x()]), Y, block(vec![]))],
            (9, 3),
        ),
        case(
            "an if branch opens no block",
            vec![block(vec![if_(7, one(), vec![let_x()], vec![], vec![]), says(unary(1, 7, variable(X)))])],
            (0, 0),
        ),
        case(
            "a loop body opens no block",
            vec![block(vec![while_(7, one(), let_x()), says(unary(1, 7, variable(X)))])],
            (0, 0),
        ),
        case("in the dropped pass", vec![says(binary(8, 7, number(3.0), variable(X)))], (9, 1)),
        case("a builtin's name as a global", vec![let_((3, 7), None), says(variable((3, 7)))], (0, 0)),
        case(
            "a builtin's name as a local",
            vec![block(vec![let_((3, 7), Some(one())), says(unary(1, 7, variable((3, 7))))])],
            (0, 0),
        ),
    ]
}

fn again() -> Vec<Case> {
    let empty_function = || function_statement(X, &[], vec![]);
    vec![
        case("two global lets", vec![let_x(), let_x()], (10, 3)),
        case("a let of nothing again", vec![let_(X, None), let_(X, None)], (10, 1)),
        case("10 before the initializer", vec![let_x(), let_(X, Some(variable(Y)))], (10, 3)),
        case("a let after a function", vec![empty_function(), let_x()], (10, 2)),
        case("a function after a let", vec![let_x(), empty_function(), empty_function()], (0, 0)),
        case("a let after a class", vec![class(X, None, vec![], vec![]), let_x()], (10, 2)),
        case("a class after a let", vec![let_x(), class(X, None, vec![], vec![])], (0, 0)),
        case("a local let of a global", vec![let_x(), block(vec![let_x(), let_x()])], (0, 0)),
        case("a global let in an if", vec![let_x(), if_(7, one(), vec![let_x()], vec![], vec![])], (10, 4)),
        case(
            "a global let in a for's initializer",
            vec![let_x(), for_(7, Some(let_x()), one(), one(), block(vec![]))],
            (10, 3),
        ),
        case("a let of a top-level for-in name", vec![for_in(7, one(), block(vec![]), &[X]), let_x()], (0, 0)),
        case(
            "a function's name in its body is no global",
            vec![function_statement(X, &[], vec![let_x(), return_(7, None)])],
            (0, 0),
        ),
    ]
}

fn stray() -> Vec<Case> {
    let mut all = vec![];
    for (what, jump) in [("break", break_(7)), ("continue", continue_(7))] {
        let j = || jump.clone();
        let mut add =
            |name: &str, statements: Vec<Node>, due: Due| all.push(case(&format!("{what} {name}"), statements, due));
        add("alone", vec![j()], (11, 0));
        add("in a block", vec![block(vec![j()])], (11, 0));
        add("in an if", vec![if_(7, one(), vec![], vec![], vec![j()])], (11, 1));
        add("in a try", vec![try_(j(), X, block(vec![]))], (11, 0));
        add("after a loop", vec![while_(7, one(), block(vec![])), j()], (11, 3));
        add("in a function in a loop", vec![while_(7, one(), fun(vec![j()]))], (11, 1));
        add(
            "in a method in a loop",
            vec![while_(7, one(), class(X, None, vec![function_statement(F, &[], vec![j()])], vec![]))],
            (11, 1),
        );
        add("in a loop in a function", vec![fun(vec![while_(7, one(), j())])], (0, 0));
        add("in an inner and an outer loop", vec![while_(7, one(), block(vec![while_(7, one(), j()), j()]))], (0, 0));
        add("in a for", vec![for_(7, None, one(), one(), j())], (0, 0));
        add("in a for-in", vec![for_in(7, one(), j(), &[X])], (0, 0));
        add(
            "in a try in an if in a loop",
            vec![while_(7, one(), if_(7, one(), vec![try_(j(), X, j())], vec![elif(one(), vec![j()])], vec![j()]))],
            (0, 0),
        );
        let mut literals = vec![j()];
        literals.extend(crate::trees::reference::literal_statements(256));
        add("before 7", literals, (11, 0));
    }
    all
}

fn empty() -> Vec<Case> {
    let of_x = |statement| says(function(&[X], vec![statement]));
    vec![
        case("a body of a parameter", vec![of_x(x())], (12, 2)),
        case("a body of two parameters", vec![says(function(&[X], vec![x(), x()]))], (0, 0)),
        case("an empty body", vec![says(function(&[X], vec![]))], (0, 0)),
        case("a body of an empty block", vec![of_x(block(vec![]))], (12, 1)),
        case("a body of a block of a parameter", vec![of_x(block(vec![x(), x()]))], (12, 5)),
        case("a body of a let of nothing", vec![of_x(let_(Y, None))], (12, 1)),
        case("a body of a let of a parameter", vec![of_x(let_(Y, Some(variable(X))))], (12, 2)),
        case("a body of a let of a literal", vec![of_x(let_(Y, Some(one())))], (0, 0)),
        case("a body of a bare return", vec![of_x(return_(7, None))], (0, 0)),
        case("a body of a captured name", vec![block(vec![let_x(), fun(vec![x()])])], (0, 0)),
        case("a body of a global name", vec![let_x(), fun(vec![x()])], (0, 0)),
        case("a body of its own name", vec![function_statement(X, &[], vec![x()])], (12, 2)),
        case(
            "a method of a parameter",
            vec![class(Y, None, vec![function_statement(F, &[X], vec![x()])], vec![])],
            (12, 2),
        ),
        case("main of an empty block", vec![block(vec![])], (0, 0)),
        case("12 before 9 behind it", vec![of_x(x()), says(variable(Y))], (12, 2)),
    ]
}
