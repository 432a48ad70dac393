//! 8 Captures: a function alone runs out of registers first, so others capture through it.
use super::Case;
use crate::trees::build::*;

fn names(first: u16, n: u16) -> Vec<Pair> {
    (first..first + n).map(|name| (name, 7)).collect()
}

fn reads(pairs: &[Pair]) -> Vec<Node> {
    pairs.iter().map(|p| expression(variable(*p))).collect()
}

fn inner(pairs: &[Pair]) -> Node {
    expression(function(&[], reads(pairs)))
}

/// e (200 parameters) holds f (200 parameters), which holds g with this body.
fn around(body: Vec<Node>) -> Node {
    let g = expression(function(&[], body));
    let f = expression(function(&names(2000, 200), vec![g]));
    program(vec![expression(function(&names(1000, 200), vec![f]))])
}

/// g after 255 captures (its first 512 nodes), then more of its body.
fn full_then(more: Vec<Node>) -> Node {
    let mut body = vec![inner(&names(1000, 200)), inner(&names(2000, 55))];
    body.extend(more);
    around(body)
}

/// A function that calls the first name with the others: one node a name, so few nodes capture much.
fn calls(pairs: &[Pair]) -> Node {
    let mut names = pairs.iter().map(|p| variable(*p));
    let callee = names.next().expect("a name to call");
    expression(function(&[], vec![expression(call(callee, 7, names.collect()))]))
}

pub fn cases() -> Vec<Case> {
    let by_calls = |n| around(vec![calls(&names(1000, 125)), calls(&names(2000, 125)), calls(&names(1125, n))]);
    let through = |n| around(vec![inner(&names(1000, 200)), inner(&names(2000, n))]);
    // a function with 254 parameters that reads one more: no register for the GetUpval either
    let no_register = function(&names(3000, 254), reads(&names(2100, 1)));
    vec![
        Case::tree("254 captures", &through(54), (0, 0)),
        Case::tree("255 captures", &through(55), (0, 0)),
        Case::tree("256 captures", &through(56), (8, 512)),
        Case::tree("255 captures by calls", &by_calls(5), (0, 0)),
        Case::tree("256 captures by calls", &by_calls(6), (8, 258 + 5)),
        Case::tree("equal captures are reused at 255", &full_then(reads(&names(2000, 20))), (0, 0)),
        Case::tree("a 256th in g itself", &full_then(reads(&names(2000, 56))), (8, 514 + 110)),
        Case::tree("equal captures reused through g", &full_then(vec![inner(&names(1000, 100))]), (0, 0)),
        Case::tree("8 before 7", &full_then(vec![expression(no_register)]), (8, 514)),
        Case::tree("an unknown name adds none", &full_then(reads(&names(4000, 1))), (9, 514)),
    ]
}
