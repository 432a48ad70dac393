//! Trees that make much of little: the right side of a numeral-left Minus is lowered twice at each level.
use super::Case;
use crate::trees::build::*;
use crate::trees::order::post;
use crate::trees::rule::Rule;

fn minuses(n: usize, x: Node) -> Node {
    (0..n).fold(x, |x, _| binary(8, 7, number(3.0), x))
}

/// A function of so many empty ifs on its parameter.
fn function_of_ifs(n: usize) -> Node {
    let ifs = (0..n).map(|_| if_(7, variable((20, 7)), vec![], vec![], vec![])).collect();
    function(&[(20, 7)], ifs)
}

fn of(name: &str, x: Node) -> Case {
    Case::file(name, Rule::plain(post(&program(vec![expression(x)]))), None)
}

pub fn cases() -> Vec<Case> {
    vec![
        of("a function of 1,000 ifs lowered 64 times", minuses(6, function_of_ifs(1000))),
        of("a function of 10,900 ifs lowered 64 times", minuses(6, function_of_ifs(10_900))),
        of("a function lowered until the registers end", minuses(7, function_of_ifs(100))),
        of("120 numerals minus a numeral", minuses(120, number(2.0))),
        of("120 numerals minus a function", minuses(120, function(&[], vec![]))),
        of(
            "functions within functions, each lowered twice",
            (0..7).fold(number(1.0), |x, _| function(&[], vec![expression(minuses(1, x))])),
        ),
        of(
            "functions within functions, each lowered 8 times",
            (0..7).fold(number(1.0), |x, _| function(&[], vec![expression(minuses(3, x))])),
        ),
        of("calls within calls", (0..120).fold(number(1.0), |x, _| call(x, 7, vec![]))),
        of("calls as arguments", (0..120).fold(number(1.0), |x, _| call(number(1.0), 7, vec![x]))),
    ]
}
