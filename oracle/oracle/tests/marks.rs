//! Operators, builtins and marks as 01's tables name them, by listings written from the source.
use files::image::{Constant, Image};
use files::listing::line;
use files::NONE;
use oracle::limits::{ask, Room, Work};
use oracle::trees::build::*;
use oracle::trees::order::post;

fn image(statements: Vec<Node>) -> Image {
    let asked = ask(post(&program(statements)), Work::Exact, Room::Exact);
    assert_eq!(asked.answer.number, 0);
    Image::from_bytes(&asked.image).unwrap()
}

/// Instructions of prototype k with their marks, `-` for none, without the last Return.
fn marked(image: &Image, k: usize) -> Vec<String> {
    let mark = |m: Option<u32>| m.map_or("-".into(), |m| m.to_string());
    let mut lines: Vec<String> =
        image.prototypes[k].instructions.iter().map(|i| format!("{} @{}", line(i), mark(i.mark))).collect();
    assert_eq!(lines.pop().unwrap(), "Return 0 0 0 @-");
    lines
}

fn one() -> Node {
    number(1.0)
}

#[test]
fn operators() {
    let last = |x| marked(&image(vec![expression(x)]), 0).pop().unwrap();
    let binaries = ["Add", "Lt", "Eq", "Neq", "Gt", "Gte", "Lte", "Sub", "Div", "Mod", "Mul", "Pow"];
    for (op, name) in (1..).zip(binaries) {
        assert_eq!(last(binary(op, 5, text(9), text(9))), format!("{name} 2 0 1 @5"));
    }
    assert_eq!(last(unary(1, 5, one())), "Not 0 0 0 @5");
    assert_eq!(last(unary(2, 5, one())), "Neg 0 0 0 @5");
    for (op, c) in [(1, 1), (2, 0)] {
        let code = marked(&image(vec![expression(logical(op, 5, one(), one()))]), 0);
        assert_eq!(code[1..3], [format!("Test 0 0 {c} @5"), "Jmp 0 0 3 @5".to_string()]);
    }
}

#[test]
fn names_0_to_8_are_builtins() {
    for name in 0..=8 {
        let image = image(vec![expression(variable((name, 5)))]);
        assert_eq!(marked(&image, 0), ["GetBuiltin 0 0 0 @5"]);
        assert_eq!(image.constants, [Constant::Text(name)]);
    }
    let unknown = ask(post(&program(vec![expression(variable((9, 5)))])), Work::Exact, Room::Exact);
    assert_eq!(unknown.answer.numbers(), [9, 0, 0, 0]);
}

#[test]
fn literals_keep_their_words() {
    let image = image(vec![
        expression(text(NONE)),
        expression(text(0)),
        expression(other(0)),
        expression(other(NONE)),
        expression(bits(0xFFF4_5678_9ABC_DEF0)),
    ]);
    let due = [
        Constant::Text(NONE),
        Constant::Text(0),
        Constant::Other(0),
        Constant::Other(NONE),
        Constant::Number(0xFFF4_5678_9ABC_DEF0),
    ];
    assert_eq!(image.constants, due);
}

#[test]
fn marks_of_calls_and_functions() {
    let image = image(vec![
        expression(call(one(), 20, vec![one()])),
        expression(function(&[(10, 30), (11, 31)], vec![return_(32, Some(one()))])),
        expression(function(&[], vec![])),
        function_statement((12, 40), &[(13, 41)], vec![expression(unary(2, 42, variable((13, 43))))]),
    ]);
    let main = [
        "LoadK 0 0 0 @-",
        "Move 1 0 0 @20",
        "LoadK 3 0 1 @-",
        "Move 2 3 0 @-",
        "Call 1 2 5 @20",
        "Closure 5 0 0 @30",
        "Closure 6 0 1 @-",
        "Closure 7 0 2 @40",
        "SetGlobal 7 0 3 @40",
    ];
    assert_eq!(marked(&image, 3), main);
    assert_eq!(marked(&image, 0), ["LoadK 3 0 2 @-", "Return 3 5 0 @32", "Return 0 2 0 @32"]);
    assert_eq!(marked(&image, 2), ["GetCurrentFunc 0 0 0 @40", "Neg 1 1 0 @42", "Return 1 3 0 @42"]);
    let heads: Vec<_> = image.prototypes.iter().map(|p| (p.name, p.parameters, p.registers)).collect();
    assert_eq!(heads, [(NONE, 2, 4), (NONE, 0, 1), (12, 1, 2), (NONE, 0, 8)]);
}

#[test]
fn marks_of_branches() {
    let a = || variable((10, 2));
    let branch =
        if_(20, a(), vec![return_(21, None)], vec![elif(a(), vec![return_(22, None)])], vec![return_(23, None)]);
    let image =
        image(vec![block(vec![let_((10, 1), Some(one())), branch, try_(block(vec![]), (11, 30), return_(31, None))])]);
    let due = [
        "LoadK 0 0 0 @-",
        "Test 0 0 0 @20",
        "Jmp 0 0 3 @20",
        "Return 0 0 0 @21",
        "Jmp 0 0 6 @20",
        "Test 0 0 0 @-",
        "Jmp 0 0 3 @-",
        "Return 0 0 0 @22",
        "Jmp 0 0 2 @-",
        "Return 0 0 0 @23",
        "RegisterTryCatch 0 0 3 @-",
        "DeregisterTryCatch 0 0 0 @-",
        "Jmp 0 0 4 @-",
        "GetExcept 1 0 0 @30",
        "DeregisterTryCatch 0 0 0 @-",
        "Return 0 0 0 @31",
    ];
    assert_eq!(marked(&image, 0), due);
}

#[test]
fn marks_of_loops() {
    // for: the body stands before the increment, and continue goes back to the initializer
    let a = || variable((10, 2));
    let body = block(vec![continue_(21), break_(22)]);
    let loop_ = for_(20, Some(let_((10, 1), Some(one()))), a(), unary(2, 23, a()), body);
    let due = [
        "LoadK 0 0 0 @-",
        "Test 0 0 0 @20",
        "Jmp 0 0 5 @20",
        "Jmp 0 255 253 @21",
        "Jmp 0 0 3 @22",
        "Neg 0 0 0 @23",
        "Jmp 0 255 251 @20",
    ];
    assert_eq!(marked(&image(vec![block(vec![loop_])]), 0), due);

    let image = image(vec![for_in(30, one(), return_(31, None), &[(10, 32), (11, 33)])]);
    let due = [
        "LoadK 0 0 0 @30",
        "LoadK 4 0 1 @-",
        "Length 1 4 0 @30",
        "Lt 2 0 1 @30",
        "Test 2 2 0 @30",
        "Jmp 0 0 7 @30",
        "GetIter 3 4 0 @30",
        "GetIteri 5 3 0 @30",
        "GetIteri 6 3 1 @30",
        "Return 0 0 0 @31",
        "Addi 0 0 1 @30",
        "Jmp 0 255 247 @30",
    ];
    assert_eq!(marked(&image, 0), due);
    assert_eq!(image.constants, [Constant::Number(0), Constant::Number(1f64.to_bits())]);
}

#[test]
fn marks_of_lets_and_classes() {
    let method = |name, mark| function_statement((name, mark), &[], vec![]);
    let image = image(vec![
        let_((10, 20), None),
        let_((11, 21), Some(variable((10, 22)))),
        class((12, 30), Some(variable((11, 31))), vec![method(13, 32)], vec![method(14, 33)]),
    ]);
    let due = [
        "LoadNil 0 0 0 @20",
        "SetGlobal 0 0 0 @20",
        "GetGlobal 1 0 2 @22",
        "SetGlobal 1 0 1 @21",
        "LoadK 3 0 3 @30",
        "GetGlobal 4 0 4 @31",
        "Class 2 3 4 @30",
        "Closure 5 0 0 @32",
        "LoadK 3 0 5 @30",
        "ClassMeth 2 3 5 @30",
        "Closure 6 0 1 @33",
        "LoadK 3 0 6 @30",
        "ClassStMeth 2 3 6 @30",
        "SetGlobal 2 0 7 @30",
    ];
    assert_eq!(marked(&image, 2), due);
    let texts: Vec<_> = [10, 11, 10, 12, 11, 13, 14, 12].map(Constant::Text).into();
    assert_eq!(image.constants, texts);
}

#[test]
fn captures_through_several_functions() {
    // x and y share a register, so one capture serves both
    let reads = function(&[], vec![expression(variable((10, 3))), expression(variable((11, 4)))]);
    let middle = function(&[], vec![expression(reads)]);
    let image = image(vec![block(vec![
        let_((10, 1), Some(one())),
        let_((11, 2), Some(variable((10, 5)))),
        expression(middle),
    ])]);
    assert_eq!(marked(&image, 0), ["GetUpval 1 0 0 @3", "GetUpval 2 0 0 @4"]);
    let captures: Vec<Vec<_>> =
        image.prototypes.iter().map(|p| p.captures.iter().map(|c| (c.local, c.index)).collect()).collect();
    assert_eq!(captures, [vec![(false, 0)], vec![(true, 0)], vec![]]);
}
