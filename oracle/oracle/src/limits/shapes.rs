//! A tree with every tag, and every small edit of it: each word, each tag, each length.
use crate::trees::build::*;
use crate::trees::damage::{joined, loose, Loose};
use crate::trees::order::post;
use crate::trees::width::widened;
use files::NONE;

/// A small accepted program in which every tag stands.
pub fn zoo() -> Node {
    let x = (10, 1);
    let var = || variable(x);
    let method = |name| function_statement((name, 2), &[(13, 3)], vec![return_(4, Some(variable((13, 5))))]);
    program(vec![
        let_(x, Some(number(1.5))),
        let_((11, 6), None),
        expression(call(var(), 7, vec![text(NONE), other(8)])),
        block(vec![let_((12, 9), Some(unary(1, 10, var())))]),
        while_(
            11,
            logical(1, 12, var(), var()),
            if_(13, var(), vec![break_(14)], vec![elif(var(), vec![continue_(15)])], vec![return_(16, None)]),
        ),
        for_(
            17,
            Some(let_((14, 18), Some(number(0.0)))),
            binary(2, 19, variable((14, 20)), number(9.0)),
            binary(1, 21, variable((14, 22)), number(1.0)),
            block(vec![]),
        ),
        for_(23, None, var(), var(), expression(var())),
        for_in(24, var(), block(vec![]), &[(15, 25), (16, 26)]),
        try_(
            block(vec![expression(function(&[(17, 27)], vec![expression(variable((17, 28))), return_(29, None)]))]),
            (18, 30),
            block(vec![]),
        ),
        class((19, 31), Some(variable((2, 32))), vec![method(20)], vec![method(21), method(22)]),
        class((23, 33), None, vec![], vec![]),
    ])
}

/// Every edit of one word, tag or length of the zoo.
pub fn edited_shapes() -> Vec<Vec<u8>> {
    edited(&post(&zoo()))
}

/// The same of the zoo with marks of four bytes, whose high halves are not 0.
pub fn edited_wide_shapes() -> Vec<Vec<u8>> {
    edited(&wide_zoo())
}

/// The zoo with line 3 before its marks, as if they were columns.
pub fn wide_zoo() -> Vec<u8> {
    widened(&post(&zoo()), |mark| 3 << 16 | mark).expect("short payloads")
}

fn edited(tree: &[u8]) -> Vec<Vec<u8>> {
    let fields = loose(tree);
    let mut all = vec![];
    for at in 0..fields.len() {
        let mut add = |edit: &dyn Fn(&mut Loose)| {
            let mut changed = fields.clone();
            edit(&mut changed[at]);
            all.push(joined(&changed));
        };
        for tag in (0..=0x20).chain([0x3E, 0x41, 0xFF]) {
            add(&|f| f.tag = tag);
        }
        add(&|f| f.payload.push(0));
        add(&|f| f.payload.extend([0, 0]));
        add(&|f| f.payload.truncate(f.payload.len().saturating_sub(1)));
        add(&|f| f.payload.truncate(f.payload.len().saturating_sub(2)));
        for k in 0..fields[at].payload.len() / 2 {
            for word in words_to_try(&fields, at, k) {
                add(&|f| f.payload[2 * k..2 * k + 2].copy_from_slice(&word.to_be_bytes()));
            }
        }
    }
    all
}

fn words_to_try(fields: &[Loose], at: usize, k: usize) -> Vec<u16> {
    let p = &fields[at].payload;
    let old = u16::from_be_bytes([p[2 * k], p[2 * k + 1]]);
    let own = at as u16;
    let last = fields.len() as u16 - 1;
    vec![0, 1, 2, 3, 12, 13, old.wrapping_add(1), old.wrapping_sub(1), own, own + 1, last, last + 1, NONE - 1, NONE]
}
