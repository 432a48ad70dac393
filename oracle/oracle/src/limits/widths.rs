//! Wide trees: the limits of 01 with four bytes in every mark, and the edges of the width itself.
use super::{cases as narrow_cases, Case, Due};
use crate::trees::rule::Rule;
use crate::trees::values::WIDE_MARKS;
use crate::trees::width::{kept, widened};
use files::tree::push_field;

pub fn cases() -> Vec<Case> {
    let mut all: Vec<Case> = narrow_cases().into_iter().filter_map(made_wide).collect();
    all.extend(programs());
    all.extend(payloads());
    all.extend(marks());
    all.extend(cuts());
    all
}

/// The same case in a wide tree, where its payloads do not grow too long: the same number and place are due.
fn made_wide(narrow: Case) -> Option<Case> {
    let old = narrow.rule.expand();
    let tree = widened(&old, kept).filter(|tree| *tree != old)?;
    Some(Case { name: format!("wide: {}", narrow.name), rule: Rule::plain(tree), ..narrow })
}

type Row<'r> = (u8, &'r [u16]);

const ONE: Row = (0x01, &[0x3FF0, 0, 0, 0]);
const BLOCK: Row = (0x12, &[]);

fn rows(name: impl Into<String>, rows: &[Row], due: Due) -> Case {
    let mut file = vec![];
    for (tag, words) in rows {
        let payload: Vec<u8> = words.iter().flat_map(|w| w.to_be_bytes()).collect();
        push_field(&mut file, *tag, &payload);
    }
    Case::file(name, Rule::plain(file), Some(due))
}

/// A program of either kind is the last node, and no other is.
fn programs() -> Vec<Case> {
    let (narrow, wide): (Row, Row) = ((0x1E, &[]), (0x3E, &[]));
    vec![
        rows("3E alone", &[wide], (0, 0)),
        rows("two of 3E", &[wide, wide], (3, 0)),
        rows("3E, then 1E", &[wide, narrow], (3, 0)),
        rows("1E, then 3E", &[narrow, wide], (3, 0)),
        rows("3E first", &[wide, BLOCK], (3, 0)),
        rows("3E in the middle of a wide tree", &[BLOCK, wide, (0x3E, &[0])], (3, 1)),
        rows("3E in the middle of a narrow tree", &[BLOCK, wide, (0x1E, &[0])], (3, 1)),
        rows("1E in the middle of a wide tree", &[BLOCK, narrow, (0x3E, &[0])], (3, 1)),
        rows("3E as a statement", &[wide, (0x3E, &[0])], (3, 0)),
        rows("3E with a child", &[BLOCK, (0x3E, &[0])], (0, 0)),
        rows("3E with an expression", &[ONE, (0x3E, &[0])], (3, 1)),
        rows("3E with a child twice", &[BLOCK, (0x3E, &[0, 0])], (4, 0)),
        rows("3E with a child that is none", &[BLOCK, (0x3E, &[0, 7])], (3, 1)),
        // a tree whose last node is no program has narrow marks, and breaks at the last at the latest
        rows("no program, narrow payloads", &[(0x16, &[5]), BLOCK], (3, 1)),
        rows("no program, wide payloads", &[(0x16, &[0, 5]), BLOCK], (3, 0)),
        Case::file("an odd 3E", Rule::plain(vec![0x3E, 0, 1, 0]), Some((3, 0))),
    ]
}

/// Every node with a mark that has the other width, in both kinds of trees: it does not fit, but where another form of it does.
fn payloads() -> Vec<Case> {
    let narrow: [(&str, Row); 11] = [
        ("variable", (0x04, &[0, 5])),
        ("unary", (0x05, &[1, 5, 0])),
        ("binary", (0x06, &[2, 5, 0, 0])),
        ("logical", (0x07, &[1, 5, 0, 0])),
        ("while", (0x13, &[5, 0, 1])),
        ("for", (0x14, &[5, 65_535, 0, 0, 1])),
        ("for-in", (0x15, &[5, 0, 1, 10, 5])),
        ("break", (0x16, &[5])),
        ("continue", (0x17, &[5])),
        ("bare return", (0x18, &[5])),
        ("try", (0x1B, &[1, 10, 5, 1])),
    ];
    let wide: [(&str, Row); 10] = [
        ("variable", (0x04, &[0, 1, 5])),
        ("unary", (0x05, &[1, 1, 5, 0])),
        ("binary", (0x06, &[2, 1, 5, 0, 0])),
        ("logical", (0x07, &[1, 1, 5, 0, 0])),
        ("while", (0x13, &[1, 5, 0, 1])),
        ("for", (0x14, &[1, 5, 65_535, 0, 0, 1])),
        ("for-in", (0x15, &[1, 5, 0, 1, 10, 1, 5])),
        ("break", (0x16, &[1, 5])),
        ("continue", (0x17, &[1, 5])),
        ("try", (0x1B, &[1, 10, 1, 5, 1])),
    ];
    let mut all: Vec<Case> = narrow
        .iter()
        .map(|(name, row)| rows(format!("narrow {name} in a wide tree"), &[ONE, BLOCK, *row, (0x3E, &[2])], (3, 2)))
        .collect();
    all.extend(
        wide.iter().map(|(name, row)| {
            rows(format!("wide {name} in a narrow tree"), &[ONE, BLOCK, *row, (0x1E, &[2])], (3, 2))
        }),
    );
    all.extend([
        // a narrow return of a value is a wide one of none, so that its value is no node's child
        rows("narrow return of a value in a wide tree", &[ONE, (0x18, &[5, 0]), (0x3E, &[1])], (4, 0)),
        rows("wide return of nothing in a narrow tree", &[ONE, (0x18, &[5, 0]), (0x1E, &[1])], (0, 0)),
        // a wide let of nothing is a narrow one of a value, which does not stand below it
        rows("wide let of nothing in a narrow tree", &[(0x11, &[10, 1, 5]), (0x1E, &[0])], (3, 0)),
        rows("narrow let of nothing in a wide tree", &[(0x11, &[10, 5]), (0x3E, &[0])], (3, 0)),
        rows("narrow let of a value in a wide tree", &[ONE, (0x11, &[10, 5, 0]), (0x3E, &[1])], (4, 0)),
        rows("narrow call in a wide tree", &[ONE, (0x08, &[0, 5]), (0x10, &[1]), (0x3E, &[2])], (3, 1)),
        rows("wide call in a narrow tree", &[ONE, (0x08, &[0, 0, 0]), (0x10, &[1]), (0x1E, &[2])], (4, 0)),
        rows("narrow parameter in a wide tree", &[(0x09, &[1, 10, 5]), (0x10, &[0]), (0x3E, &[1])], (3, 0)),
        rows("wide parameter in a narrow tree", &[(0x09, &[1, 10, 0, 5]), (0x10, &[0]), (0x1E, &[1])], (3, 0)),
        rows("narrow if in a wide tree", &[ONE, (0x19, &[5, 0, 0, 0]), (0x3E, &[1])], (3, 1)),
        rows("wide if in a narrow tree", &[ONE, (0x19, &[0, 0, 0, 0, 0]), (0x1E, &[1])], (3, 1)),
        rows("narrow define in a wide tree", &[(0x1C, &[10, 5, 0]), (0x3E, &[0])], (3, 0)),
        rows("wide define in a narrow tree", &[(0x1C, &[10, 0, 5, 0]), (0x1E, &[0])], (3, 0)),
        rows("narrow class in a wide tree", &[(0x1D, &[10, 5, 65_535, 0]), (0x3E, &[0])], (3, 0)),
        rows("wide class in a narrow tree", &[(0x1D, &[10, 0, 5, 65_535, 0]), (0x1E, &[0])], (3, 0)),
        // the lowest node that breaks any rule
        rows("the lowest of two narrow payloads", &[(0x16, &[5]), (0x17, &[5]), (0x3E, &[0, 1])], (3, 0)),
        rows("the second payload alone", &[(0x16, &[0, 5]), (0x17, &[5]), (0x3E, &[0, 1])], (3, 1)),
        // half of a mark
        rows("for-in whose last mark is half", &[ONE, BLOCK, (0x15, &[0, 5, 0, 1, 10, 0]), (0x3E, &[2])], (3, 2)),
        rows("define whose second parameter is cut", &[(0x1C, &[10, 0, 5, 2, 11, 0, 5, 12, 0]), (0x3E, &[0])], (3, 0)),
    ]);
    all
}

/// Every mark is lawful, at each place that has one.
fn marks() -> Vec<Case> {
    let mut all = vec![];
    for mark in WIDE_MARKS {
        let [high, low] = [(mark >> 16) as u16, mark as u16];
        let mut add = |what: &str, list: &[Row]| all.push(rows(format!("mark {mark} in {what}"), list, (0, 0)));
        add("variable", &[(0x04, &[2, high, low]), (0x10, &[0]), (0x3E, &[1])]);
        add("unary", &[ONE, (0x05, &[1, high, low, 0]), (0x10, &[1]), (0x3E, &[2])]);
        add("binary", &[ONE, ONE, (0x06, &[2, high, low, 0, 1]), (0x10, &[2]), (0x3E, &[3])]);
        add("logical", &[ONE, ONE, (0x07, &[2, high, low, 0, 1]), (0x10, &[2]), (0x3E, &[3])]);
        add("call", &[ONE, ONE, (0x08, &[0, high, low, 1]), (0x10, &[2]), (0x3E, &[3])]);
        add("function", &[(0x09, &[2, 10, high, low, 11, 0, 5]), (0x10, &[0]), (0x3E, &[1])]);
        add("let", &[(0x11, &[10, high, low]), (0x3E, &[0])]);
        add("while", &[ONE, BLOCK, (0x13, &[high, low, 0, 1]), (0x3E, &[2])]);
        add("for", &[ONE, ONE, BLOCK, (0x14, &[high, low, 65_535, 0, 1, 2]), (0x3E, &[3])]);
        add("for-in", &[ONE, BLOCK, (0x15, &[high, low, 0, 1, 10, 0, 5, 11, high, low]), (0x3E, &[2])]);
        add("break", &[ONE, (0x16, &[high, low]), (0x13, &[0, 5, 0, 1]), (0x3E, &[2])]);
        add("continue", &[ONE, (0x17, &[high, low]), (0x13, &[0, 5, 0, 1]), (0x3E, &[2])]);
        add("return", &[ONE, (0x18, &[high, low, 0]), (0x3E, &[1])]);
        add("if", &[ONE, (0x19, &[high, low, 0, 0, 0]), (0x3E, &[1])]);
        add("try", &[BLOCK, BLOCK, (0x1B, &[0, 10, high, low, 1]), (0x3E, &[2])]);
        let parameters = &[10, high, low, 2, 11, high, low, 12, 0, 5][..];
        add("function statement", &[(0x1C, parameters), (0x3E, &[0])]);
    }
    all
}

/// Cut before its last field a file says no more that its marks are wide: the return's mark has two bytes then, and a child that is none.
fn cuts() -> Vec<Case> {
    let file = [0x18, 0, 4, 0, 1, 0, 5, 0x3E, 0, 2, 0, 0];
    let cut = |k: usize| {
        let due = if k == 7 { (3, 0) } else { (1, usize::from(k > 7)) };
        Case::file(format!("a wide file cut at {k}"), Rule::plain(file[..k].to_vec()), Some(due))
    };
    (1..file.len()).map(cut).collect()
}
