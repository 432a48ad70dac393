//! 1 Frame, 2 Many, 6 Work and 18 Room.
use super::{Case, Room, Work};
use crate::trees::build::*;
use crate::trees::order::post;
use crate::trees::reference;
use crate::trees::rule::{bare_returns, empty_blocks, fields_then, Rule};

pub fn cases() -> Vec<Case> {
    let mut all = vec![];
    all.extend(cuts());
    all.extend(counts());
    all.extend(lent());
    all
}

/// A file of three fields cut at each byte: the place is the number of whole fields.
fn cuts() -> Vec<Case> {
    let file = post(&program(vec![expression(number(1.0))]));
    let ends = [11, 16, 21];
    let cut = |k: usize| {
        let whole = ends.iter().filter(|end| **end <= k).count();
        // a file cut between two fields is whole; its last node is no program
        let due = if k > 0 && ends.contains(&k) { (3, whole - 1) } else { (1, whole) };
        Case::file(format!("cut at {k}"), Rule::plain(file[..k].to_vec()), Some(due))
    };
    let mut all: Vec<Case> = (0..file.len()).map(cut).collect();
    for (name, end) in [("a tag", &[0x1E][..]), ("half a length", &[0x1E, 0]), ("a length", &[0x1E, 0, 1])] {
        all.push(Case::file(format!("one field then {name}"), fields_then(1, end), Some((1, 1))));
    }
    all.push(Case::file("a length that runs past the end", Rule::plain(vec![0x12, 0xFF, 0xFF]), Some((1, 0))));
    all
}

/// 32,768 fields and one more; a cut behind more than 32,768 and more than 65,535 whole fields is still 1.
fn counts() -> Vec<Case> {
    vec![
        Case::file("32,767 fields", empty_blocks(32_766), Some((0, 0))),
        Case::file("32,768 fields", empty_blocks(32_767), Some((0, 0))),
        Case::file("32,769 fields", fields_then(32_768, &[0x1E, 0, 0]), Some((2, 32_768))),
        Case::file("32,768 fields, none a program", fields_then(32_768, &[]), Some((3, 32_767))),
        Case::file("70,000 fields", fields_then(70_000, &[]), Some((2, 32_768))),
        Case::file("32,769 fields and a cut one", fields_then(32_769, &[0x1E]), Some((1, 32_769))),
        Case::file("65,536 fields and a cut one", fields_then(65_536, &[0x1E, 0]), Some((1, 65_536))),
        Case::file("70,001 fields and a cut one", fields_then(70_001, &[0x1E, 0, 1]), Some((1, 70_001))),
    ]
}

/// The work area and the output at their sizes, one short, and empty.
fn lent() -> Vec<Case> {
    let mut all = vec![];
    for (name, rule) in reference::programs() {
        let due =
            crate::answer::image(&rule.expand(), 0, 1 << 40).map_or_else(|r| (r.number, r.place as usize), |_| (0, 0));
        let last = files::tree::fields(&rule.expand()).unwrap().len().saturating_sub(1);
        let case = || Case::file(format!("reference {name}"), rule.clone(), Some(due));
        all.push(case());
        all.push(case().lending(Work::Plenty, Room::Exact));
        if due.0 == 0 {
            all.push(Case { due: Some((18, last)), ..case().lending(Work::Exact, Room::Short) });
            all.push(Case { due: Some((18, last)), ..case().lending(Work::Exact, Room::Bytes(0)) });
        }
        if !(1..=5).contains(&due.0) {
            all.push(Case { due: Some((6, 0)), ..case().lending(Work::Short, Room::Plenty) });
            all.push(Case { due: Some((6, 0)), ..case().lending(Work::Words(0), Room::Bytes(0)) });
        }
    }
    let broken = || Case::file("misshapen", Rule::plain(vec![0x1E, 0, 1, 0]), Some((3, 0)));
    all.push(broken().lending(Work::Words(0), Room::Bytes(0)));
    let many = Case::file("17 before 18", bare_returns(32_767), Some((17, 32_767)));
    all.push(many.lending(Work::Exact, Room::Bytes(0)));
    all
}
