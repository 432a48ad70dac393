//! The oracle against what was written down by hand from 01.
use oracle::limits::{ask, cases, edited_shapes, edited_wide_shapes, wide_cases, wide_zoo, zoo, Case, Room, Work};
use oracle::trees::order::post;

#[test]
fn every_case_gives_what_is_due() {
    give_what_is_due(cases());
}

#[test]
fn so_does_every_wide_case() {
    give_what_is_due(wide_cases());
}

fn give_what_is_due(cases: Vec<Case>) {
    let mut wrong = vec![];
    let (mut n, mut seen) = (0, [0; 19]);
    for case in cases {
        let asked = case.ask();
        let (number, place) = case.due.expect("all of these say what is due");
        let got = (asked.answer.number, asked.answer.place as usize);
        if got != (number, place) {
            wrong.push(format!("{}: {got:?} where ({number}, {place}) is due", case.name));
        }
        n += 1;
        seen[usize::from(number)] += 1;
    }
    assert!(wrong.is_empty(), "{} of {n}:\n{}", wrong.len(), wrong.join("\n"));
    assert!(n > 1500 && seen.iter().all(|k| *k > 0), "{n} cases, by number {seen:?}");
}

#[test]
fn the_zoo_is_accepted_and_its_edits_are_judged() {
    for (zoo, edits) in [(post(&zoo()), edited_shapes()), (wide_zoo(), edited_wide_shapes())] {
        assert_eq!(ask(zoo, Work::Exact, Room::Exact).answer.number, 0);
        let mut seen = [0; 19];
        for file in edits {
            seen[usize::from(ask(file, Work::Exact, Room::Exact).answer.number)] += 1;
        }
        assert!(seen[0] > 100 && seen[3] > 1000 && seen[4] > 100 && seen[9] > 10, "{seen:?}");
    }
}
