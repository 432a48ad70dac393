//! The traced copy against the source, unchanged and as mode 1 has it, in this process and in children.
use oracle::compare::{end_due, fits, in_process, Outcome};
use oracle::limits::cases;
use oracle::questions::Question;
use oracle::trees::build::*;
use oracle::trees::order::post;
use oracle::{answer, judge, questions};
use std::io::Write;
use std::process::{Command, Stdio};

const SEED: u64 = 7;

/// How many of the first cases of a mode could be compared, on two threads.
fn compared(count: u64, make: fn(u64, u64, u64) -> Question, mode: u64) -> u64 {
    let half = |odd: u64| {
        let mut compared = 0;
        for k in (odd..count).step_by(2) {
            match in_process(&make(SEED, k, mode).tree, mode) {
                Ok(something) => compared += u64::from(something),
                Err(fault) => panic!("case {k} of seed {SEED} in mode {mode}: {fault}"),
            }
        }
        compared
    };
    std::thread::scope(|s| {
        let other = s.spawn(|| half(1));
        half(0) + other.join().unwrap()
    })
}

#[test]
fn random_trees() {
    let n = compared(24_000, questions::random, 0);
    assert!(n > 20_000, "{n} could be compared");
}

#[test]
fn random_trees_in_mode_1() {
    let n = compared(24_000, questions::random, 1);
    assert!(n > 20_000, "{n} could be compared");
}

#[test]
fn trees_in_which_limits_meet() {
    for mode in 0..2 {
        let n = compared(500, questions::meeting, mode);
        assert!(n > 350, "{n} could be compared in mode {mode}");
    }
}

#[test]
fn limits() {
    let mut n = 0;
    for case in cases() {
        let tree = case.rule.expand();
        for mode in 0..2 {
            match in_process(&tree, mode) {
                Ok(something) => n += u64::from(something),
                Err(fault) => panic!("{}: {fault}", case.name),
            }
        }
    }
    assert!(n > 3000, "{n} could be compared");
}

fn child(tree: &[u8]) -> Outcome {
    let mut child = Command::new(env!("CARGO_BIN_EXE_oracle"))
        .args(["rust", "-"])
        .stdin(Stdio::piped())
        .stdout(Stdio::piped())
        .spawn()
        .expect("a child");
    child.stdin.take().unwrap().write_all(tree).unwrap();
    let output = child.wait_with_output().unwrap();
    assert!(output.status.success(), "the child failed");
    let text = String::from_utf8(output.stdout).unwrap();
    Outcome::parse(&text).unwrap_or_else(|| panic!("a child wrote {text:?}"))
}

/// Each refusal 7 to 17 as a child shows it, up to so many of each number.
#[test]
fn refusals_seen_from_a_child() {
    let most = 40;
    let mut seen = [0; 19];
    let random = (0..12_000).map(|k| questions::random(SEED + 1, k, 0).ask());
    for asked in cases().iter().map(|c| c.ask()).chain(random) {
        let number = asked.answer.number;
        if (7..=17).contains(&number) && seen[usize::from(number)] < most {
            let nodes = judge::check(&asked.tree, 0, asked.work).unwrap();
            let Some(due) = end_due(&nodes, 0) else { continue };
            seen[usize::from(number)] += 1;
            let did = child(&asked.tree);
            assert!(fits(&nodes, &due, &did), "{} and {did:?}", asked.answer);
        }
    }
    assert!(seen[7..=17].iter().all(|n| *n >= 3), "{seen:?}");
}

fn literals(n: usize) -> Vec<Node> {
    (0..n).map(|_| expression(number(1.0))).collect()
}

const A: Pair = (20, 7);

/// So many instructions where a is a local, by two nodes for each three.
fn instructions(n: usize) -> Vec<Node> {
    let ifs = (0..n / 3).map(|_| if_(7, variable(A), vec![], vec![], vec![]));
    ifs.chain((0..n % 3).map(|_| return_(7, None))).collect()
}

fn functions(n: usize, body: impl Fn() -> Vec<Node>) -> Vec<Node> {
    (0..n).map(|_| expression(function(&[], body()))).collect()
}

/// Statements that 11, 14, 15, 16 and 17 refuse, none of which the source knows.
fn unknown_to_the_source() -> Vec<(u8, Vec<Node>)> {
    let nested = (0..8).fold(vec![], |body, _| functions(1, || body.clone()));
    vec![
        (11, vec![break_(7)]),
        (14, functions(5, || literals(250))),
        (15, [functions(1, || functions(200, Vec::new)), functions(60, Vec::new)].concat()),
        (16, nested),
        (17, functions(1, || vec![let_(A, None), block(instructions(32_767))])),
    ]
}

/// What may come after, with how the source then ends.
fn afterwards() -> Vec<(&'static str, Vec<Node>)> {
    let params: Vec<Pair> = (0..254).map(|k| (100 + k, 7)).collect();
    let empty = expression(function(&[], vec![let_((21, 7), None)]));
    let last = expression(function(&params, vec![return_(7, Some(variable((353, 7))))]));
    vec![
        ("finished ", vec![]),
        ("panicked Ran out of registers", literals(256)),
        ("Compilation Error on line 9\n\tUndefined variable: n30", vec![expression(variable((30, 9)))]),
        ("Compilation Error on line 8\n\tGlobal already defined: n31", vec![let_((31, 7), None), let_((31, 8), None)]),
        ("panicked called `Option::unwrap()` on a `None` value", vec![empty]),
        ("panicked attempt to add with overflow", vec![last]),
    ]
}

/// Past 11 and 14 to 17 the source ends by what comes after, and no other end is taken for right.
#[test]
fn only_the_end_that_follows_is_allowed() {
    let mut seen: Vec<(Vec<u8>, Outcome)> = vec![];
    for (number, statements) in unknown_to_the_source() {
        for (end, more) in afterwards() {
            let tree = post(&program([statements.clone(), more].concat()));
            assert_eq!(answer::answer(&tree, 0, u64::MAX, u64::MAX).0.number, number, "{number}, then {end}");
            let did = child(&tree);
            assert!(did.to_string().starts_with(end), "{number}, then {end}: {did}");
            seen.push((tree, did));
        }
    }
    for (tree, did) in &seen {
        let nodes = judge::check(tree, 0, u64::MAX).unwrap();
        let due = end_due(&nodes, 0).expect("an end");
        for (_, other) in &seen {
            assert_eq!(fits(&nodes, &due, other), did == other, "due {due:?}, and {other}");
        }
    }
}

/// 17, and the one loop that stops the source: its way back is 32,768.
#[test]
fn a_loop_of_exactly_32_768_stops_the_source() {
    for (n, stops) in [(32_765, false), (32_766, true), (32_767, false)] {
        let tree = post(&program(vec![block(vec![let_(A, None), while_(7, variable(A), block(instructions(n)))])]));
        let nodes = judge::check(&tree, 0, u64::MAX).unwrap();
        let did = child(&tree);
        let words = if stops { "panicked attempt to negate with overflow" } else { "finished " };
        assert!(did.to_string().starts_with(words), "{n}: {did}");
        assert!(fits(&nodes, &end_due(&nodes, 0).unwrap(), &did), "{n}: {did}");
        (0..2).for_each(|mode| assert_eq!(in_process(&tree, mode), Ok(true), "{n}"));
    }
}

/// Not run by itself: the source ends this process where an image or a panic is due.
#[test]
#[ignore]
fn the_source_exits_here() {
    let unknown = [0x04, 0, 4, 0, 10, 0, 7, 0x10, 0, 2, 0, 0, 0x1E, 0, 2, 0, 1];
    let _ = unchanged::attempt(&judge::check(&unknown, 0, u64::MAX).unwrap());
}

/// An exit of the source must not pass for success.
#[test]
fn an_exit_in_a_comparison_is_a_failure() {
    let run = Command::new(std::env::current_exe().unwrap())
        .args(["--ignored", "--exact", "the_source_exits_here"])
        .output()
        .unwrap();
    assert!(!run.status.success());
    let text = String::from_utf8_lossy(&run.stdout).into_owned() + &String::from_utf8_lossy(&run.stderr);
    assert!(text.contains("the source ended the process"), "{text}");
}
