//! Strikes: a walker of a few lines, which the runner finds nothing wrong with, and which is found with each of these twists.
use differential::run::{run, Plan, Report};
use differential::walks::Walk;
use files::opcodes::opcode;
use oracle::reading::read;
use oracle::walking::{Run, Walked};
use std::slice::{from_raw_parts, from_raw_parts_mut};

/// What is twisted: none, or one rule of E8.
const TWISTS: [&str; 24] = [
    "nothing",
    "the first handler entered",
    "the handler taken off when it is entered",
    "a struck step uses a decision",
    "a struck Test asks for a decision",
    "a struck RegisterTryCatch registers",
    "a struck DeregisterTryCatch takes off",
    "Failed is counted",
    "Handlers is counted",
    "255 handlers at most",
    "257 handlers at most",
    "Failed before the budget",
    "Handlers before the budget",
    "a Return is struck",
    "strikes of 32 bits",
    "strikes counted from 1",
    "an entry may be the one before it",
    "the order's place one off",
    "the order judged after the lent bytes",
    "the order judged before the decisions",
    "a struck step is not counted",
    "DeregisterTryCatch takes off every handler",
    "Handlers where the 257th is struck",
    "the handler one behind",
];

/// The numbers of a refusal that comes before the walk.
fn refused<const HOW: usize>(code: usize, run: &Run, lent: usize) -> Option<[u64; 2]> {
    let falls = |pair: &[u64]| if HOW == 16 { pair[1] < pair[0] } else { pair[1] <= pair[0] };
    let decision = run.decisions.iter().position(|byte| *byte > 1).map(|at| [23, at as u64]);
    let order = run.strikes.windows(2).position(falls).map(|at| [25, at as u64 + if HOW == 17 { 0 } else { 1 }]);
    let room = (lent < code).then_some([29, 0]);
    match HOW {
        18 => decision.or(room).or(order),
        19 => order.or(decision).or(room),
        _ => decision.or(order).or(room),
    }
}

fn walked<const HOW: usize>(image: &[u8], run: &Run, lent: usize) -> Walked {
    let [jmp, test, ret, on, off] = ["Jmp", "Test", "Return", "RegisterTryCatch", "DeregisterTryCatch"].map(opcode);
    let mut visited = vec![0; lent];
    let told = |[number, place]: [u64; 2]| Walked { numbers: [number, place, 0, 0, 0], visited: vec![0; lent] };
    let parts = match read(image) {
        Ok(parts) => parts,
        Err(refusal) => return told([refusal.number.into(), refusal.place]),
    };
    let Some(prototype) = parts.prototypes.get(run.prototype.min(1 << 40) as usize) else { return told([22, 0]) };
    let code = &prototype.instructions;
    if let Some(numbers) = refused::<HOW>(code.len(), run, lent) {
        return told(numbers);
    }
    let most = [256, 255, 257][match HOW {
        9 => 1,
        10 => 2,
        _ => 0,
    }];
    let (mut at, mut steps, mut uncounted, mut decisions, mut handlers) = (0, 0u64, 0, run.decisions.iter(), vec![]);
    let ending = loop {
        visited[at] = 1;
        let i = &code[at];
        let number = steps + uncounted;
        let struck = run.strikes.iter().any(|strike| match HOW {
            14 => strike % (1 << 32) == number,
            15 => *strike == number + 1,
            _ => *strike == number,
        });
        let failed = struck && handlers.is_empty();
        let full = (!struck || HOW == 22) && i.opcode == on && handlers.len() == most;
        if i.opcode == ret && !(HOW == 13 && struck && !handlers.is_empty()) {
            break 0;
        }
        if i.opcode == test && decisions.len() == 0 && (!struck || HOW == 4) {
            break 1;
        }
        if HOW == 11 && failed {
            break 3;
        }
        if HOW == 12 && full {
            break 4;
        }
        // what a twist never ends is ended here
        if steps == run.budget || steps > 100_000 {
            break 2;
        }
        if failed {
            steps += u64::from(HOW == 7);
            break 3;
        }
        if full {
            steps += u64::from(HOW == 8);
            break 4;
        }
        if i.opcode == on && (!struck || HOW == 5) {
            handlers.push(at + i.bx());
        }
        let last = if HOW == 1 { handlers.first() } else { handlers.last() }.copied();
        if i.opcode == off && (!struck || HOW == 6) {
            handlers.pop();
            if HOW == 21 {
                handlers.clear();
            }
        }
        let decided =
            if i.opcode == test && (!struck || HOW == 3) { decisions.next().copied().unwrap_or(0) } else { 0 };
        at = match i.opcode {
            _ if struck => last.map_or(at, |to| (to + usize::from(HOW == 23)).min(code.len() - 1)),
            o if o == jmp => (at as isize + i.sbx()) as usize,
            _ => at + 1 + usize::from(decided),
        };
        if struck && HOW == 2 {
            handlers.pop();
        }
        if struck && HOW == 20 {
            uncounted += 1;
        } else {
            steps += 1;
        }
    };
    Walked { numbers: [0, 0, steps, at as u64, ending], visited }
}

unsafe extern "C" fn twisted<const HOW: usize>(
    i: *const u8,
    n: usize,
    prototype: u64,
    d: *const u8,
    dn: usize,
    s: *const u64,
    sn: usize,
    budget: u64,
    v: *mut u8,
    vn: usize,
    a: *mut u64,
) {
    let (decisions, strikes) = (from_raw_parts(d, dn).to_vec(), from_raw_parts(s, sn).to_vec());
    let walked = walked::<HOW>(from_raw_parts(i, n), &Run { prototype, decisions, strikes, budget }, vn);
    from_raw_parts_mut(v, vn).copy_from_slice(&walked.visited);
    from_raw_parts_mut(a, 5).copy_from_slice(&walked.numbers);
}

fn runs(function: Walk, walks: u64) -> Report {
    run(&Plan { walks, fixed: true, walk: Some(function), ..Plan::nothing(9) })
}

#[test]
fn a_walker_without_a_twist() {
    let report = runs(twisted::<0>, 20_000);
    assert_eq!(report.differences, Vec::<String>::new());
    assert!(report.endings.iter().all(|n| *n > 100), "{:?}", report.endings);
}

#[test]
fn each_twist_is_found() {
    macro_rules! all {
        ($($how:literal)*) => { [$(($how, twisted::<$how> as Walk)),*] };
    }
    for (how, function) in all!(1 2 3 4 5 6 7 8 9 10 11 12 13 14 15 16 17 18 19 20 21 22 23) {
        assert!(!runs(function, 4000).differences.is_empty(), "{}", TWISTS[how]);
    }
}

/// Each twist is found among random walks too, not only where it was written down by hand.
#[test]
fn twists_are_found_at_random() {
    let wrong: [(usize, Walk); 6] = [
        (1, twisted::<1>),
        (2, twisted::<2>),
        (3, twisted::<3>),
        (5, twisted::<5>),
        (7, twisted::<7>),
        (20, twisted::<20>),
    ];
    for (how, function) in wrong {
        let report = run(&Plan { walks: 4000, walk: Some(function), ..Plan::nothing(9) });
        assert!(!report.differences.is_empty(), "{}", TWISTS[how]);
    }
}

#[test]
fn the_strikes_are_not_the_walker_s() {
    unsafe extern "C" fn written(
        i: *const u8,
        n: usize,
        prototype: u64,
        d: *const u8,
        dn: usize,
        s: *const u64,
        sn: usize,
        budget: u64,
        v: *mut u8,
        vn: usize,
        a: *mut u64,
    ) {
        twisted::<0>(i, n, prototype, d, dn, s, sn, budget, v, vn, a);
        *(s as *mut u64).add(sn.saturating_sub(1)) ^= 1;
    }
    assert!(!runs(written, 100).differences.is_empty());
}
