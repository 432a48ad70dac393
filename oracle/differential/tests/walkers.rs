//! The runner finds nothing wrong with a right walker, and finds each of these wrong ones.
use differential::run::{run, Plan, Report};
use differential::walks::Walk;
use files::image::Image;
use files::opcodes::opcode;
use oracle::images::build::wide;
use oracle::reading::read;
use oracle::walking::{walk, Run, Walked};
use standin::yengrazul_walk;
use std::slice::{from_raw_parts, from_raw_parts_mut};

fn runs(function: Walk, walks: u64) -> Report {
    run(&Plan { walks, fixed: true, walk: Some(function), ..Plan::nothing(5) })
}

#[test]
fn a_right_walker() {
    let report = runs(yengrazul_walk, 20_000);
    assert_eq!(report.differences, Vec::<String>::new());
    assert!(report.total() > 20_400, "{}", report.total());
    assert!(report.endings.iter().all(|n| *n > 100), "{:?}", report.endings);
}

/// A wrong walker: from what the right one leaves, or from another run or image, something else. The bytes are what was there before.
macro_rules! wrong {
    ($name:ident, |$image:ident, $run:ident, $before:ident, $due:ident| $other:expr) => {
        #[test]
        fn $name() {
            unsafe extern "C" fn wrong(
                i: *const u8,
                n: usize,
                prototype: u64,
                d: *const u8,
                dn: usize,
                s: *const u64,
                sn: usize,
                budget: u64,
                v: *mut u8,
                vn: usize,
                a: *mut u64,
            ) {
                let $image = from_raw_parts(i, n);
                let (decisions, strikes) = (from_raw_parts(d, dn).to_vec(), from_raw_parts(s, sn).to_vec());
                let $run = Run { prototype, decisions, strikes, budget };
                let visited = from_raw_parts_mut(v, vn);
                #[allow(unused_variables)]
                let $before = visited.to_vec();
                #[allow(unused_variables)]
                let $due = walk($image, &$run, vn);
                let other: Walked = $other;
                visited.copy_from_slice(&other.visited);
                from_raw_parts_mut(a, 5).copy_from_slice(&other.numbers);
            }
            assert!(!runs(wrong, 3000).differences.is_empty());
        }
    };
}

fn with(due: Walked, edit: impl Fn(&mut Walked)) -> Walked {
    let mut other = due;
    edit(&mut other);
    other
}

/// Where a walk is not refused.
fn walked(due: Walked, edit: impl Fn(&mut Walked)) -> Walked {
    with(due, |w| {
        if w.numbers[0] == 0 {
            edit(w)
        }
    })
}

fn refused(number: u64, place: u64, lent: usize) -> Walked {
    Walked { numbers: [number, place, 0, 0, 0], visited: vec![0; lent] }
}

/// How many instructions the prototype has.
fn length(image: &[u8], run: &Run) -> Option<usize> {
    Some(read(image).ok()?.prototypes.get(usize::try_from(run.prototype).ok()?)?.instructions.len())
}

/// The walk where each RegisterTryCatch leads to its handler alone.
fn through_handlers(image: &[u8], run: &Run, due: Walked) -> Walked {
    let Ok(mut other) = Image::from_bytes(image) else { return due };
    for i in other.prototypes.iter_mut().flat_map(|p| p.instructions.iter_mut()) {
        if i.opcode == opcode("RegisterTryCatch") && i.bx() > 0 && i.bx() < 32_768 {
            *i = wide("Jmp", 0, i.bx());
        }
    }
    match due.numbers[0] {
        0 => walk(&other.to_bytes(), &Run { budget: run.budget.min(5000), ..run.clone() }, due.visited.len()),
        _ => due,
    }
}

wrong!(the_last_not_visited, |image, run, before, due| walked(due, |w| w.visited[w.numbers[3] as usize] = 0));
wrong!(the_first_not_visited, |image, run, before, due| walked(due, |w| w.visited[0] = 0));
wrong!(decisions_turned_around, |image, run, before, due| {
    let decisions = run.decisions.iter().map(|byte| if *byte < 2 { 1 - byte } else { *byte }).collect();
    if due.numbers[4] == 2 {
        due
    } else {
        walk(image, &Run { decisions, budget: run.budget.min(5000), ..run }, before.len())
    }
});
wrong!(a_budget_one_too_far, |image, run, before, due| match due.numbers {
    [0, .., 2] => walk(image, &Run { budget: run.budget + 1, ..run }, before.len()),
    _ => due,
});
wrong!(a_budget_of_32_bits, |image, run, before, due| walk(
    image,
    &Run { budget: run.budget % (1 << 32), ..run },
    before.len()
));
wrong!(a_prototype_of_32_bits, |image, run, before, due| match due.numbers[0] {
    22 => walk(image, &Run { prototype: run.prototype % (1 << 32), budget: run.budget.min(5000), ..run }, before.len()),
    _ => due,
});
wrong!(a_prototype_of_8_bits, |image, run, before, due| match due.numbers[0] {
    22 => walk(image, &Run { prototype: run.prototype % 256, budget: run.budget.min(5000), ..run }, before.len()),
    _ => due,
});
wrong!(stale_bytes_behind, |image, run, before, due| {
    let code = length(image, &run).unwrap_or(0);
    walked(due, |w| (code..before.len()).for_each(|at| w.visited[at] = before[at]))
});
wrong!(stale_bytes_where_nothing_went, |image, run, before, due| walked(due, |w| {
    w.visited.iter_mut().zip(&before).for_each(|(byte, was)| *byte |= was)
}));
wrong!(stale_bytes_when_refused, |image, run, before, due| with(due, |w| if w.numbers[0] > 20 {
    w.visited = before.clone()
}));
wrong!(stale_bytes_of_a_refused_image, |image, run, before, due| with(due, |w| {
    if [19, 20].contains(&w.numbers[0]) {
        w.visited = before.clone()
    }
}));
wrong!(visits_counted, |image, run, before, due| walked(due, |w| if w.numbers[2] > 60 {
    w.visited[0] = 2
}));
wrong!(budget_before_decisions, |image, run, before, due| walked(due, |w| {
    if w.numbers[4] == 1 && w.numbers[2] == run.budget {
        w.numbers[4] = 2
    }
}));
wrong!(budget_before_a_return, |image, run, before, due| walked(due, |w| {
    if w.numbers[4] == 0 && w.numbers[2] == run.budget {
        w.numbers[4] = 2
    }
}));
wrong!(decisions_asked_for_everywhere, |image, run, before, due| if run.decisions.is_empty() && due.numbers[2] > 0 {
    let mut visited = vec![0; before.len()];
    visited[0] = 1;
    Walked { numbers: [0, 0, 0, 0, 1], visited }
} else {
    due
});
wrong!(handlers_entered, |image, run, before, due| through_handlers(image, &run, due));
wrong!(instructions_for_steps, |image, run, before, due| walked(due, |w| w.numbers[2] += 1));
wrong!(the_next_index, |image, run, before, due| walked(due, |w| if w.numbers[4] == 2 {
    w.numbers[3] += 1
}));
wrong!(endings_from_1, |image, run, before, due| walked(due, |w| w.numbers[4] += 1));
wrong!(unused_decisions_not_judged, |image, run, before, due| match due.numbers {
    [23, place, ..] if place > 3 => {
        let decisions = run.decisions[..place as usize].to_vec();
        walk(image, &Run { decisions, budget: run.budget.min(5000), ..run }, before.len())
    }
    _ => due,
});
wrong!(the_last_bad_decision, |image, run, before, due| with(due, |w| if w.numbers[0] == 23 {
    w.numbers[1] = run.decisions.iter().rposition(|byte| *byte > 1).unwrap() as u64
}));
wrong!(any_decision_but_0_is_1, |image, run, before, due| if due.numbers[0] == 23 {
    let decisions = run.decisions.iter().map(|byte| (*byte).min(1)).collect();
    walk(image, &Run { decisions, budget: run.budget.min(5000), ..run }, before.len())
} else {
    due
});
wrong!(the_order_of_29_and_23, |image, run, before, due| match length(image, &run) {
    Some(code) if due.numbers[0] == 23 && before.len() < code => refused(29, 0, before.len()),
    _ => due,
});
wrong!(the_order_of_23_and_22, |image, run, before, due| match run.decisions.iter().position(|byte| *byte > 1) {
    Some(at) if due.numbers[0] == 22 => refused(23, at as u64, before.len()),
    _ => due,
});
wrong!(prototypes_before_the_image, |image, run, before, due| if due.numbers[0] == 20 && run.prototype > 255 {
    refused(22, 0, before.len())
} else {
    due
});
wrong!(exactly_as_many_bytes_refused, |image, run, before, due| match length(image, &run) {
    Some(code) if due.numbers[0] == 0 && before.len() == code => refused(29, 0, before.len()),
    _ => due,
});
wrong!(one_byte_too_few_taken, |image, run, before, due| match length(image, &run) {
    Some(code) if due.numbers[0] == 29 && before.len() + 1 == code => {
        let mut other = walk(image, &Run { budget: run.budget.min(5000), ..run }, code);
        other.visited.truncate(before.len());
        other
    }
    _ => due,
});
wrong!(a_place_of_29, |image, run, before, due| with(due, |w| if w.numbers[0] == 29 {
    w.numbers[1] = before.len() as u64
}));
wrong!(steps_when_refused, |image, run, before, due| with(due, |w| if w.numbers[0] > 0 {
    w.numbers[2] = 1
}));

/// A right walker that then writes where it must not.
macro_rules! harm {
    ($name:ident, |$image:ident, $decisions:ident, $visited:ident, $lent:ident, $answer:ident| $harm:expr) => {
        #[test]
        fn $name() {
            #[allow(unused_variables)]
            unsafe extern "C" fn wrong(
                i: *const u8,
                n: usize,
                prototype: u64,
                d: *const u8,
                dn: usize,
                s: *const u64,
                sn: usize,
                budget: u64,
                v: *mut u8,
                vn: usize,
                a: *mut u64,
            ) {
                yengrazul_walk(i, n, prototype, d, dn, s, sn, budget, v, vn, a);
                let ($image, $decisions, $visited, $lent, $answer) = ((i as *mut u8, n), (d as *mut u8, dn), v, vn, a);
                $harm
            }
            assert!(!runs(wrong, 200).differences.is_empty());
        }
    };
}

harm!(the_image, |image, decisions, visited, lent, answer| if image.1 > 0 {
    *image.0 ^= 1
});
harm!(the_decisions, |image, decisions, visited, lent, answer| if decisions.1 > 0 {
    *decisions.0 ^= 1
});
harm!(behind_the_decisions, |image, decisions, visited, lent, answer| *decisions.0.add(decisions.1) ^= 1);
harm!(behind_the_bytes, |image, decisions, visited, lent, answer| *visited.add(lent) ^= 1);
harm!(before_the_bytes, |image, decisions, visited, lent, answer| *visited.sub(1) ^= 1);
harm!(behind_the_answer, |image, decisions, visited, lent, answer| *answer.add(5) ^= 1);

#[test]
fn nothing_done() {
    unsafe extern "C" fn nothing(
        _: *const u8,
        _: usize,
        _: u64,
        _: *const u8,
        _: usize,
        _: *const u64,
        _: usize,
        _: u64,
        _: *mut u8,
        _: usize,
        _: *mut u64,
    ) {
    }
    assert!(!runs(nothing, 10).differences.is_empty());
}
