//! The runner finds nothing wrong with a right library, and finds each of these wrong ones.
use differential::calls::{Check, Lower};
use differential::run::{run, Plan, Report};
use files::tree::{fields, Field};
use oracle::answer;
use standin::{yengrazul_check, yengrazul_lower};
use std::slice::{from_raw_parts, from_raw_parts_mut};

fn runs(lower: Option<Lower>, check: Option<Check>, random: u64, meeting: u64, fixed: bool) -> Report {
    run(&plan(lower, check, random, meeting, fixed))
}

/// A run of two threads in both modes; the counts are of random and damaged trees, each, and of those in which limits meet.
fn plan(lower: Option<Lower>, check: Option<Check>, random: u64, meeting: u64, fixed: bool) -> Plan {
    Plan { random, damaged: random, meeting, no_modes: random / 4, fixed, lower, check, ..Plan::nothing(5) }
}

#[test]
fn a_right_library() {
    let report =
        run(&Plan { minuses: 60, classes: 300, ..plan(Some(yengrazul_lower), Some(yengrazul_check), 1500, 200, true) });
    assert_eq!(report.differences, Vec::<String>::new());
    assert!(report.total() > 18_000, "{}", report.total());
    assert!((0..=18).chain([21, 27]).all(|n| report.by_number[n] > 0), "{:?}", report.by_number);
}

#[test]
fn one_mode_alone() {
    for modes in [&[0], &[1]] {
        let report = run(&Plan { modes, no_modes: 7, ..plan(Some(yengrazul_lower), None, 300, 20, false) });
        assert_eq!((report.total(), report.by_number[21], report.differences.len()), (627, 7, 0));
    }
}

/// A wrong library: the right one, then something done to what is lent.
macro_rules! wrong {
    ($name:ident, |$tree:ident, $work:ident, $out:ident, $answer:ident| $harm:expr) => {
        wrong!($name, |m| m, |$tree, $work, $out, $answer, mode| $harm);
    };
    // the mode is handed on as `$other` makes it
    ($name:ident, $other:expr, |$tree:ident, $work:ident, $out:ident, $answer:ident, $mode:ident| $harm:expr) => {
        #[test]
        fn $name() {
            unsafe extern "C" fn wrong(
                t: *const u8,
                tn: usize,
                w: *mut u32,
                wn: usize,
                o: *mut u8,
                on: usize,
                $mode: u64,
                a: *mut u64,
            ) {
                let other: fn(u64) -> u64 = $other;
                yengrazul_lower(t, tn, w, wn, o, on, other($mode), a);
                #[allow(unused_variables)]
                let ($tree, $work) = (from_raw_parts_mut(t as *mut u8, tn), from_raw_parts_mut(w, wn));
                #[allow(unused_variables)]
                let ($out, $answer) = (from_raw_parts_mut(o, on), from_raw_parts_mut(a, 4));
                $harm
            }
            let report = runs(Some(wrong), None, 400, 0, false);
            assert!(!report.differences.is_empty());
        }
    };
}

wrong!(a_number_off, |tree, work, out, answer| if answer[0] == 9 {
    answer[0] = 10
});
wrong!(a_place_off, |tree, work, out, answer| if answer[0] == 3 {
    answer[1] += 1
});
wrong!(a_length_off, |tree, work, out, answer| if answer[0] == 0 {
    answer[2] -= 1
});
wrong!(a_length_when_refused, |tree, work, out, answer| if answer[0] == 18 {
    answer[2] = 22
});
wrong!(a_byte_of_the_image, |tree, work, out, answer| if answer[0] == 0 {
    out[answer[2] as usize - 1] ^= 1
});
wrong!(a_byte_behind_the_image, |tree, work, out, answer| if out.len() as u64 > answer[2] {
    *out.last_mut().unwrap() = 1
});
wrong!(a_byte_when_refused, |tree, work, out, answer| if answer[0] > 0 && !out.is_empty() {
    out[0] = 0x41
});
wrong!(the_last_work_word, |tree, work, out, answer| if let Some(word) = work.last_mut() {
    *word = 1
});
wrong!(the_tree, |tree, work, out, answer| if tree.len() > 400 {
    tree[7] ^= 1
});
wrong!(behind_the_output, |tree, work, out, answer| *out.as_mut_ptr().add(out.len()) ^= 1);
wrong!(before_the_work_area, |tree, work, out, answer| *work.as_mut_ptr().sub(1) ^= 1);
wrong!(behind_the_answer, |tree, work, out, answer| *answer.as_mut_ptr().add(4) ^= 1);

// visits: the rule's edges, and a count where there is none
wrong!(visits_off, |tree, work, out, answer| if answer[0] == 0 {
    answer[3] += 1
});
wrong!(visits_when_refused, |tree, work, out, answer| if answer[0] > 0 {
    answer[3] = 1
});
wrong!(visits_when_there_is_no_room, |tree, work, out, answer| if answer[0] == 18 {
    answer[3] = 1
});
wrong!(the_program_not_counted, |tree, work, out, answer| if answer[0] == 0 {
    answer[3] -= 1
});
wrong!(every_node_counted_once, |tree, work, out, answer| if answer[0] == 0 {
    answer[3] = fields(tree).unwrap().len() as u64
});
wrong!(a_folded_number_counted, |tree, work, out, answer| if answer[0] == 0 {
    answer[3] = answer[3].max(fields(tree).unwrap().len() as u64)
});
wrong!(a_dropped_pass_not_counted, |tree, work, out, answer| if answer[0] == 0 {
    answer[3] = answer[3].min(fields(tree).unwrap().len() as u64)
});
wrong!(elifs_not_counted, |tree, work, out, answer| answer[3] -= answer[3].min(tagged(tree, 0x1A)));
wrong!(methods_not_counted, |tree, work, out, answer| answer[3] -= answer[3].min(listed_by_classes(tree)));
wrong!(an_initializer_not_counted, |tree, work, out, answer| answer[3] -= answer[3].min(initializers(tree)));

/// How many nodes of a tag stand in a tree.
fn tagged(tree: &[u8], tag: u8) -> u64 {
    fields(tree).map_or(0, |all| all.iter().filter(|f| f.tag == tag).count() as u64)
}

/// The superclass and the methods of every class.
fn listed_by_classes(tree: &[u8]) -> u64 {
    let listed = |words: Vec<u16>| words.len() as u64 - 4 + u64::from(words.get(2) != Some(&65_535));
    fields(tree)
        .map_or(0, |all| all.iter().filter(|f| f.tag == 0x1D && f.payload.len() >= 8).map(|f| listed(f.words())).sum())
}

fn initializers(tree: &[u8]) -> u64 {
    let has = |f: &&Field| f.tag == 0x14 && f.payload.len() == 10 && f.word(1) != 65_535;
    fields(tree).map_or(0, |all| all.iter().filter(has).count() as u64)
}

#[test]
fn visits_of_sixteen_bits() {
    unsafe extern "C" fn cut(
        t: *const u8,
        tn: usize,
        w: *mut u32,
        wn: usize,
        o: *mut u8,
        on: usize,
        mode: u64,
        a: *mut u64,
    ) {
        yengrazul_lower(t, tn, w, wn, o, on, mode, a);
        *a.add(3) %= 65_536;
    }
    let report = run(&Plan { minuses: 400, lower: Some(cut), ..Plan::nothing(5) });
    assert!(!report.differences.is_empty());
}

// modes: mixed up, cut to fewer bits, and calls that are not refused, or with another number or place
wrong!(mode_0_for_1, |mode| if mode == 1 { 0 } else { mode }, |tree, work, out, answer, mode| ());
wrong!(mode_1_for_0, |mode| mode.max(1), |tree, work, out, answer, mode| ());
wrong!(the_low_half_of_a_mode, |mode| mode & 0xFFFF_FFFF, |tree, work, out, answer, mode| ());
wrong!(the_lowest_bit_of_a_mode, |mode| mode & 1, |tree, work, out, answer, mode| ());
wrong!(mode_2_for_0, |mode| if mode == 2 { 0 } else { mode }, |tree, work, out, answer, mode| ());
wrong!(mode_last, |m| m, |tree, work, out, answer, mode| if mode > 1 && tree.is_empty() {
    answer[0] = 1
});
wrong!(a_place_of_the_mode, |m| m, |tree, work, out, answer, mode| if mode > 1 {
    answer[1] = 1
});
wrong!(a_word_left_by_a_mode, |m| m, |tree, work, out, answer, mode| if let (true, [.., last]) = (mode > 1, work) {
    *last = 1
});

#[test]
fn nothing_done() {
    unsafe extern "C" fn nothing(
        _: *const u8,
        _: usize,
        _: *mut u32,
        _: usize,
        _: *mut u8,
        _: usize,
        _: u64,
        _: *mut u64,
    ) {
    }
    assert!(!runs(Some(nothing), None, 10, 0, false).differences.is_empty());
}

#[test]
fn a_wrong_check() {
    unsafe extern "C" fn one_more(t: *const u8, tn: usize, work: usize, mode: u64, a: *mut u64) {
        yengrazul_check(t, tn, work + 1, mode, a);
    }
    unsafe extern "C" fn no_count(t: *const u8, tn: usize, work: usize, mode: u64, a: *mut u64) {
        yengrazul_check(t, tn, work, mode, a);
        *a.add(2) = 0;
    }
    unsafe extern "C" fn mode_0(t: *const u8, tn: usize, work: usize, mode: u64, a: *mut u64) {
        yengrazul_check(t, tn, work, if mode == 1 { 0 } else { mode }, a);
    }
    unsafe extern "C" fn the_lowest_bit_of_a_mode(t: *const u8, tn: usize, work: usize, mode: u64, a: *mut u64) {
        yengrazul_check(t, tn, work, mode & 1, a);
    }
    for wrong in [one_more as Check, no_count, mode_0, the_lowest_bit_of_a_mode] {
        let report = run(&Plan { classes: 400, ..plan(None, Some(wrong), 2000, 0, false) });
        assert!(!report.differences.is_empty());
    }
}

/// A wrong library: where `FIRST` is due and `THEN` meets it in one step, it says `THEN`; at nodes of tag `TAG` alone, if that is not 0.
unsafe extern "C" fn turned<const FIRST: u8, const THEN: u8, const TAG: u8>(
    t: *const u8,
    tn: usize,
    w: *mut u32,
    wn: usize,
    o: *mut u8,
    on: usize,
    mode: u64,
    a: *mut u64,
) {
    yengrazul_lower(t, tn, w, wn, o, on, mode, a);
    let answer = from_raw_parts_mut(a, 4);
    if answer[0] == u64::from(FIRST) {
        let nodes = fields(from_raw_parts(t, tn)).expect("a refused tree is whole");
        let there = TAG == 0 || nodes[answer[1] as usize].tag == TAG;
        if there && traced::met(&nodes, mode).is_some_and(|(_, then)| then == THEN) {
            answer[0] = THEN.into();
        }
    }
}

/// A wrong library: another answer where 27 is due, or 27 where it is not; what the tree would be without 27 is mode 0's answer.
unsafe extern "C" fn retiring<const HOW: u8>(
    t: *const u8,
    tn: usize,
    w: *mut u32,
    wn: usize,
    o: *mut u8,
    on: usize,
    mode: u64,
    a: *mut u64,
) {
    yengrazul_lower(t, tn, w, wn, o, on, mode, a);
    let (tree, answer) = (from_raw_parts(t, tn), from_raw_parts_mut(a, 4));
    let Some(classes) = fields(tree).ok().map(|all| placed(&all, 0x1D)) else { return };
    let before = answer::answer(tree, 0, wn as u64, on as u64).0.numbers();
    match (HOW, answer[0], before[0]) {
        (0, 3, _) if mode == 1 && !classes.is_empty() => answer[..2].copy_from_slice(&[27, classes[0]]),
        (1, 27, _) => answer[1] = classes[classes.len() - 1],
        (2, 27, 4) | (3, 27, 5) | (4, 27, 6) => answer.copy_from_slice(&before),
        (5, 0, _) if mode == 0 && !classes.is_empty() => answer.copy_from_slice(&[27, classes[0], 0, 0]),
        (6, 27, _) => answer[1] += 1,
        (7, 27, _) => answer[3] = 1,
        (8, 27, _) => out_of(o, on, 1),
        _ => {}
    }
}

/// Which fields have a tag.
fn placed(fields: &[Field], tag: u8) -> Vec<u64> {
    fields.iter().enumerate().filter(|(_, f)| f.tag == tag).map(|(place, _)| place as u64).collect()
}

unsafe fn out_of(o: *mut u8, on: usize, byte: u8) {
    if on > 0 {
        *o = byte;
    }
}

#[test]
fn classes_retired_wrongly() {
    let wrong: [(&str, Lower); 9] = [
        ("27 before 3", retiring::<0>),
        ("the highest class", retiring::<1>),
        ("27 after 4", retiring::<2>),
        ("27 after 5", retiring::<3>),
        ("27 after 6", retiring::<4>),
        ("27 in mode 0", retiring::<5>),
        ("the place one off", retiring::<6>),
        ("27 with visits", retiring::<7>),
        ("27 with a byte of output", retiring::<8>),
    ];
    for (name, lower) in wrong {
        let report = run(&Plan { classes: 3000, lower: Some(lower), ..Plan::nothing(5) });
        assert!(!report.differences.is_empty(), "{name}");
    }
}

#[test]
fn two_refusals_in_one_step_turned_around() {
    let wrong: [(&str, Lower); 16] = [
        ("the constant before the register at a number", turned::<7, 14, 0x01>),
        ("the constant before the register at a text", turned::<7, 14, 0x02>),
        ("the constant before the register at another literal", turned::<7, 14, 0x03>),
        ("the constant before the register at a variable", turned::<7, 14, 0x04>),
        ("the constant before the registers at a for-in", turned::<7, 14, 0x15>),
        ("the constant before the registers at a class", turned::<7, 14, 0x1D>),
        ("the register before the capture", turned::<8, 7, 0>),
        ("the register before an unknown name", turned::<9, 7, 0>),
        ("the constant before an unknown name", turned::<9, 14, 0>),
        ("the constant before a known global", turned::<10, 14, 0>),
        ("12 before 13", turned::<13, 12, 0>),
        ("the register before the constant at a let", turned::<14, 7, 0x11>),
        ("the name's constant before the prototype", turned::<15, 14, 0>),
        ("a function opened before its value's register", turned::<7, 16, 0>),
        ("a function's registers before it is opened", turned::<16, 7, 0>),
        ("15 before 17", turned::<17, 15, 0>),
    ];
    for (name, lower) in wrong {
        assert!(!runs(Some(lower), None, 0, 3000, false).differences.is_empty(), "{name}");
    }
}

/// A wrong library in one mode alone.
unsafe extern "C" fn wrong_in<const MODE: u64>(
    t: *const u8,
    tn: usize,
    w: *mut u32,
    wn: usize,
    o: *mut u8,
    on: usize,
    mode: u64,
    a: *mut u64,
) {
    yengrazul_lower(t, tn, w, wn, o, on, mode, a);
    *a ^= u64::from(mode == MODE);
}

#[test]
fn trees_in_which_limits_meet_are_asked_in_both_modes() {
    for lower in [wrong_in::<0> as Lower, wrong_in::<1>] {
        assert!(!runs(Some(lower), None, 0, 10, false).differences.is_empty());
    }
}
