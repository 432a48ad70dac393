//! The fixed sample: which cases stand in crates/lower_replay/stdin.
use crate::limits::{ask, ask_in, cases, wide_cases, wide_zoo, zoo, Asked, Case, Room, Work};
use crate::packed::Packed;
use crate::questions;
use crate::trees::order::post;

/// The seed of the committed sample.
pub const SEED: u64 = 20_260;

/// Mode 0: reference programs and limits, the zoo, then random and damaged trees of the seed. Mode 1: long loops, the zoo, then small
/// trees of many loops, damaged ones, and classes. Then modes that are none. Then wide trees: the edges of the width, the reference
/// programs and some of the limits, the zoo, and of the seed, mixed ones among them, in both modes.
pub fn sample(seed: u64) -> Vec<Packed> {
    let mut asked: Vec<Asked> =
        cases().into_iter().enumerate().filter(|(k, c)| chosen(*k, c)).map(|(_, c)| c.ask()).collect();
    asked.push(ask(post(&zoo()), Work::Exact, Room::Exact));
    let small = |a: &Asked| a.tree.len() < 2000 && a.image.len() < 4000;
    asked.extend((0..).map(|k| questions::random(seed, k, 0).ask()).filter(small).take(400));
    asked.extend((0..).map(|k| questions::damaged(seed, k, 0).ask()).filter(small).take(300));
    let long_loop = |c: &Case| c.name.starts_with("for") && c.name.ends_with("over 257");
    asked.extend(cases().iter().filter(|c| long_loop(c)).map(|c| ask_in(1, c.rule.expand(), c.work, c.room)));
    asked.push(ask_in(1, post(&zoo()), Work::Exact, Room::Exact));
    asked.extend((0..).map(|k| questions::small(seed, k, 1).ask()).filter(small).take(130));
    asked.extend((0..).map(|k| questions::damaged(seed, k, 1).ask()).filter(small).take(40));
    asked.extend((0..).map(|k| questions::classes(seed, k, 1).ask()).filter(small).take(20));
    asked.extend((0..).map(|k| questions::no_mode(seed, k).ask()).filter(small).take(40));
    // the program that replays it has room for 1,000,000 bytes
    let tiny = |a: &Asked| a.tree.len() < 300 && a.image.len() < 400;
    let wide = wide_cases();
    asked.extend(wide.iter().enumerate().filter(|(k, c)| wide_chosen(*k, c)).map(|(_, c)| c.ask()).filter(tiny));
    asked.extend((0..2).map(|mode| ask_in(mode, wide_zoo(), Work::Exact, Room::Exact)));
    for mode in 0..2 {
        asked.extend((0..).map(|k| questions::wide(seed, k, mode).ask()).filter(tiny).take(30));
    }
    asked.iter().map(Packed::of).collect()
}

/// What is of the width alone, the reference programs, and every few of the others.
fn wide_chosen(k: usize, case: &Case) -> bool {
    let old = case.name.starts_with("wide: ");
    let mark = case.name.starts_with("mark ");
    !old && !mark || case.name.contains("reference") || k % if mark { 9 } else { 50 } == 0
}

/// The limits are all there, but of the long rows of like cases every few.
fn chosen(k: usize, case: &Case) -> bool {
    let every = |n: usize| k % n == 0;
    let name = &case.name;
    if name.contains(" left") && (name.contains("registers") || name.contains("constants")) {
        return every(2);
    }
    if name.contains(" over ") {
        return every(3);
    }
    if name.contains("Plus") || name.contains("Minus") || name.contains("Star") {
        return every(5);
    }
    true
}
