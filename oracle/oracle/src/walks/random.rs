//! Random walks: mazes, what small trees give, and images of which most are refused; budgets around the path's length.
use super::{mazes, Question};
use crate::images;
use crate::images::width::widened_at_random;
use crate::reading::read;
use crate::rng::Rng;
use crate::walking::{walk, Ending, Run};
use files::tree::fields;

/// A walk that has not ended after so many steps is in a loop, or is taken for one.
const LONG: u64 = 3000;

/// Case k of a seed.
pub fn any(seed: u64, k: u64) -> Question {
    let mut rng = Rng::for_case(seed ^ 0x7761_6C6B, k);
    let image = match rng.below(10) {
        0 => images::random::any(seed, k),
        1..=4 => images::random::lowered(&mut rng, seed, k).unwrap_or_else(|| mazes::any(&mut rng)),
        _ => mazes::any(&mut rng),
    };
    let image = if rng.chance(300) && fields(&image).is_ok() { widened_at_random(&mut rng, &image) } else { image };
    asked(&mut rng, image)
}

/// A run over an image: mostly of a prototype that is there, with decisions that mostly are some, and all the bytes that are due.
fn asked(rng: &mut Rng, image: Vec<u8>) -> Question {
    let Ok(parts) = read(&image) else {
        let (prototype, budget) = (rng.below(3) as u64, rng.below(50) as u64);
        let run = Run { prototype, decisions: decisions(rng), strikes: strikes(rng, 9), budget };
        return Question { image, run, lent: rng.below(40) };
    };
    let own = rng.below(parts.prototypes.len());
    let length = parts.prototypes[own].instructions.len();
    let mut run = Run { prototype: own as u64, decisions: decisions(rng), strikes: vec![], budget: LONG };
    let steps = walk(&image, &run, length).numbers[2];
    run.strikes = if rng.chance(400) { vec![] } else { strikes(rng, steps) };
    run.budget = budget(rng, &image, &run, length);
    if rng.chance(60) {
        run.prototype = unknown(rng, parts.prototypes.len() as u64);
    }
    if rng.chance(60) && !run.decisions.is_empty() {
        for _ in 0..rng.range(1, 2) {
            let at = rng.below(run.decisions.len());
            run.decisions[at] = *rng.pick(&[2, 2, 3, 128, 255]);
        }
    }
    let lent = match rng.below(20) {
        0 => length - 1,
        1 => rng.below(length),
        2..=11 => length,
        _ => length + rng.below(40),
    };
    Question { image, run, lent }
}

fn decisions(rng: &mut Rng) -> Vec<u8> {
    let (n, ones) = (*rng.pick(&[0, 0, 1, 2, 5, 20, 100]), *rng.pick(&[0, 300, 500, 1000]));
    (0..n).map(|_| u8::from(rng.chance(ones))).collect()
}

/// Rising step numbers about a path of so many steps, often one right behind the other; now and then far beyond, or out of order.
fn strikes(rng: &mut Rng, steps: u64) -> Vec<u64> {
    let mut next = rng.below(steps.min(40) as usize + 1) as u64;
    let mut all = vec![];
    for _ in 0..*rng.pick(&[0, 1, 1, 2, 3, 8, 40]) {
        all.push(next);
        let apart = *rng.pick(&[1, 3, 20]);
        next += 1 + rng.below(apart) as u64;
    }
    if rng.chance(100) {
        all.extend([next + (1 << 32), u64::MAX]);
    }
    if rng.chance(60) && all.len() > 1 {
        let at = rng.range(1, all.len() - 1);
        all[at] = all[at - 1].saturating_sub(rng.below(2) as u64);
    }
    all
}

/// Beside the path's length, where it ends of itself; none of a loop is without end.
fn budget(rng: &mut Rng, image: &[u8], run: &Run, length: usize) -> u64 {
    let walked = walk(image, run, length);
    let steps = walked.numbers[2];
    if walked.numbers[4] == Ending::Budget as u64 {
        return *rng.pick(&[0, 1, 2, 7, 100, LONG]);
    }
    match rng.below(8) {
        0 => steps.saturating_sub(1),
        1 => steps + 1,
        2 => u64::MAX,
        3 => (1 << 32) + rng.below(3) as u64,
        4 => rng.below(steps as usize + 1) as u64,
        5 => 0,
        _ => steps,
    }
}

/// The first number that is none, and those whose low bits are a prototype's.
fn unknown(rng: &mut Rng, prototypes: u64) -> u64 {
    let own = rng.below(prototypes as usize) as u64;
    *rng.pick(&[prototypes, prototypes + 1, 256, (1 << 16) + own + 256, (1 << 32) + own, (1 << 63) + own, u64::MAX])
}
