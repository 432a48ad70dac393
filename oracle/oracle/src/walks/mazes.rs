//! Images to walk about in, all of them taken: jumps, Tests, tries and Returns in any order, every step inside.
use crate::images::build::*;
use crate::rng::Rng;
use files::image::Instruction;

/// One to four prototypes; each is a maze of a taste of its own.
pub fn any(rng: &mut Rng) -> Vec<u8> {
    let mut prototypes = vec![];
    for _ in 0..rng.range(1, 4) {
        if rng.chance(100) {
            prototypes.push(prototype(1, vec![], registering(rng)));
            continue;
        }
        let length = if rng.chance(20) { rng.range(200, 700) } else { rng.range(1, 30) };
        let returns = *rng.pick(&[0, 20, 60, 200]);
        prototypes.push(prototype(1, vec![], maze(rng, length, returns)));
    }
    image(prototypes, vec![])
}

/// A loop that registers one to three handlers in a round, takes off at most as many, and so ends by their number, or by the budget.
fn registering(rng: &mut Rng) -> Vec<Instruction> {
    let (on, off) = (rng.range(1, 3), rng.below(3));
    let mut code: Vec<Instruction> = (0..on).map(|k| wide("RegisterTryCatch", 0, on + off + 1 - k)).collect();
    code.extend((0..off.min(on)).map(|_| ins("DeregisterTryCatch", 0, 0, 0)));
    while code.len() < on + off {
        code.push(ins("LoadNil", 0, 0, 0));
    }
    let back = code.len();
    code.extend([wide("Jmp", 0, 0usize.wrapping_sub(back)), ins("LoadNil", 0, 0, 0), end()]);
    code
}

/// So many instructions, and how often one is a Return, in 1,000. The last is a Return or a Jmp.
fn maze(rng: &mut Rng, length: usize, returns: usize) -> Vec<Instruction> {
    (0..length)
        .map(|at| {
            let left = length - 1 - at;
            match rng.below(10) {
                _ if left == 0 && rng.chance(700) || rng.chance(returns) => ins("Return", 0, rng.below(3) as u8, 7),
                0..=1 => jump(rng, at, length),
                _ if left == 0 => jump(rng, at, length),
                2..=4 if left >= 2 => ins("Test", 0, 0, *rng.pick(&[0, 0, 1, 255])),
                5..=6 => wide("RegisterTryCatch", rng.below(3) as u8, rng.range(0, left)),
                7 => ins("DeregisterTryCatch", 9, 9, 9),
                _ => ins("LoadNil", 0, 3, 4),
            }
        })
        .collect()
}

/// A jump to anywhere, more often ahead, so that walks end.
fn jump(rng: &mut Rng, at: usize, length: usize) -> Instruction {
    let to = if rng.chance(600) { rng.range(at, length - 1) } else { rng.below(length) };
    wide("Jmp", 0, to.wrapping_sub(at))
}
