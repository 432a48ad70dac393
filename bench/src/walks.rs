//! The walk of recorded decisions beside a plain walker over decoded instructions, in nanoseconds a step.
use crate::measure::{nanoseconds, summary, Times};
use oracle::rng::Rng;
use std::hint::black_box;

extern "C" {
    fn yengrazul_walk(
        image: *const u8,
        image_len: usize,
        prototype: u64,
        decisions: *const u8,
        decisions_len: usize,
        strikes: *const u64,
        strikes_len: usize,
        budget: u64,
        visited: *mut u8,
        visited_len: usize,
        answer: *mut u64,
    );
}

const MOVE: u8 = 0;
const JMP: u8 = 3;
const TEST: u8 = 4;
const RETURN: u8 = 20;

/// Instructions of the loop, and steps of a walk: so many that reading the image takes no part of the time.
const LOOP: usize = 200;
const STEPS: usize = 1_000_000;

pub struct Walks {
    pub steps: usize,
    pub walk: Times,
    pub plain: Times,
}

impl Walks {
    /// What was measured, in words, and its spread.
    pub fn spreads(&self) -> [(String, f64); 2] {
        [("the walk".into(), self.walk.spread), ("the plain walker".into(), self.plain.spread)]
    }
}

/// A loop without end: every eighth instruction is a Test with a jump over two instructions behind it.
fn code() -> Vec<[u8; 4]> {
    let mut code: Vec<[u8; 4]> = (0..LOOP)
        .map(|i| match i % 8 {
            4 => [TEST, 0, 1, 0],
            5 => [JMP, 0, 0, 3],
            _ => [MOVE, 0, 1, 0],
        })
        .collect();
    let back = 65_536 - LOOP;
    code.extend([[JMP, 0, (back / 256) as u8, (back % 256) as u8], [RETURN, 0, 0, 0]]);
    code
}

fn image(code: &[[u8; 4]]) -> Vec<u8> {
    let header = [0x41, 0, 10, 255, 255, 0, 0, 0, 2, 0, 0, 0, code.len() as u8];
    let field = |x: &[u8; 4]| [0x43, 0, 6, x[0], x[1], x[2], x[3], 255, 255];
    header.into_iter().chain(code.iter().flat_map(field)).collect()
}

/// What document 02 asks of a walk, over instructions that were read before the clock started.
fn plain(code: &[[u8; 4]], decisions: &[u8], visited: &mut [u8]) -> (usize, usize) {
    let (mut at, mut steps, mut decided) = (0, 0, 0);
    visited.fill(0);
    loop {
        visited[at] = 1;
        let [opcode, _, b, c] = code[at];
        let next = match opcode {
            RETURN => break,
            TEST if decided == decisions.len() => break,
            TEST => at + 1 + usize::from(decisions[decided]),
            JMP => (at as isize + isize::from(i16::from_be_bytes([b, c]))) as usize,
            _ => at + 1,
        };
        if steps == STEPS {
            break;
        }
        decided += usize::from(opcode == TEST);
        (at, steps) = (next, steps + 1);
    }
    (steps, at)
}

fn proved(image: &[u8], decisions: &[u8], visited: &mut [u8]) -> [u64; 5] {
    let mut answer = [9; 5];
    let (lent, told) = (visited.as_mut_ptr(), answer.as_mut_ptr());
    let (i, d, none, budget) = (image.as_ptr(), decisions.as_ptr(), [0u64; 0], STEPS as u64);
    unsafe {
        yengrazul_walk(i, image.len(), 0, d, decisions.len(), none.as_ptr(), 0, budget, lent, visited.len(), told)
    };
    answer
}

/// Both in turn, on the same decisions. The first round is not counted: it warms up.
pub fn measure(rounds: usize) -> Walks {
    let (code, mut rng) = (code(), Rng::new(3));
    let (image, decisions) = (image(&code), (0..STEPS).map(|_| rng.below(2) as u8).collect::<Vec<u8>>());
    let (mut visited, mut seen) = (vec![7; code.len()], vec![7; code.len()]);
    let (mut walk, mut other) = (Vec::new(), Vec::new());
    for round in 0..=rounds {
        let (mut answer, mut end) = ([9; 5], (0, 0));
        let taken = nanoseconds(|| answer = proved(black_box(&image), black_box(&decisions), &mut visited));
        let beside = nanoseconds(|| end = plain(black_box(&code), black_box(&decisions), &mut seen));
        assert_eq!(answer, [0, 0, STEPS as u64, end.1 as u64, 2], "out of budget, where the plain walker stands");
        assert_eq!((end.0, &visited), (STEPS, &seen), "the same steps and the same instructions");
        if round > 0 {
            walk.push(taken);
            other.push(beside);
        }
    }
    let [walk, plain] = [walk, other].map(|times| summary(times, STEPS as f64));
    Walks { steps: STEPS, walk, plain }
}
