//! Images of the unchanged source where the port refuses by 11 or 17: breaks and continues outside any loop, and bodies so long that jumps
//! over them wrap; of narrow trees and of wide ones.
use crate::compare::end_due;
use crate::judge;
use crate::questions::made_wide;
use crate::rng::Rng;
use crate::trees::build::*;
use crate::trees::order::post;
use crate::trees::random::{self, Taste};
use crate::trees::width::widened;
use std::sync::OnceLock;

const A: Pair = (20, 7);

/// What the unchanged source makes of a tree that the port refuses by a number, where it ends with an image.
pub fn image_of(tree: &[u8], number: u8) -> Option<Vec<u8>> {
    let nodes = judge::check(tree, 0, u64::MAX).ok()?;
    if traced::lower(&nodes, 0).err()?.number != number {
        return None;
    }
    end_due(&nodes, 0)?.ok()?;
    unchanged::attempt(&nodes).ok().map(|image| image.to_bytes())
}

/// A small random program with breaks and continues outside loops.
pub fn stray(rng: &mut Rng) -> Option<Vec<u8>> {
    let taste = Taste { mischief: 11, ..Taste::any(rng, 80) };
    let tree = post(&random::program(rng, taste));
    let tree = if rng.chance(300) { made_wide(rng, &tree) } else { tree };
    image_of(&tree, 11)
}

/// Long bodies in every loop and branch, with breaks and continues at both ends, and strays: made once.
pub fn fixed() -> &'static [Vec<u8>] {
    static MADE: OnceLock<Vec<Vec<u8>>> = OnceLock::new();
    MADE.get_or_init(made)
}

fn made() -> Vec<Vec<u8>> {
    let strays = [
        vec![break_(11)],
        vec![continue_(12), break_(13)],
        vec![expression(function(&[], vec![break_(14), return_(15, None)])), continue_(16)],
        vec![while_(17, number(1.0), expression(function(&[], vec![continue_(18), block(vec![])])))],
        vec![try_(break_(19), (21, 20), continue_(21))],
    ];
    let strays = strays.into_iter().map(|body| post(&program(body)));
    let both = strays.flat_map(|tree| [tree.clone(), widened(&tree, |mark| 5 << 16 | mark).expect("short payloads")]);
    both.map(|tree| image_of(&tree, 11).expect("a stray image")).chain(long()).collect()
}

/// The least jump that wraps is one over 32,767 instructions.
fn long() -> Vec<Vec<u8>> {
    let mut images = vec![];
    for ifs in [10_921, 10_922, 10_923, 16_000] {
        for kind in 0..5 {
            let body = vec![let_(A, Some(number(1.0))), around(kind, ifs)];
            let tree = post(&program(vec![block(body)]));
            let tree =
                if ifs == 10_923 { widened(&tree, |mark| 5 << 16 | mark).expect("short payloads") } else { tree };
            images.extend(image_of(&tree, 17));
        }
    }
    assert!(images.len() > 15, "{} long images", images.len());
    images
}

/// A statement of a kind around so many empty ifs, with a jump before and behind them.
fn around(kind: usize, ifs: usize) -> Node {
    let a = || variable(A);
    let mut row: Vec<Node> = (0..ifs).map(|_| if_(7, a(), vec![], vec![], vec![])).collect();
    if kind < 3 {
        row.insert(0, break_(30));
        row.insert(1, continue_(31));
        row.extend([break_(32), continue_(33)]);
    }
    match kind {
        0 => while_(34, a(), block(row)),
        1 => for_(35, None, a(), a(), block(row)),
        2 => for_in(36, a(), block(row), &[(21, 7)]),
        3 => if_(37, a(), row, vec![], vec![return_(38, None)]),
        _ => try_(block(row), (21, 7), block(vec![])),
    }
}
