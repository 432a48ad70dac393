//! Spines of unaries: a unary takes no register and no constant and gives one instruction, so nearly every node of a tree
//! can be lowered as often as constants allow, 1,024 times.
use super::build::*;
use super::costly::*;
use crate::rng::Rng;

/// Nodes that are left to the spines in a file.
const NODES: usize = MOST - 150;

/// Numbered at random, so that each step to a child is one to another place of the file.
pub fn spines() -> Vec<Worst> {
    let spread = |name, tree| Worst { numbering: Some(1), ..large(name, tree) };
    vec![
        spread("unaries 104 deep, 1,024 times", under_ten(104, 0)),
        spread("5 % logicals 104 deep, 1,024 times", under_ten(104, 50)),
        spread("unaries in 40 loops, 1,024 times", in_loops(40, 62, 0)),
        spread("5 % logicals in 40 loops, 1,024 times", in_loops(40, 62, 50)),
    ]
}

/// In a function that is lowered 64 times, 16 times within.
fn under_ten(deep: usize, logicals: usize) -> Node {
    alone(sixty_four(vec![expression(minuses(4, joined(deep, logicals, 32_750)))]))
}

/// Within loops, of three instructions each, in a function that is lowered 128 times, 8 times within.
fn in_loops(loops: usize, deep: usize, logicals: usize) -> Node {
    let inside = vec![expression(minuses(3, joined(deep, logicals, 32_750 - 3 * loops)))];
    in_two(vec![], nested(loops, inside, &|b| while_(M, a(), one(b))))
}

/// As many spines as nodes and so many instructions allow, one expression: logicals join them, nine deep where there are 512.
fn joined(deep: usize, logicals: usize, most: usize) -> Node {
    let mut rng = Rng::new(deep as u64);
    let (mut row, mut nodes, mut code) = (vec![], 0, 0);
    loop {
        let spine = spine(&mut rng, deep, logicals);
        let crossed = spine.size() - 1 - deep;
        (nodes, code) = (nodes + spine.size() + 1, code + deep + 2 * crossed + 3);
        if nodes > NODES || code > most {
            break;
        }
        row.push(spine);
    }
    while row.len() > 1 {
        let mut pairs = row.into_iter();
        row = vec![];
        while let Some(left) = pairs.next() {
            row.push(match pairs.next() {
                Some(right) => logical(2, M, left, right),
                None => left,
            });
        }
    }
    row.remove(0)
}

/// Around a, so many unaries, among them so many logicals of 1,000.
fn spine(rng: &mut Rng, deep: usize, logicals: usize) -> Node {
    (0..deep).fold(a(), |x, _| match rng.chance(logicals) {
        true => logical(rng.range(1, 2), M, x, a()),
        false => unary(rng.range(1, 2), M, x),
    })
}
