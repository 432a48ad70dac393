//! What the trees that cost much are made of.
use super::build::*;
use super::order::{file, Order};
use super::width::widened;
use crate::rng::Rng;

/// As many nodes as a file may have.
pub const MOST: usize = 32_768;

/// A tree with what it is called, the bytes of output that are lent, and the number that is due: 0 where it is accepted.
pub struct Worst {
    pub name: &'static str,
    pub tree: Node,
    pub room: usize,
    pub due: u8,
    /// The seed of the numbers of its nodes, where they are not those of post order.
    pub numbering: Option<u64>,
    /// Whether its marks have four bytes.
    pub wide: bool,
}

impl Worst {
    pub fn file(&self) -> Vec<u8> {
        let narrow = match self.numbering {
            Some(seed) => file(&self.tree, Order::Random(&mut Rng::new(seed))),
            None => file(&self.tree, Order::Post),
        };
        match self.wide {
            true => widened(&narrow, |mark| 9 << 16 | mark).expect("payloads that stay below 65,536 bytes"),
            false => narrow,
        }
    }
}

pub const M: u16 = 7;
pub const A: Pair = (20, M);

pub fn a() -> Node {
    variable(A)
}

pub fn of(name: &'static str, tree: Node) -> Worst {
    Worst { name, tree, room: 400_000, due: 0, numbering: None, wide: false }
}

/// With an output for the code of up to 193 functions.
pub fn large(name: &'static str, tree: Node) -> Worst {
    Worst { room: 48_000_000, ..of(name, tree) }
}

/// The same with marks of four bytes, and an output for its longer image.
pub fn wide(name: &'static str, worst: Worst) -> Worst {
    Worst { name, room: worst.room / 9 * 11, wide: true, ..worst }
}

pub fn refused(due: u8, worst: Worst) -> Worst {
    Worst { due, ..worst }
}

/// A program of these statements, filled up to the most nodes with empty blocks.
pub fn full(body: Vec<Node>) -> Node {
    filled(MOST, body)
}

pub fn filled(nodes: usize, mut body: Vec<Node>) -> Node {
    let size = 1 + body.iter().map(Node::size).sum::<usize>();
    assert!(size <= nodes, "{size} nodes");
    body.extend((size..nodes).map(|_| block(vec![])));
    program(body)
}

pub fn alone(x: Node) -> Node {
    full(vec![expression(x)])
}

/// In a block of main where a is a local.
pub fn with_a(body: Vec<Node>) -> Node {
    full(vec![block([vec![let_(A, Some(number(1.0)))], body].concat())])
}

pub fn times(n: usize, node: impl Fn() -> Node) -> Vec<Node> {
    (0..n).map(|_| node()).collect()
}

/// A row within statements within each other, so many deep.
pub fn nested(deep: usize, body: Vec<Node>, around: &dyn Fn(Vec<Node>) -> Node) -> Vec<Node> {
    (0..deep).fold(body, |body, _| vec![around(body)])
}

/// A row as one statement.
pub fn one(mut body: Vec<Node>) -> Node {
    match body.len() {
        1 => body.remove(0),
        _ => block(body),
    }
}

pub fn returns(n: usize) -> Vec<Node> {
    times(n, || return_(M, None))
}

/// Three instructions of two nodes each, and no register.
pub fn ifs(n: usize) -> Vec<Node> {
    times(n, || if_(M, a(), vec![], vec![], vec![]))
}

/// `and` over so many uses of a name: three instructions of two nodes each, and no register where it is a local.
pub fn ands(name: Pair, leaves: usize) -> Node {
    match leaves {
        1 => variable(name),
        n => logical(2, M, ands(name, n / 2), ands(name, n - n / 2)),
    }
}

pub fn minuses(n: usize, x: Node) -> Node {
    (0..n).fold(x, |x, _| binary(8, M, number(3.0), x))
}

/// A function that is lowered 64 times: all that main's registers allow of one. 65 prototypes.
pub fn sixty_four(body: Vec<Node>) -> Node {
    minuses(6, function(&[A], body))
}

/// A function that is lowered 128 times, in one that is lowered 64 times. 193 prototypes.
pub fn in_two(outer: Vec<Node>, inner: Vec<Node>) -> Node {
    alone(sixty_four([outer, vec![expression(minuses(1, function(&[A], inner)))]].concat()))
}
