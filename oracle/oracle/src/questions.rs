//! Questions of a run: case k of a seed is the same on every machine.
use crate::limits::{self, ask_in, Asked, Room, Work};
use crate::rng::Rng;
use crate::trees::build::Node;
use crate::trees::order::{file, Order};
use crate::trees::{classes, crowd, damage, meet, minuses, random, values, width};
use files::tree::fields;

/// A mode and a file, and what is lent with it.
#[derive(Clone)]
pub struct Question {
    pub mode: u64,
    pub tree: Vec<u8>,
    pub work: Work,
    pub room: Room,
}

impl Question {
    pub fn ask(self) -> Asked {
        ask_in(self.mode, self.tree, self.work, self.room)
    }

    pub fn in_mode(self, mode: u64) -> Question {
        Question { mode, ..self }
    }
}

/// A random program, numbered in any order, with a work area and an output that mostly suffice; in mode 1 with more loops and continues.
pub fn random(seed: u64, k: u64, mode: u64) -> Question {
    let mut rng = Rng::for_case(seed, k);
    let program = crowd::any(&mut rng, mode == 1);
    let tree = numbered(&mut rng, &program);
    lent(&mut rng, tree).in_mode(mode)
}

/// A program in which several limits are near at once, the same in both modes.
pub fn meeting(seed: u64, k: u64, mode: u64) -> Question {
    let mut rng = Rng::for_case(seed, k);
    let program = meet::any(&mut rng);
    let tree = numbered(&mut rng, &program);
    lent(&mut rng, tree).in_mode(mode)
}

/// Numerals on the left of Minus within each other, to the limits, the same in both modes.
pub fn minuses(seed: u64, k: u64, mode: u64) -> Question {
    let mut rng = Rng::for_case(seed ^ 0x006D_696E_7573, k);
    let program = minuses::any(&mut rng);
    let tree = numbered(&mut rng, &program);
    lent(&mut rng, tree).in_mode(mode)
}

/// Classes of every kind and place, the same in both modes.
pub fn classes(seed: u64, k: u64, mode: u64) -> Question {
    let mut rng = Rng::for_case(seed ^ 0x636C_6173_7365, k);
    let tree = classes::any(&mut rng);
    lent(&mut rng, tree).in_mode(mode)
}

/// A small random program; in mode 1 with more loops and continues.
pub fn small(seed: u64, k: u64, mode: u64) -> Question {
    let mut rng = Rng::for_case(seed, k);
    let tree = small_tree(&mut rng, 70, mode == 1);
    lent(&mut rng, tree).in_mode(mode)
}

/// A damaged file of a small random program, or noise.
pub fn damaged(seed: u64, k: u64, mode: u64) -> Question {
    let mut rng = Rng::for_case(seed, k);
    let tree = if rng.chance(50) {
        damage::noise(&mut rng)
    } else {
        let whole = small_tree(&mut rng, 60, mode == 1);
        damage::damaged(&mut rng, &whole)
    };
    lent(&mut rng, tree).in_mode(mode)
}

/// A question of any other kind, more often of those that cost less, with its tree made wide and marks of every kind; some are damaged then, or
/// mix the widths.
pub fn wide(seed: u64, k: u64, mode: u64) -> Question {
    let of = match k % 100 {
        0 => minuses,
        1..=4 => meeting,
        5..=14 => classes,
        15..=24 => damaged,
        25..=39 => small,
        _ => random,
    };
    let narrow = of(seed, k, mode);
    let mut rng = Rng::for_case(seed ^ 0x7769_6465, k);
    let whole = fields(&narrow.tree).is_ok_and(|all| !all.is_empty());
    let tree = match rng.below(10) {
        0 if whole => width::mixed(&mut rng, &narrow.tree),
        _ => made_wide(&mut rng, &narrow.tree),
    };
    let tree = if whole && rng.chance(60) { damage::damaged(&mut rng, &tree) } else { tree };
    Question { tree, ..narrow }
}

/// The tree with marks of four bytes, of every kind; as it was where a payload would grow too long.
pub fn made_wide(rng: &mut Rng, tree: &[u8]) -> Vec<u8> {
    width::widened(tree, |_| values::wide_mark(rng)).unwrap_or_else(|| tree.to_vec())
}

/// Any file in a mode that is none, with any work area and output: 21 comes before everything.
pub fn no_mode(seed: u64, k: u64) -> Question {
    let mut rng = Rng::for_case(seed, k);
    let tree = match rng.below(4) {
        0 => vec![],
        1 => damaged(seed, k, 0).tree,
        _ => small_tree(&mut rng, 60, true),
    };
    let question = lent(&mut rng, tree);
    let work = if rng.chance(300) { Work::Words(0) } else { question.work };
    let room = if rng.chance(300) { Room::Bytes(0) } else { question.room };
    Question { mode: other_mode(&mut rng), work, room, ..question }
}

/// The numbers whose low half is a mode's or whose high half is not looked at are the likely mistakes.
fn other_mode(rng: &mut Rng) -> u64 {
    let near =
        [2, 3, 255, 256, 257, 65_536, 65_537, u64::from(u32::MAX), 1 << 32, (1 << 32) + 1, 1 << 63, (1 << 63) + 1];
    match rng.below(4) {
        0 => u64::MAX - rng.below(2) as u64,
        1 => rng.next() | 2,
        _ => *rng.pick(&near),
    }
}

/// The limits of 01, the same in every run.
pub fn limits() -> Vec<Question> {
    let of = |c: limits::Case| Question { mode: 0, tree: c.rule.expand(), work: c.work, room: c.room };
    limits::heavy_cases().into_iter().chain(limits::cases()).map(of).collect()
}

/// Every small edit of a tree with every tag, the same in every run.
pub fn shapes() -> Vec<Question> {
    let of = |tree| Question { mode: 0, tree, work: Work::Exact, room: Room::Exact };
    limits::edited_shapes().into_iter().chain(limits::edited_wide_shapes()).map(of).collect()
}

/// The limits of 01 in wide trees, whose number and place are the same, and the edges of the width itself.
pub fn wide_limits() -> Vec<Question> {
    let of = |c: limits::Case| Question { mode: 0, tree: c.rule.expand(), work: c.work, room: c.room };
    limits::wide_cases().into_iter().map(of).collect()
}

fn small_tree(rng: &mut Rng, size: usize, mode_1: bool) -> Vec<u8> {
    let taste = random::Taste::any(rng, size).in_mode(rng, mode_1);
    let program = random::program(rng, taste);
    numbered(rng, &program)
}

/// The file of a program, its nodes in one of several orders.
pub fn numbered(rng: &mut Rng, program: &Node) -> Vec<u8> {
    let order = match rng.below(5) {
        0..=1 => Order::Post,
        2 => Order::Levels,
        _ => Order::Random(rng),
    };
    file(program, order)
}

fn lent(rng: &mut Rng, tree: Vec<u8>) -> Question {
    let work = match rng.below(200) {
        0..=1 => Work::Short,
        2 => Work::Words(0),
        3 => Work::Words(rng.below(20_000) as u64),
        4..=19 => Work::Plenty,
        _ => Work::Exact,
    };
    let room = match rng.below(200) {
        0..=2 => Room::Short,
        3 => Room::Bytes(0),
        4..=7 => Room::Bytes(rng.below(3000) as u64),
        8..=99 => Room::Exact,
        _ => Room::Plenty,
    };
    Question { mode: 0, tree, work, room }
}
