//! The limits of 01's table at, one below and one above, and the edges of its rules.
//! A case says by hand which number and place are due, wherever they can be told from 01 alone.
mod captures;
mod files_cut;
mod heavy;
mod jumps;
mod long;
mod names;
mod nesting;
mod numbers;
mod registers;
mod rules;
mod shapes;
mod widths;

use crate::answer::{in_room, lowered, Answer, Lowered};
use crate::judge::{work_for, Refusal, MOST_FIELDS};
use crate::trees::build::Node;
use crate::trees::order::post;
use crate::trees::rule::Rule;
use files::tree::whole_fields;

/// How many words of work area a case lends.
#[derive(Clone, Copy, Debug)]
pub enum Work {
    /// As many as the tree asks for.
    Exact,
    /// One word fewer.
    Short,
    /// A few words more.
    Plenty,
    Words(u64),
}

/// How many bytes of output a case lends.
#[derive(Clone, Copy, Debug)]
pub enum Room {
    /// A few more than the image has.
    Plenty,
    Exact,
    /// One byte fewer.
    Short,
    Bytes(u64),
}

/// What is due: a number and a place.
pub type Due = (u8, usize);

pub struct Case {
    pub name: String,
    pub rule: Rule,
    pub work: Work,
    pub room: Room,
    pub due: Option<Due>,
}

/// A case asked: the file, what is lent, and the oracle's answer.
pub struct Asked {
    pub mode: u64,
    pub tree: Vec<u8>,
    pub work: u64,
    pub room: u64,
    pub answer: Answer,
    pub image: Vec<u8>,
}

impl Case {
    pub fn file(name: impl Into<String>, rule: Rule, due: Option<Due>) -> Case {
        Case { name: name.into(), rule, work: Work::Exact, room: Room::Plenty, due }
    }

    /// A tree in post order, with what is due.
    pub fn tree(name: impl Into<String>, root: &Node, due: Due) -> Case {
        Case::file(name, Rule::plain(post(root)), Some(due))
    }

    pub fn lending(self, work: Work, room: Room) -> Case {
        Case { work, room, ..self }
    }

    pub fn ask(&self) -> Asked {
        ask(self.rule.expand(), self.work, self.room)
    }
}

/// How many words these are for a tree.
pub fn work_words(tree: &[u8], work: Work) -> u64 {
    let nodes = || whole_fields(tree).0.len().min(MOST_FIELDS);
    match work {
        Work::Exact => work_for(nodes()),
        Work::Short => work_for(nodes()) - 1,
        Work::Plenty => work_for(nodes()) + 77,
        Work::Words(n) => n,
    }
}

/// Asks the oracle about a file in mode 0.
pub fn ask(tree: Vec<u8>, work: Work, room: Room) -> Asked {
    ask_in(0, tree, work, room)
}

/// Asks the oracle about a file in a mode.
pub fn ask_in(mode: u64, tree: Vec<u8>, work: Work, room: Room) -> Asked {
    let work = work_words(&tree, work);
    let lowered = lowered(&tree, mode, work);
    let room = room_for(room, &lowered);
    let (answer, image) = in_room(&tree, lowered, room);
    Asked { mode, tree, work, room, answer, image }
}

fn room_for(room: Room, lowered: &Result<Lowered, Refusal>) -> u64 {
    let length = lowered.as_ref().map_or(24, |l| l.image.len() as u64);
    match room {
        Room::Plenty => length + 40,
        Room::Exact => length,
        Room::Short => length - 1,
        Room::Bytes(n) => n,
    }
}

/// Every case of which a number and a place are written down.
pub fn cases() -> Vec<Case> {
    let mut all = vec![];
    all.extend(files_cut::cases());
    all.extend(rules::cases());
    all.extend(registers::cases());
    all.extend(captures::cases());
    all.extend(names::cases());
    all.extend(nesting::cases());
    all.extend(long::cases());
    all.extend(jumps::cases());
    all.extend(numbers::cases());
    all
}

/// Cases that cost much time or room; what is due is left to the source.
pub fn heavy_cases() -> Vec<Case> {
    heavy::cases()
}

/// Every case in a wide tree, which has the same number and place, and the edges of the width.
pub fn wide_cases() -> Vec<Case> {
    widths::cases()
}

pub use shapes::{edited_shapes, edited_wide_shapes, wide_zoo, zoo};
