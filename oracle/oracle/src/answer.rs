//! The whole answer: 21, 1 to 6 and 27 by the judge, 7 to 17, the image and the visits by the traced source, 18 by the image's length.
use crate::judge::{self, Refusal};

/// Number, place, length and visits as the caller gets them.
#[derive(Clone, Copy, Debug, PartialEq)]
pub struct Answer {
    pub number: u8,
    pub place: u64,
    pub length: u64,
    pub visits: u64,
}

impl Answer {
    /// The four numbers that the exported function writes.
    pub fn numbers(&self) -> [u64; 4] {
        [self.number.into(), self.place, self.length, self.visits]
    }
}

impl std::fmt::Display for Answer {
    fn fmt(&self, f: &mut std::fmt::Formatter) -> std::fmt::Result {
        write!(f, "{} {} {} {}", self.number, self.place, self.length, self.visits)
    }
}

/// What an accepted tree gives: its image, and how many nodes were visited for it.
pub struct Lowered {
    pub image: Vec<u8>,
    pub visits: u64,
}

/// What a tree gives in a mode, whatever the room for its image, or the first of 21, 1 to 3, 27 and 4 to 17.
pub fn lowered(tree: &[u8], mode: u64, work_words: u64) -> Result<Lowered, Refusal> {
    let nodes = judge::check(tree, mode, work_words)?;
    match traced::counted(&nodes, mode) {
        Ok((image, visits)) => Ok(Lowered { image: image.to_bytes(), visits: visits as u64 }),
        Err(r) => Err(Refusal { number: r.number, place: r.node as u64 }),
    }
}

/// The image alone.
pub fn image(tree: &[u8], mode: u64, work_words: u64) -> Result<Vec<u8>, Refusal> {
    lowered(tree, mode, work_words).map(|lowered| lowered.image)
}

/// The answer, and the image where it is accepted (else nothing).
pub fn answer(tree: &[u8], mode: u64, work_words: u64, room: u64) -> (Answer, Vec<u8>) {
    in_room(tree, lowered(tree, mode, work_words), room)
}

/// 18: the image is longer than the output, at the last node.
pub fn in_room(tree: &[u8], lowered: Result<Lowered, Refusal>, room: u64) -> (Answer, Vec<u8>) {
    let refusal = match lowered {
        Ok(Lowered { image, visits }) if image.len() as u64 <= room => {
            return (Answer { number: 0, place: 0, length: image.len() as u64, visits }, image);
        }
        Ok(_) => Refusal { number: 18, place: last_node(tree) },
        Err(refusal) => refusal,
    };
    (Answer { number: refusal.number, place: refusal.place, length: 0, visits: 0 }, vec![])
}

fn last_node(tree: &[u8]) -> u64 {
    files::tree::fields(tree).map_or(0, |nodes| nodes.len() as u64 - 1)
}
