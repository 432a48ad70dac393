//! Walks to ask about: by hand at every limit, and at random over images of every kind.
pub mod edges;
pub mod mazes;
pub mod random;

use crate::walking::Run;

/// An image, a run over it, and how many bytes are lent.
#[derive(Clone, Debug)]
pub struct Question {
    pub image: Vec<u8>,
    pub run: Run,
    pub lent: usize,
}

/// Everything that is the same in every run.
pub fn fixed() -> Vec<Question> {
    edges::all().into_iter().map(|edge| edge.question).collect()
}
