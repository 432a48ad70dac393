//! What is lowered: for each size as many different scripts as make the same number of nodes in all. One small script, lowered
//! again and again, would be learnt by the branch predictor and fit the caches; so every size meets them with as much text.
use files::tree::{fields, Field};
use oracle::rng::Rng;
use oracle::trees::order::{file, Order};
use oracle::trees::script::script;
use oracle::trees::width::widened;
use unchanged::stmt::Stmt;

/// About so many nodes a script.
pub const SIZES: [usize; 4] = [1_000, 3_000, 10_000, 30_000];

/// About so many nodes in all the scripts of a size.
const NODES: usize = 30_000;

/// The first script's seed; the others have the next ones.
const SEED: u64 = 7;

/// A tree file, and the Rust's own image of it.
pub struct Form {
    pub tree: Vec<u8>,
    pub image: Vec<u8>,
}

pub struct Script {
    pub narrow: Form,
    /// The same with marks of line and column.
    pub wide: Form,
    pub nodes: usize,
    /// How many fields an image of it has.
    pub fields: usize,
    /// The Rust's syntax tree.
    pub program: Vec<Stmt>,
}

/// Scripts of about so many nodes.
pub fn bundle(about: usize) -> Vec<Script> {
    (0..NODES / about).map(|k| one(SEED + k as u64, about)).collect()
}

fn one(seed: u64, about: usize) -> Script {
    let narrow = form(file(&script(&mut Rng::new(seed), about), Order::Post));
    let wide = form(widened(&narrow.tree, |line| line << 16 | line % 80).expect("payloads of some words"));
    let nodes = whole(&narrow.tree);
    let (nodes, program, fields) = (nodes.len(), unchanged::read::program(&nodes), whole(&narrow.image).len());
    Script { narrow, wide, nodes, fields, program }
}

fn form(tree: Vec<u8>) -> Form {
    let image = unchanged::lower(&whole(&tree)).to_bytes();
    Form { tree, image }
}

fn whole(file: &[u8]) -> Vec<Field<'_>> {
    fields(file).expect("whole fields")
}
