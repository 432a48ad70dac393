//! Numbers for the nodes of a tree, children below their parents, and the file they give.
use super::build::{Node, Slot};
use crate::rng::Rng;
use files::tree::push_field;

/// In what order the nodes stand in the file; the root is always last.
pub enum Order<'r> {
    /// Each node directly behind its children, as a parser would write them.
    Post,
    /// The reverse of breadth first: the deepest level first.
    Levels,
    /// Any order in which children stand below parents.
    Random(&'r mut Rng),
}

/// The tree file of a tree.
pub fn file(root: &Node, order: Order) -> Vec<u8> {
    let flat = Flat::of(root);
    let sequence = match order {
        Order::Post => flat.post_order(),
        Order::Levels => flat.levels(),
        Order::Random(rng) => flat.random(rng),
    };
    let mut number = vec![0; sequence.len()];
    for (place, id) in sequence.iter().enumerate() {
        number[*id] = place;
    }
    let mut bytes = vec![];
    for id in sequence {
        push_field(&mut bytes, flat.nodes[id].tag, &flat.payload(id, &number));
    }
    bytes
}

/// The file in post order.
pub fn post(root: &Node) -> Vec<u8> {
    file(root, Order::Post)
}

/// All nodes in pre-order (so a node's id is below its children's), with parent and children.
struct Flat<'t> {
    nodes: Vec<&'t Node>,
    parents: Vec<usize>,
    children: Vec<Vec<usize>>,
}

impl<'t> Flat<'t> {
    fn of(root: &'t Node) -> Flat<'t> {
        let mut flat = Flat { nodes: vec![], parents: vec![], children: vec![] };
        flat.add(root, 0);
        flat
    }

    fn add(&mut self, node: &'t Node, parent: usize) {
        let id = self.nodes.len();
        self.nodes.push(node);
        self.parents.push(parent);
        self.children.push(vec![]);
        for child in node.children() {
            let next = self.nodes.len();
            self.children[id].push(next);
            self.add(child, id);
        }
    }

    fn post_order(&self) -> Vec<usize> {
        let mut sequence = vec![];
        self.post_from(0, &mut sequence);
        sequence
    }

    fn post_from(&self, id: usize, sequence: &mut Vec<usize>) {
        for child in &self.children[id] {
            self.post_from(*child, sequence);
        }
        sequence.push(id);
    }

    fn levels(&self) -> Vec<usize> {
        let mut sequence = vec![0];
        let mut next = 0;
        while next < sequence.len() {
            sequence.extend(&self.children[sequence[next]]);
            next += 1;
        }
        sequence.reverse();
        sequence
    }

    /// Again and again one of the nodes whose children all have their place.
    fn random(&self, rng: &mut Rng) -> Vec<usize> {
        let mut waiting: Vec<usize> = self.children.iter().map(Vec::len).collect();
        let mut ready: Vec<usize> = (0..waiting.len()).filter(|id| waiting[*id] == 0).collect();
        let mut sequence = vec![];
        while !ready.is_empty() {
            let id = ready.swap_remove(rng.below(ready.len()));
            sequence.push(id);
            let parent = self.parents[id];
            if id != 0 {
                waiting[parent] -= 1;
                if waiting[parent] == 0 {
                    ready.push(parent);
                }
            }
        }
        sequence
    }

    fn payload(&self, id: usize, number: &[usize]) -> Vec<u8> {
        let mut children = self.children[id].iter();
        let words = self.nodes[id].slots.iter().map(|slot| match slot {
            Slot::Word(w) => *w,
            Slot::Child(_) => number[*children.next().unwrap()] as u16,
        });
        words.flat_map(u16::to_be_bytes).collect()
    }
}
