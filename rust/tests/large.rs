//! Large and deep trees, images that outgrow the first buffer, one lowerer for many trees, many threads.
use std::thread;
use yengrazul::{lower, Cause, Lowerer, Refusal, LARGEST_IMAGE};

/// A tree file, written field by field.
#[derive(Default)]
struct Tree {
    bytes: Vec<u8>,
    nodes: u16,
}

impl Tree {
    /// Appends a node and gives its number.
    fn node(&mut self, tag: u8, words: &[u16]) -> u16 {
        let payload = words.iter().flat_map(|word| word.to_be_bytes());
        self.bytes.push(tag);
        self.bytes.extend((2 * words.len() as u16).to_be_bytes());
        self.bytes.extend(payload);
        self.nodes += 1;
        self.nodes - 1
    }

    fn number(&mut self, x: f64) -> u16 {
        let bits = x.to_bits();
        self.node(0x01, &[48, 32, 16, 0].map(|shift| (bits >> shift) as u16))
    }

    /// So many times the same node.
    fn nodes(&mut self, n: usize, tag: u8, words: &[u16]) -> Vec<u16> {
        (0..n).map(|_| self.node(tag, words)).collect()
    }

    /// The file of a program of these statements.
    fn program(mut self, statements: &[u16]) -> Vec<u8> {
        self.node(0x1E, statements);
        self.bytes
    }
}

/// So many bare returns at top level.
fn returns(n: usize) -> Vec<u8> {
    let mut tree = Tree::default();
    let statements = tree.nodes(n, 0x18, &[5]);
    tree.program(&statements)
}

/// An expression statement of minus minus .. 1, as deep as said.
fn deep(depth: usize) -> Vec<u8> {
    let mut tree = Tree::default();
    let mut inner = tree.number(1.0);
    for _ in 0..depth - 3 {
        inner = tree.node(0x05, &[2, 5, inner]);
    }
    let statement = tree.node(0x10, &[inner]);
    tree.program(&[statement])
}

/// `0 - (0 - (0 - f))` for a function f of a loop with so many continues: f is lowered eight times.
fn eight_times(continues: usize) -> Vec<u8> {
    let mut tree = Tree::default();
    let condition = tree.number(1.0);
    let body = tree.nodes(continues, 0x17, &[5]);
    let body = tree.node(0x12, &body);
    let body = tree.node(0x13, &[5, condition, body]);
    let mut inner = tree.node(0x09, &[0, body]);
    for _ in 0..3 {
        let zero = tree.number(0.0);
        inner = tree.node(0x06, &[8, 5, zero, inner]);
    }
    let statement = tree.node(0x10, &[inner]);
    tree.program(&[statement])
}

#[test]
fn as_many_instructions_as_a_function_may_have() {
    let image = lower(&returns(32_766)).unwrap();
    assert_eq!(image.as_bytes().len(), 13 + 32_767 * 9);
    assert_eq!(lower(&returns(32_767)), Err(Refusal { cause: Cause::Long, node: 32_767 }));
}

/// So many bare returns with wide marks.
fn wide_returns(n: u16) -> Vec<u8> {
    let mut tree = [0x18, 0, 4, 0, 12, 0, 5].repeat(n.into());
    tree.push(0x3E);
    tree.extend((2 * n).to_be_bytes());
    tree.extend((0..n).flat_map(u16::to_be_bytes));
    tree
}

#[test]
fn as_many_of_them_with_wide_marks() {
    let image = lower(&wide_returns(32_766)).unwrap();
    assert_eq!(image.as_bytes().len(), 13 + 32_767 * 11);
    assert!(image.is_wide() && image.instructions().take(32_766).all(|(_, _, i)| i.mark == Some(0x000C_0005)));
    assert_eq!(lower(&wide_returns(32_767)), Err(Refusal { cause: Cause::Long, node: 32_767 }));
}

#[test]
fn more_nodes_than_a_tree_may_have() {
    let many = [0x12, 0, 0].repeat(32_769);
    assert_eq!(lower(&many), Err(Refusal { cause: Cause::Many, node: 32_768 }));
}

#[test]
fn deep_trees_from_a_thread_of_little_stack() {
    let small = thread::Builder::new().stack_size(65_536);
    let told = small.spawn(|| (lower(&deep(128)), lower(&deep(129)))).unwrap().join().unwrap();
    assert!(told.0.is_ok());
    assert_eq!(told.1, Err(Refusal { cause: Cause::Depth, node: 0 }));
}

#[test]
fn images_that_outgrow_the_first_buffer() {
    let image = lower(&eight_times(10_000)).unwrap();
    assert!(image.as_bytes().len() > 8 * 10_000 * 9);
    assert!(image.as_bytes().len() < LARGEST_IMAGE);
}

#[test]
fn one_lowerer_for_many_trees() {
    let trees = [returns(3), vec![], eight_times(9000), deep(100), deep(200), returns(30_000), returns(1), vec![0x1E]];
    let mut lowerer = Lowerer::new();
    for _ in 0..2 {
        for tree in &trees {
            assert_eq!(lowerer.lower(tree), lower(tree));
        }
    }
}

#[test]
fn threads_at_the_same_time() {
    let trees = [returns(2000), deep(128), eight_times(500), vec![0x12, 0, 0]];
    let due: Vec<_> = trees.iter().map(|tree| lower(tree)).collect();
    thread::scope(|scope| {
        for k in 0..8 {
            let (tree, due) = (&trees[k % 4], &due[k % 4]);
            scope.spawn(move || (0..5).for_each(|_| assert_eq!(lower(tree), *due)));
        }
    });
}

#[test]
fn on_the_calling_thread_where_it_has_the_stack() {
    let roomy = thread::Builder::new().stack_size(16 << 20);
    let told = roomy.spawn(|| unsafe { Lowerer::new().lower_here(&deep(128)) }).unwrap().join().unwrap();
    assert_eq!(told, lower(&deep(128)));
}
