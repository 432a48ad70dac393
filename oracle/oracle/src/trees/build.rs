//! Trees in memory: a node has its tag and, in the order of its payload, words and children.
use files::NONE;

#[derive(Clone, Debug)]
pub struct Node {
    pub tag: u8,
    pub slots: Vec<Slot>,
}

#[derive(Clone, Debug)]
pub enum Slot {
    Word(u16),
    Child(Node),
}

impl Node {
    /// How many nodes the tree has.
    pub fn size(&self) -> usize {
        1 + self.children().map(Node::size).sum::<usize>()
    }

    pub fn depth(&self) -> usize {
        1 + self.children().map(Node::depth).max().unwrap_or(0)
    }

    pub fn children(&self) -> impl Iterator<Item = &Node> {
        self.slots.iter().filter_map(|s| match s {
            Slot::Child(node) => Some(node),
            Slot::Word(_) => None,
        })
    }
}

/// A name and its mark.
pub type Pair = (u16, u16);

/// A node under construction; the methods follow the payload table of 01.
struct Made(Node);

fn made(tag: u8) -> Made {
    Made(Node { tag, slots: vec![] })
}

impl Made {
    fn word(mut self, w: usize) -> Made {
        self.0.slots.push(Slot::Word(w.try_into().expect("a word")));
        self
    }

    fn pair(self, (name, mark): Pair) -> Made {
        self.word(name.into()).word(mark.into())
    }

    fn pairs(self, pairs: &[Pair]) -> Made {
        pairs.iter().fold(self, |m, p| m.pair(*p))
    }

    fn child(mut self, node: Node) -> Made {
        self.0.slots.push(Slot::Child(node));
        self
    }

    fn children(self, nodes: Vec<Node>) -> Made {
        nodes.into_iter().fold(self, Made::child)
    }

    fn perhaps(self, node: Option<Node>) -> Made {
        self.children(node.into_iter().collect())
    }

    fn or_absent(self, node: Option<Node>) -> Made {
        match node {
            Some(node) => self.child(node),
            None => self.word(NONE.into()),
        }
    }
}

pub fn number(value: f64) -> Node {
    bits(value.to_bits())
}

pub fn bits(bits: u64) -> Node {
    let words = [48, 32, 16, 0].map(|shift| (bits >> shift) as u16);
    words.into_iter().fold(made(0x01), |m, w| m.word(w.into())).0
}

pub fn text(name: u16) -> Node {
    made(0x02).word(name.into()).0
}

pub fn other(word: u16) -> Node {
    made(0x03).word(word.into()).0
}

pub fn variable(pair: Pair) -> Node {
    made(0x04).pair(pair).0
}

pub fn unary(op: usize, mark: u16, x: Node) -> Node {
    made(0x05).word(op).word(mark.into()).child(x).0
}

pub fn binary(op: usize, mark: u16, x: Node, y: Node) -> Node {
    made(0x06).word(op).word(mark.into()).child(x).child(y).0
}

pub fn logical(op: usize, mark: u16, x: Node, y: Node) -> Node {
    made(0x07).word(op).word(mark.into()).child(x).child(y).0
}

pub fn call(callee: Node, mark: u16, arguments: Vec<Node>) -> Node {
    made(0x08).child(callee).word(mark.into()).children(arguments).0
}

pub fn function(params: &[Pair], body: Vec<Node>) -> Node {
    made(0x09).word(params.len()).pairs(params).children(body).0
}

pub fn expression(x: Node) -> Node {
    made(0x10).child(x).0
}

pub fn let_(pair: Pair, initializer: Option<Node>) -> Node {
    made(0x11).pair(pair).perhaps(initializer).0
}

pub fn block(body: Vec<Node>) -> Node {
    made(0x12).children(body).0
}

pub fn while_(mark: u16, condition: Node, body: Node) -> Node {
    made(0x13).word(mark.into()).child(condition).child(body).0
}

pub fn for_(mark: u16, initializer: Option<Node>, condition: Node, increment: Node, body: Node) -> Node {
    made(0x14).word(mark.into()).or_absent(initializer).child(condition).child(increment).child(body).0
}

pub fn for_in(mark: u16, collection: Node, body: Node, pairs: &[Pair]) -> Node {
    made(0x15).word(mark.into()).child(collection).child(body).pairs(pairs).0
}

pub fn break_(mark: u16) -> Node {
    made(0x16).word(mark.into()).0
}

pub fn continue_(mark: u16) -> Node {
    made(0x17).word(mark.into()).0
}

pub fn return_(mark: u16, value: Option<Node>) -> Node {
    made(0x18).word(mark.into()).perhaps(value).0
}

pub fn if_(mark: u16, condition: Node, then: Vec<Node>, elifs: Vec<Node>, otherwise: Vec<Node>) -> Node {
    let m = made(0x19).word(mark.into()).child(condition);
    let m = m.word(then.len()).children(then);
    m.word(elifs.len()).children(elifs).children(otherwise).0
}

pub fn elif(condition: Node, body: Vec<Node>) -> Node {
    made(0x1A).child(condition).children(body).0
}

pub fn try_(body: Node, pair: Pair, catch: Node) -> Node {
    made(0x1B).child(body).pair(pair).child(catch).0
}

pub fn function_statement(pair: Pair, params: &[Pair], body: Vec<Node>) -> Node {
    made(0x1C).pair(pair).word(params.len()).pairs(params).children(body).0
}

pub fn class(pair: Pair, superclass: Option<Node>, methods: Vec<Node>, statics: Vec<Node>) -> Node {
    made(0x1D).pair(pair).or_absent(superclass).word(methods.len()).children(methods).children(statics).0
}

pub fn program(body: Vec<Node>) -> Node {
    made(0x1E).children(body).0
}
