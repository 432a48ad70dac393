//! Refusals 1 to 6 of document 01 and 21 and 27 of document 02, read straight from their words, for both widths of marks.
use files::tree::{fields, is_wide, Field, WIDE};
use files::NONE;

pub const MOST_FIELDS: usize = 32_768;
pub const DEEPEST: u32 = 128;

/// A number of 01's table or of 02's requests, with its place.
#[derive(Clone, Copy, Debug, PartialEq)]
pub struct Refusal {
    pub number: u8,
    pub place: u64,
}

/// The fields of a tree that none of 21, 1 to 3, 27 and 4 to 6 refuses in a mode.
pub fn check(tree: &[u8], mode: u64, work_words: u64) -> Result<Vec<Field<'_>>, Refusal> {
    if mode > 1 {
        return refusal(21, 0);
    }
    let nodes = frame(tree)?;
    many(&nodes)?;
    let children = shape(&nodes)?;
    retired(&nodes, mode)?;
    single(&children)?;
    depth(&children)?;
    work(&nodes, work_words)?;
    Ok(nodes)
}

/// How many words of work area a tree of so many nodes asks for.
pub fn work_for(nodes: usize) -> u64 {
    12_288 + 16 * nodes as u64
}

fn refusal<T>(number: u8, place: usize) -> Result<T, Refusal> {
    Err(Refusal { number, place: place as u64 })
}

/// 1: no field at all, or a header or payload runs past the end.
fn frame(tree: &[u8]) -> Result<Vec<Field<'_>>, Refusal> {
    match fields(tree) {
        Ok(nodes) if nodes.is_empty() => refusal(1, 0),
        Ok(nodes) => Ok(nodes),
        Err(whole) => refusal(1, whole),
    }
}

/// 2: over 32,768 fields.
fn many(nodes: &[Field]) -> Result<(), Refusal> {
    if nodes.len() > MOST_FIELDS {
        refusal(2, MOST_FIELDS)
    } else {
        Ok(())
    }
}

/// 3: the lowest node that breaks a rule; else the children of each node, absent ones left out.
fn shape(nodes: &[Field]) -> Result<Vec<Vec<usize>>, Refusal> {
    let (mut all, wide) = (vec![], is_wide(nodes));
    for (i, node) in nodes.iter().enumerate() {
        let is_last = i + 1 == nodes.len();
        let is_program = node.tag == 0x1E || node.tag == WIDE;
        match children(node, wide) {
            Some(children) if is_last == is_program && children.iter().all(|c| c.is_right(i, nodes)) => {
                all.push(children.iter().filter(|c| !c.is_absent()).map(|c| c.node.into()).collect());
            }
            _ => return refusal(3, i),
        }
    }
    Ok(all)
}

/// 27: mode 1 refuses tag 1D, at the lowest such node.
fn retired(nodes: &[Field], mode: u64) -> Result<(), Refusal> {
    match nodes.iter().position(|node| node.tag == 0x1D) {
        Some(class) if mode == 1 => refusal(27, class),
        _ => Ok(()),
    }
}

/// The children of each node of a checked tree, absent ones left out.
pub fn children_of(nodes: &[Field]) -> Vec<Vec<usize>> {
    shape(nodes).expect("a checked tree")
}

/// How many functions are open at once in a checked tree, main counted.
pub fn open_functions(nodes: &[Field]) -> usize {
    let children = children_of(nodes);
    let mut open = vec![1; nodes.len()];
    for (i, node) in nodes.iter().enumerate().rev() {
        open[i] += usize::from(matches!(node.tag, 0x09 | 0x1C));
        children[i].iter().for_each(|child| open[*child] = open[i]);
    }
    open.into_iter().max().unwrap_or(1)
}

/// 4: a node other than the last is a child not exactly once.
fn single(children: &[Vec<usize>]) -> Result<(), Refusal> {
    let mut times = vec![0; children.len()];
    for child in children.iter().flatten() {
        times[*child] += 1;
    }
    let last = children.len() - 1;
    match times[..last].iter().position(|t| *t != 1) {
        Some(node) => refusal(4, node),
        None => Ok(()),
    }
}

/// 5: a node is deeper than 128, the program being 1. Parents stand above their children, so they are met first.
fn depth(children: &[Vec<usize>]) -> Result<(), Refusal> {
    let mut depths = vec![1; children.len()];
    for (i, own) in children.iter().enumerate().rev() {
        for child in own {
            depths[*child] = depths[i] + 1;
        }
    }
    match depths.iter().position(|d| *d > DEEPEST) {
        Some(node) => refusal(5, node),
        None => Ok(()),
    }
}

/// 6: the work area is shorter than 12,288 words and 16 more for each node.
fn work(nodes: &[Field], words: u64) -> Result<(), Refusal> {
    if words < work_for(nodes.len()) {
        refusal(6, 0)
    } else {
        Ok(())
    }
}

/// What a child has to be.
#[derive(Clone, Copy, PartialEq)]
enum Role {
    Expression,
    Statement,
    Elif,
    Initializer,
    Superclass,
    Method,
}

struct Child {
    role: Role,
    node: u16,
}

impl Child {
    /// 65,535 means absent for an initializer and a superclass alone.
    fn is_absent(&self) -> bool {
        self.node == NONE && matches!(self.role, Role::Initializer | Role::Superclass)
    }

    /// It stands below its parent and in the right role.
    fn is_right(&self, parent: usize, nodes: &[Field]) -> bool {
        let child = usize::from(self.node);
        self.is_absent() || child < parent && self.role.is_played_by(nodes[child].tag)
    }
}

impl Role {
    fn is_played_by(self, tag: u8) -> bool {
        match self {
            Role::Expression => (0x01..=0x09).contains(&tag),
            Role::Statement => (0x10..=0x1D).contains(&tag) && tag != 0x1A,
            Role::Elif => tag == 0x1A,
            Role::Initializer => tag == 0x10 || tag == 0x11,
            Role::Superclass => tag == 0x04,
            Role::Method => tag == 0x1C,
        }
    }
}

/// The children that a node names, or nothing where its payload does not fit its tag or an op or name is unlawful. In a wide tree every mark
/// has two words, whatever the payload looks like.
fn children(node: &Field, wide: bool) -> Option<Vec<Child>> {
    use Role::*;
    if node.payload.len() % 2 == 1 {
        return None;
    }
    let words = node.words();
    let mut p = Payload { words: &words, wide, children: vec![] };
    match node.tag {
        0x01 => p.any(4)?,
        0x02 | 0x03 => p.any(1)?,
        0x04 => p.name_and_mark()?,
        0x05 => {
            p.op(2)?;
            p.mark()?;
            p.child(Expression)?;
        }
        0x06 | 0x07 => {
            p.op(if node.tag == 0x06 { 12 } else { 2 })?;
            p.mark()?;
            p.child(Expression)?;
            p.child(Expression)?;
        }
        0x08 => {
            p.child(Expression)?;
            p.mark()?;
            p.children_to_the_end(Expression);
        }
        0x09 => p.parameters_and_body()?,
        0x10 => p.child(Expression)?,
        0x11 => {
            p.name_and_mark()?;
            p.perhaps_child(Expression)?;
        }
        0x12 | 0x1E | WIDE => p.children_to_the_end(Statement),
        0x13 => {
            p.mark()?;
            p.child(Expression)?;
            p.child(Statement)?;
        }
        0x14 => {
            p.mark()?;
            p.child(Initializer)?;
            p.child(Expression)?;
            p.child(Expression)?;
            p.child(Statement)?;
        }
        0x15 => {
            p.mark()?;
            p.child(Expression)?;
            p.child(Statement)?;
            p.name_and_mark()?;
            while !p.words.is_empty() {
                p.name_and_mark()?;
            }
        }
        0x16 | 0x17 => p.mark()?,
        0x18 => {
            p.mark()?;
            p.perhaps_child(Expression)?;
        }
        0x19 => {
            p.mark()?;
            p.child(Expression)?;
            p.counted_children(Statement)?;
            p.counted_children(Elif)?;
            p.children_to_the_end(Statement);
        }
        0x1A => {
            p.child(Expression)?;
            p.children_to_the_end(Statement);
        }
        0x1B => {
            p.child(Statement)?;
            p.name_and_mark()?;
            p.child(Statement)?;
        }
        0x1C => {
            p.name_and_mark()?;
            p.parameters_and_body()?;
        }
        0x1D => {
            p.name_and_mark()?;
            p.child(Superclass)?;
            p.counted_children(Method)?;
            p.children_to_the_end(Method);
        }
        _ => return None,
    }
    p.words.is_empty().then_some(p.children)
}

/// The words that are still to be read, and the children met so far. Nothing is answered where the payload does not fit.
struct Payload<'w> {
    words: &'w [u16],
    wide: bool,
    children: Vec<Child>,
}

impl Payload<'_> {
    fn word(&mut self) -> Option<u16> {
        let (first, rest) = self.words.split_first()?;
        self.words = rest;
        Some(*first)
    }

    fn any(&mut self, words: usize) -> Option<()> {
        (0..words).try_for_each(|_| self.word().map(|_| ()))
    }

    /// Any mark is lawful.
    fn mark(&mut self) -> Option<()> {
        self.any(if self.wide { 2 } else { 1 })
    }

    fn op(&mut self, most: u16) -> Option<()> {
        self.word().filter(|op| (1..=most).contains(op)).map(|_| ())
    }

    fn name_and_mark(&mut self) -> Option<()> {
        self.word().filter(|name| *name != NONE)?;
        self.mark()
    }

    fn parameters_and_body(&mut self) -> Option<()> {
        let k = self.word()?;
        (0..k).try_for_each(|_| self.name_and_mark())?;
        self.children_to_the_end(Role::Statement);
        Some(())
    }

    fn child(&mut self, role: Role) -> Option<()> {
        let node = self.word()?;
        self.children.push(Child { role, node });
        Some(())
    }

    fn perhaps_child(&mut self, role: Role) -> Option<()> {
        if self.words.is_empty() {
            Some(())
        } else {
            self.child(role)
        }
    }

    fn counted_children(&mut self, role: Role) -> Option<()> {
        let n = self.word()?;
        (0..n).try_for_each(|_| self.child(role))
    }

    fn children_to_the_end(&mut self, role: Role) {
        while self.child(role).is_some() {}
    }
}
