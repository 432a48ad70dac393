//! Files by rule: patterns repeated, some of their words going up at each turn. Large regular trees are kept so.
use files::NONE;

#[derive(Clone, Debug, PartialEq)]
pub struct Part {
    pub times: u32,
    pub pattern: Vec<u8>,
    /// The word at this offset of the pattern grows by so much at each turn, modulo 65,536.
    pub steps: Vec<(u16, u16)>,
}

#[derive(Clone, Debug, PartialEq)]
pub struct Rule(pub Vec<Part>);

impl Rule {
    /// One part, once: the bytes as they are.
    pub fn plain(bytes: Vec<u8>) -> Rule {
        Rule(vec![once(bytes)])
    }

    pub fn expand(&self) -> Vec<u8> {
        let mut file = vec![];
        for part in &self.0 {
            for turn in 0..part.times {
                let start = file.len();
                file.extend(&part.pattern);
                for (offset, step) in &part.steps {
                    let at = start + usize::from(*offset);
                    let word = u16::from_be_bytes([file[at], file[at + 1]]);
                    let grown = word.wrapping_add(step.wrapping_mul(turn as u16));
                    file[at..at + 2].copy_from_slice(&grown.to_be_bytes());
                }
            }
        }
        file
    }
}

fn once(pattern: Vec<u8>) -> Part {
    Part { times: 1, pattern, steps: vec![] }
}

fn words(words: &[u16]) -> Vec<u8> {
    words.iter().flat_map(|w| w.to_be_bytes()).collect()
}

fn header(tag: u8, length: usize) -> Vec<u8> {
    [&[tag][..], &u16::try_from(length).expect("a payload's length is a word").to_be_bytes()].concat()
}

fn field(tag: u8, payload: &[u16]) -> Vec<u8> {
    [header(tag, 2 * payload.len()), words(payload)].concat()
}

/// n child numbers from `first` on, each `step` after the one before.
fn children(n: usize, first: usize, step: u16) -> Part {
    Part { times: n as u32, pattern: words(&[first as u16]), steps: vec![(0, step)] }
}

/// n times the same field.
fn same(n: usize, field: Vec<u8>) -> Part {
    Part { times: n as u32, pattern: field, steps: vec![] }
}

/// Reference program 13: a block with `let a = 1`, empty ifs on a, and bare returns.
pub fn ifs_and_returns(ifs: usize, returns: usize) -> Rule {
    let (a, mark) = (20, 7);
    let mut begin = header(0x01, 8);
    begin.extend(1f64.to_be_bytes());
    begin.extend(field(0x11, &[a, mark, 0]));
    let variable = field(0x04, &[a, mark]);
    let condition = variable.len() + 3 + 2;
    let pair = [variable, field(0x19, &[mark, 2, 0, 0])].concat();
    let block = 2 + 2 * ifs + returns;
    let mut begin_block = header(0x12, 2 * (1 + ifs + returns));
    begin_block.extend(words(&[1]));
    Rule(vec![
        once(begin),
        Part { times: ifs as u32, pattern: pair, steps: vec![(condition as u16, 2)] },
        same(returns, field(0x18, &[mark])),
        once(begin_block),
        children(ifs, 3, 2),
        children(returns, 2 + 2 * ifs, 1),
        once(field(0x1E, &[block as u16])),
    ])
}

/// A program of n statements without children, all the same.
fn statements(n: usize, field: Vec<u8>) -> Rule {
    Rule(vec![same(n, field), once(header(0x1E, 2 * n)), children(n, 0, 1)])
}

/// n empty blocks: n + 1 fields and no instruction but the last Return.
pub fn empty_blocks(n: usize) -> Rule {
    statements(n, field(0x12, &[]))
}

/// n bare returns: n + 1 instructions.
pub fn bare_returns(n: usize) -> Rule {
    statements(n, field(0x18, &[NONE]))
}

/// n fields that are no program, then an end of one's choice.
pub fn fields_then(n: usize, end: &[u8]) -> Rule {
    Rule(vec![same(n, field(0x12, &[])), once(end.to_vec())])
}
