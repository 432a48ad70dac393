//! Time against visits (document 02, E6): trees of the same nodes, of which one is lowered with many more visits than the other. In both, functions
//! hold chains `n - (n - (.. a))`; where n is 2.5 each node is visited once, where n is 3 each right side twice.
use crate::measure::{lowered, summary, Times};
use files::tree::push_field;

/// Chains of so many Minuses: a longer one takes more registers than a function has.
pub const CHAINS: [usize; 4] = [1, 2, 3, 4];

/// Functions, and chains in each, so that registers and constants suffice for the longest chain.
const FUNCTIONS: u16 = 12;
const IN_EACH: u16 = 5;

/// One length of chains.
pub struct Work {
    pub chain: usize,
    pub nodes: u64,
    /// Visits with 2.5 on the left, and with 3.
    pub visits: [u64; 2],
    /// Nanoseconds a visit, of each.
    pub times: [Times; 2],
}

impl Work {
    /// How many times as many visits, and how many times as long.
    pub fn grown(&self) -> [f64; 2] {
        let [few, many] = self.visits.map(|visits| visits as f64);
        [many / few, self.times[1].median * many / (self.times[0].median * few)]
    }
}

/// A row for each length; the first round warms up.
pub fn measure(rounds: usize) -> Vec<Work> {
    CHAINS.map(|chain| one(chain, rounds)).into()
}

fn one(chain: usize, rounds: usize) -> Work {
    let trees = [2.5, 3.0].map(|left| tree(chain, left));
    let mut taken = [const { Vec::new() }; 2];
    let mut visits = [0; 2];
    for round in 0..=rounds {
        for ((tree, taken), visits) in trees.iter().zip(&mut taken).zip(&mut visits) {
            let (nanoseconds, answer) = lowered(tree);
            assert_eq!(answer[0], 0, "the tree is accepted");
            *visits = answer[3];
            if round > 0 {
                taken.push(nanoseconds);
            }
        }
    }
    let [few, many] = taken;
    let times = [summary(few, visits[0] as f64), summary(many, visits[1] as f64)];
    // a function, and of each chain its statement, its variable, and two nodes for each Minus; the program
    let nodes = 1 + u64::from(FUNCTIONS) * (1 + u64::from(IN_EACH) * (2 + 2 * chain as u64));
    assert_eq!(visits[0], nodes, "each node is visited once");
    Work { chain, nodes, visits, times }
}

/// The program: functions of one parameter, whose bodies are chains.
fn tree(chain: usize, left: f64) -> Vec<u8> {
    let (mut file, mut next, mut functions) = (Vec::new(), 0u16, Vec::new());
    let mut node = |tag: u8, payload: &[u8]| {
        push_field(&mut file, tag, payload);
        next += 1;
        next - 1
    };
    let words = |words: &[u16]| words.iter().flat_map(|word| word.to_be_bytes()).collect::<Vec<u8>>();
    for function in 0..FUNCTIONS {
        let mut body = vec![20 + function, 1, 1, 9, 1];
        for _ in 0..IN_EACH {
            let mut right = node(0x04, &words(&[9, 1]));
            for _ in 0..chain {
                let number = node(0x01, &left.to_bits().to_be_bytes());
                right = node(0x06, &words(&[8, 1, number, right]));
            }
            body.push(node(0x10, &words(&[right])));
        }
        functions.push(node(0x1C, &words(&body)));
    }
    node(0x1E, &words(&functions));
    file
}
