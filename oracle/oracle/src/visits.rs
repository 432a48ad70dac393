//! Visits once more, by the words of document 02's E6 over a checked tree, and their bounds. The answer's visits are not these: they are
//! counted by the traced source.
use crate::judge;
use files::tree::Field;

/// As many lowerings of one node as constants allow, and one.
pub const MOST_A_NODE: u64 = 1025;

/// "A node counts one plus its lowered children, the right side of a numeral-left Minus with the small-number test counts twice, a
/// right-hand number folded into Addi counts nothing": children stand below their node, so they are counted first.
pub fn by_rule(nodes: &[Field]) -> u64 {
    let mut counts: Vec<u64> = vec![];
    for (children, node) in judge::children_of(nodes).iter().zip(nodes) {
        let all: u64 = children.iter().map(|child| counts[*child]).sum();
        counts.push(match twice_or_nothing(nodes, node, children) {
            Some((Side::Twice, child)) => 1 + all + counts[child],
            Some((Side::Nothing, child)) => 1 + all - counts[child],
            None => 1 + all,
        });
    }
    counts[nodes.len() - 1]
}

/// What is due of the visits of any accepted tree: no more than its nodes where no numeral-left Minus has the test, else 1,025 times these.
pub fn bounded(nodes: &[Field], visits: u64) -> Result<(), String> {
    let twice =
        |(node, own): (&Field, &Vec<usize>)| matches!(twice_or_nothing(nodes, node, own), Some((Side::Twice, _)));
    let doubled = nodes.iter().zip(&judge::children_of(nodes)).any(twice);
    let most = nodes.len() as u64 * if doubled { MOST_A_NODE } else { 1 };
    match visits {
        0 => Err("no visits, and the program is one".into()),
        _ if visits > most => Err(format!("{visits} visits, over {most} for {} nodes", nodes.len())),
        _ => Ok(()),
    }
}

enum Side {
    Twice,
    Nothing,
}

/// A child on the right that does not count once.
fn twice_or_nothing(nodes: &[Field], node: &Field, children: &[usize]) -> Option<(Side, usize)> {
    let &[left, right] = children else { return None };
    match node.word(0) {
        _ if node.tag != 0x06 => None,
        1 if is_small(&nodes[right]) => Some((Side::Nothing, right)),
        8 if is_small(&nodes[left]) => Some((Side::Twice, right)),
        _ => None,
    }
}

/// A number that equals one of 0 to 255 by IEEE comparison.
fn is_small(node: &Field) -> bool {
    let number = || f64::from_bits(u64::from_be_bytes(node.payload.try_into().expect("eight bytes")));
    node.tag == 0x01 && (0..=255).any(|small| number() == f64::from(small))
}
