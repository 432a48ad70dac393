//! Damaged files: bytes changed or cut, fields dropped, doubled and swapped, payloads too short or long, words replaced.
use crate::rng::Rng;
use files::tree::{fields, push_field, whole_fields};
use files::NONE;

/// A field of its own.
#[derive(Clone)]
pub struct Loose {
    pub tag: u8,
    pub payload: Vec<u8>,
}

/// The fields of a file that is not cut.
pub fn loose(file: &[u8]) -> Vec<Loose> {
    let fields = fields(file).expect("a file of whole fields");
    fields.iter().map(|f| Loose { tag: f.tag, payload: f.payload.to_vec() }).collect()
}

pub fn joined(fields: &[Loose]) -> Vec<u8> {
    let mut file = vec![];
    for f in fields {
        push_field(&mut file, f.tag, &f.payload);
    }
    file
}

/// One to three damages: first to fields, then to bytes.
pub fn damaged(rng: &mut Rng, file: &[u8]) -> Vec<u8> {
    let mut fields = loose(file);
    let hurts = if rng.chance(700) { 1 } else { rng.range(2, 3) };
    let to_bytes = if rng.chance(300) { rng.range(1, hurts) } else { 0 };
    for _ in to_bytes..hurts {
        if !fields.is_empty() {
            hurt_fields(rng, &mut fields);
        }
    }
    let mut bytes = joined(&fields);
    for _ in 0..to_bytes {
        hurt_bytes(rng, &mut bytes);
    }
    bytes
}

fn hurt_fields(rng: &mut Rng, fields: &mut Vec<Loose>) {
    let n = fields.len();
    let at = rng.below(n);
    match rng.below(16) {
        0 => {
            fields.remove(at);
        }
        1 => fields.insert(rng.below(n + 1), fields[at].clone()),
        2 => fields.swap(at, rng.below(n)),
        3 => fields[at].tag = rng.below(0x22) as u8,
        4 => fields[at].tag = rng.word() as u8,
        5 => {
            fields[at].payload.pop();
        }
        6 => fields[at].payload.push(rng.word() as u8),
        7 => insert_word(rng, &mut fields[at].payload),
        8 => drop_word(rng, &mut fields[at].payload),
        9..=12 => other_child(rng, fields, at),
        _ => replace_word(rng, &mut fields[at].payload, at, n),
    }
}

fn insert_word(rng: &mut Rng, payload: &mut Vec<u8>) {
    let at = 2 * rng.below(payload.len() / 2 + 1);
    let word = rng.below(6) as u16;
    payload.splice(at..at, word.to_be_bytes());
}

fn drop_word(rng: &mut Rng, payload: &mut Vec<u8>) {
    if payload.len() >= 2 {
        let at = 2 * rng.below(payload.len() / 2);
        payload.drain(at..at + 2);
    }
}

/// Where a word could be a child, another node of the same tag: one node is then a child twice, one never.
fn other_child(rng: &mut Rng, fields: &mut [Loose], at: usize) {
    let payload = &fields[at].payload;
    if payload.len() < 2 {
        return;
    }
    let k = 2 * rng.below(payload.len() / 2);
    let old = usize::from(u16::from_be_bytes([payload[k], payload[k + 1]]));
    if old < at {
        let alike: Vec<usize> = (0..at).filter(|j| fields[*j].tag == fields[old].tag).collect();
        let other = *rng.pick(&alike) as u16;
        fields[at].payload[k..k + 2].copy_from_slice(&other.to_be_bytes());
    }
}

/// Another word: a small one, one beside the node's own number, 65,535, or any.
fn replace_word(rng: &mut Rng, payload: &mut [u8], own: usize, n: usize) {
    if payload.len() < 2 {
        return;
    }
    let at = 2 * rng.below(payload.len() / 2);
    let old = u16::from_be_bytes([payload[at], payload[at + 1]]);
    let word = match rng.below(10) {
        0 => NONE,
        1 => own as u16,
        2 => own as u16 + 1,
        3 => (own as u16).wrapping_sub(1),
        4 => rng.below(n) as u16,
        5 => rng.below(14) as u16,
        6 => old.wrapping_add(1),
        7 => old.wrapping_sub(1),
        8 => n as u16 - 1,
        _ => rng.word(),
    };
    payload[at..at + 2].copy_from_slice(&word.to_be_bytes());
}

/// One damage to the bytes of any file.
pub fn hurt_bytes(rng: &mut Rng, bytes: &mut Vec<u8>) {
    if bytes.is_empty() {
        bytes.push(rng.word() as u8);
        return;
    }
    let at = rng.below(bytes.len());
    match rng.below(7) {
        0 => bytes.truncate(at),
        1 => bytes[at] ^= 1 << rng.below(8),
        2 => bytes[at] = rng.word() as u8,
        3 => {
            bytes.remove(at);
        }
        4..=5 => hurt_length(rng, bytes),
        _ => bytes.extend((0..rng.range(1, 3)).map(|_| rng.word() as u8)),
    }
}

/// A header that says a little more or less than its payload has.
fn hurt_length(rng: &mut Rng, bytes: &mut [u8]) {
    let fields = whole_fields(bytes).0;
    if fields.is_empty() {
        return;
    }
    let before = rng.below(fields.len());
    let at = 1 + fields[..before].iter().map(|f| 3 + f.payload.len()).sum::<usize>();
    let length = fields[before].payload.len() as u16;
    let other = length.wrapping_add_signed(*rng.pick(&[-256, -3, -2, -1, 1, 2, 3, 256]));
    bytes[at..at + 2].copy_from_slice(&other.to_be_bytes());
}

/// Bytes of no meaning, at times with tags that are listed.
pub fn noise(rng: &mut Rng) -> Vec<u8> {
    let mut bytes = vec![];
    if rng.chance(500) {
        return (0..rng.below(40)).map(|_| rng.word() as u8).collect();
    }
    for _ in 0..rng.below(6) {
        let payload: Vec<u8> = (0..2 * rng.below(5)).map(|_| rng.below(6) as u8).collect();
        push_field(&mut bytes, rng.below(0x20) as u8, &payload);
    }
    bytes
}
