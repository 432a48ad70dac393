//! Random images: most of their operands inside, then at times damaged.
use super::build::{bare, end};
use super::width;
use crate::answer;
use crate::questions;
use crate::rng::Rng;
use crate::trees::damage::{hurt_bytes, joined, loose, Loose};
use crate::trees::values;
use files::image::{Capture, Constant, Image, Instruction, Prototype};
use files::opcodes::{is_written, meets, Meets};
use files::tree::push_field;

/// Case k of a seed: half of them built, the others what a small tree gives, each as it is or damaged; and noise.
pub fn any(seed: u64, k: u64) -> Vec<u8> {
    let mut rng = Rng::for_case(seed ^ 0x0069_6D61_6765, k);
    let whole = match rng.below(20) {
        0 => return noise(&mut rng),
        1..=8 => lowered(&mut rng, seed, k).unwrap_or_else(|| built(&mut rng)),
        _ => built(&mut rng),
    };
    if rng.chance(400) {
        whole
    } else {
        damaged(&mut rng, &whole)
    }
}

/// The image of a small random tree, two of five of them wide, where it has one.
pub fn lowered(rng: &mut Rng, seed: u64, k: u64) -> Option<Vec<u8>> {
    let mode = rng.below(2) as u64;
    let tree = questions::small(seed, k, mode).tree;
    let tree = if rng.chance(400) { questions::made_wide(rng, &tree) } else { tree };
    answer::image(&tree, mode, u64::MAX).ok()
}

/// What the operands of a prototype may name, and how often one leaves it, in 1,000.
struct Taste {
    wild: usize,
    own: usize,
    captures: usize,
    registers: usize,
    constants: usize,
    length: usize,
}

fn built(rng: &mut Rng) -> Vec<u8> {
    let wild = *rng.pick(&[0, 0, 0, 5, 20, 100, 500]);
    let constants: Vec<Constant> = (0..rng.below(5)).map(|_| constant(rng)).collect();
    let mut prototypes = vec![];
    for own in 0..rng.range(1, 5) {
        let registers = *rng.pick(&[0, 0, 1, 1, 2, 3, 5, 9, 255, 256, 400]);
        let captures = *rng.pick(&[0, 0, 1, 2, 3]);
        let length = rng.range(1, 12);
        let taste = Taste { wild, own, captures, registers, constants: constants.len(), length };
        prototypes.push(if rng.chance(50) { bare() } else { prototype(rng, &taste) });
    }
    let image = Image { wide: false, prototypes, constants }.to_bytes();
    if rng.chance(400) {
        width::widened_at_random(rng, &image)
    } else {
        image
    }
}

fn constant(rng: &mut Rng) -> Constant {
    match rng.below(4) {
        0 => Constant::Number(rng.next()),
        1 => Constant::Other(rng.word()),
        _ => Constant::Text(rng.word()),
    }
}

fn prototype(rng: &mut Rng, taste: &Taste) -> Prototype {
    let captures = (0..taste.captures).map(|_| Capture { local: rng.chance(500), index: rng.below(3) as u8 }).collect();
    let mut instructions: Vec<Instruction> = (0..taste.length).map(|at| instruction(rng, taste, at)).collect();
    if !rng.chance(taste.wild) {
        *instructions.last_mut().expect("at least one") = end();
    }
    let [name, parameters] = [rng.word(), rng.word()];
    Prototype { name, parameters, registers: taste.registers as u16, captures, instructions }
}

fn instruction(rng: &mut Rng, taste: &Taste, at: usize) -> Instruction {
    let opcode = loop {
        let any = if rng.chance(400) { *rng.pick(&[3, 3, 4, 20, 20, 20, 23, 48, 49]) } else { rng.below(52) as u8 };
        let none = matches!(meets(any), Meets::None | Meets::Return);
        if rng.chance(taste.wild) || is_written(any) && (taste.registers > 0 || none) {
            break any;
        }
    };
    let [mut a, mut b, mut c] = [0; 3].map(|_: u8| register(rng, taste));
    let mut wide = |bx: usize| [b, c] = (bx as u16).to_be_bytes();
    let to = below(rng, taste, taste.length) as isize;
    match opcode {
        1 | 44 | 45 | 47 => wide(below(rng, taste, taste.constants)),
        3 => {
            a = if rng.chance(taste.wild) { rng.below(4) as u8 } else { 0 };
            wide((to - at as isize) as usize);
        }
        48 => wide((to - at as isize).unsigned_abs()),
        23 => wide(below(rng, taste, taste.own)),
        22 => b = below(rng, taste, taste.captures) as u8,
        19 if !rng.chance(taste.wild) => {
            b = 1 + b.min((taste.registers.max(1) - 1).saturating_sub(a.into()).min(254) as u8);
            c = c.saturating_add(1);
        }
        20 => b = rng.below(3) as u8,
        _ => {}
    }
    Instruction { opcode, a, b, c, mark: Some(values::mark(rng).into()) }
}

/// A number below a count, or beside it where the taste is wild.
fn below(rng: &mut Rng, taste: &Taste, count: usize) -> usize {
    if count == 0 || rng.chance(taste.wild) {
        (count + rng.below(3)).wrapping_sub(rng.below(2))
    } else {
        rng.below(count)
    }
}

fn register(rng: &mut Rng, taste: &Taste) -> u8 {
    below(rng, taste, taste.registers.min(255)) as u8
}

/// One or two damages to fields or bytes.
fn damaged(rng: &mut Rng, image: &[u8]) -> Vec<u8> {
    let mut fields = loose(image);
    for _ in 0..rng.range(1, 2) {
        if !fields.is_empty() {
            hurt_fields(rng, &mut fields);
        }
    }
    let mut bytes = joined(&fields);
    if rng.chance(200) {
        hurt_bytes(rng, &mut bytes);
    }
    bytes
}

fn hurt_fields(rng: &mut Rng, fields: &mut Vec<Loose>) {
    let n = fields.len();
    let at = rng.below(n);
    match rng.below(15) {
        0 => {
            fields.remove(at);
        }
        1 => fields.insert(rng.below(n + 1), fields[at].clone()),
        2 => fields.swap(at, rng.below(n)),
        3 => fields[at].tag = rng.range(0x40, 0x49) as u8,
        4 => {
            fields[at].payload.pop();
        }
        5 => fields[at].payload.push(rng.word() as u8),
        6 => fields.truncate(at),
        7 => width::mixed(rng, fields),
        _ => hurt_byte(rng, &mut fields[at].payload),
    }
}

/// A byte of a payload beside what it was, at an end, or any.
fn hurt_byte(rng: &mut Rng, payload: &mut [u8]) {
    if payload.is_empty() {
        return;
    }
    let at = rng.below(payload.len());
    payload[at] = match rng.below(6) {
        0 => payload[at].wrapping_add(1),
        1 => payload[at].wrapping_sub(1),
        2 => rng.below(4) as u8,
        3 => 255,
        4 => rng.below(52) as u8,
        _ => rng.word() as u8,
    };
}

/// Bytes of no meaning, at times in fields of an image's tags.
fn noise(rng: &mut Rng) -> Vec<u8> {
    if rng.chance(300) {
        return (0..rng.below(40)).map(|_| rng.word() as u8).collect();
    }
    let mut bytes = vec![];
    for _ in 0..rng.below(8) {
        let (tag, size) =
            *rng.pick(&[(0x41, 10), (0x42, 2), (0x43, 6), (0x43, 6), (0x44, 8), (0x45, 2), (0x47, 8), (0x48, 8)]);
        let payload: Vec<u8> = (0..size).map(|_| rng.below(3) as u8).collect();
        push_field(&mut bytes, tag, &payload);
    }
    bytes
}
