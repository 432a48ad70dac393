//! What images are put together from.
use files::image::{Capture, Constant, Image, Instruction, Prototype};
use files::opcodes::opcode;
use files::tree::push_field;
use files::NONE;

/// An image with the number and place that are due for it, written down by hand.
pub struct Edge {
    pub name: String,
    pub image: Vec<u8>,
    pub due: [u64; 2],
}

pub const TAKEN: [u64; 2] = [0, 0];

pub fn edge(name: impl Into<String>, image: Vec<u8>, due: [u64; 2]) -> Edge {
    Edge { name: name.into(), image, due }
}

/// 20 at a place where something fails, else taken.
pub fn rule_unless(right: bool, place: usize) -> [u64; 2] {
    if right {
        TAKEN
    } else {
        [20, place as u64]
    }
}

/// An instruction without mark.
pub fn ins(name: &str, a: u8, b: u8, c: u8) -> Instruction {
    Instruction { opcode: opcode(name), a, b, c, mark: None }
}

/// An instruction whose b and c are one number.
pub fn wide(name: &str, a: u8, bx: usize) -> Instruction {
    let [b, c] = (bx as u16).to_be_bytes();
    ins(name, a, b, c)
}

/// The last Return of every function.
pub fn end() -> Instruction {
    ins("Return", 0, 0, 0)
}

pub fn local(index: u8) -> Capture {
    Capture { local: true, index }
}

pub fn outer(index: u8) -> Capture {
    Capture { local: false, index }
}

pub fn prototype(registers: u16, captures: Vec<Capture>, instructions: Vec<Instruction>) -> Prototype {
    Prototype { name: NONE, parameters: 0, registers, captures, instructions }
}

/// Nothing but its last Return.
pub fn bare() -> Prototype {
    prototype(0, vec![], vec![end()])
}

pub fn texts(n: usize) -> Vec<Constant> {
    (0..n).map(|k| Constant::Text(k as u16)).collect()
}

pub fn image(prototypes: Vec<Prototype>, constants: Vec<Constant>) -> Vec<u8> {
    Image { wide: false, prototypes, constants }.to_bytes()
}

/// One prototype without constants: its instruction k is field 1 + k.
pub fn alone(registers: u16, code: Vec<Instruction>) -> Vec<u8> {
    image(vec![prototype(registers, vec![], code)], vec![])
}

/// A header with these five words.
pub fn header(words: [u16; 5]) -> Vec<u8> {
    field(0x41, &words.map(u16::to_be_bytes).concat())
}

pub fn field(tag: u8, payload: &[u8]) -> Vec<u8> {
    let mut bytes = vec![];
    push_field(&mut bytes, tag, payload);
    bytes
}
