//! Both widths of marks (02, E5): narrow images made wide, and images that mix the two.
use super::build::*;
use crate::rng::Rng;
use crate::trees::damage::{joined, loose, Loose};
use crate::trees::width::kept;
use files::tree::whole_fields;
use files::NONE;

pub const NARROW: u8 = 0x43;
pub const WIDE: u8 = 0x47;

/// An instruction of the other width; its mark is kept where it fits. Anything else stays.
fn turned(field: &mut Loose) {
    match (field.tag, field.payload.len()) {
        (NARROW, 6) => {
            let mark = u16::from_be_bytes([field.payload[4], field.payload[5]]);
            field.payload.splice(4.., kept(mark.into()).to_be_bytes());
            field.tag = WIDE;
        }
        (WIDE, 8) => {
            field.payload.drain(4..6);
            field.tag = NARROW;
        }
        _ => {}
    }
}

/// Every instruction with a mark of four bytes; what is cut stays, and so does an instruction that has no six bytes.
pub fn widened(image: &[u8]) -> Vec<u8> {
    let (fields, rest) = whole_fields(image);
    let mut all: Vec<Loose> = fields.iter().map(|f| Loose { tag: f.tag, payload: f.payload.to_vec() }).collect();
    all.iter_mut().filter(|f| f.tag == NARROW).for_each(turned);
    [joined(&all), rest.to_vec()].concat()
}

/// The same with other marks: none, the edges, any.
pub fn widened_at_random(rng: &mut Rng, image: &[u8]) -> Vec<u8> {
    let mut all = loose(&widened(image));
    for field in all.iter_mut().filter(|f| f.tag == WIDE && f.payload.len() == 8) {
        field.payload.splice(4.., crate::trees::values::wide_mark(rng).to_be_bytes());
    }
    joined(&all)
}

/// One to three instructions get the other width, or the tag of the other with their own size.
pub fn mixed(rng: &mut Rng, fields: &mut [Loose]) {
    let code: Vec<usize> = (0..fields.len()).filter(|k| matches!(fields[*k].tag, NARROW | WIDE)).collect();
    for _ in 0..rng.range(1, 3) {
        let Some(at) = (!code.is_empty()).then(|| *rng.pick(&code)) else { return };
        match rng.chance(800) {
            true => turned(&mut fields[at]),
            false => fields[at].tag = NARROW + WIDE - fields[at].tag,
        }
    }
}

/// The first instruction of an image decides; one of the other tag cannot follow, nor one of the other size.
pub fn edges() -> Vec<Edge> {
    let mut edges = vec![];
    let head = |captures, instructions| header([3, 2, 5, captures, instructions]);
    let narrow = |mark: u16| field(NARROW, &[&[20, 0, 0, 0], &mark.to_be_bytes()[..]].concat());
    let wide = |mark: u32| field(WIDE, &[[20, 0, 0, 0], mark.to_be_bytes()].concat());
    let (n, w) = (narrow(NONE), wide(u32::MAX));
    let (capture, text) = (field(0x42, &[0, 9]), field(0x45, &[0, 7]));
    let mut say = |name: &str, parts: &[&[u8]], due| edges.push(edge(name, parts.concat(), due));
    let (h1, h2, h3) = (head(0, 1), head(0, 2), head(0, 3));
    say("the empty program, wide", &[&header([NONE, 0, 0, 0, 1]), &w], TAKEN);
    for mark in crate::trees::values::WIDE_MARKS {
        say("any wide mark", &[&h2, &wide(mark), &w], TAKEN);
    }
    say("47 behind 43", &[&h2, &n, &w], [20, 2]);
    say("43 behind 47", &[&h2, &w, &n], [20, 2]);
    say("43 among 47", &[&h3, &w, &n, &w], [20, 2]);
    say("47 at the end of 43", &[&h3, &n, &n, &w], [20, 3]);
    say("47 in the second prototype", &[&h1, &n, &h1, &w], [20, 3]);
    say("43 in the second prototype", &[&h1, &w, &h1, &n], [20, 3]);
    say("43 behind 47 in the second prototype", &[&h1, &w, &h2, &w, &n], [20, 4]);
    say("47 in the third prototype", &[&h1, &n, &h1, &n, &h1, &w, &text], [20, 5]);
    say("two wide prototypes", &[&h1, &w, &h2, &w, &w, &text], TAKEN);
    say("47 in place of a capture", &[&head(1, 1), &w], [20, 1]);
    say("47 where a prototype is due", &[&w], [20, 0]);
    say("47 behind the code", &[&h1, &w, &w], [20, 2]);
    say("47 behind a constant", &[&h1, &w, &text, &w], [20, 3]);
    say("a wide one with captures", &[&head(2, 1), &capture, &capture, &w, &text], TAKEN);
    for size in [0, 1, 4, 5, 6, 7, 9, 10, 16, 255, 65_535] {
        say("47 of another size", &[&h1, &field(WIDE, &vec![20; size])], [20, 1]);
        say("47 of another size behind one of 8", &[&h2, &w, &field(WIDE, &vec![20; size])], [20, 2]);
    }
    say("43 of 8 bytes behind 47", &[&h2, &w, &field(NARROW, &[20, 0, 0, 0, 0, 0, 0, 0])], [20, 2]);
    say("47 of 6 bytes behind 43", &[&h2, &n, &field(WIDE, &[20, 0, 0, 0, 0, 0])], [20, 2]);
    say("wide, and the end too soon", &[&h2, &w], [20, 2]);
    // a field that cannot follow is told before a fact that fails
    say("a fault, then a mix", &[&h2, &field(WIDE, &[21, 0, 0, 0, 0, 0, 0, 0]), &n], [20, 2]);
    say("a fault in a wide image", &[&h2, &field(WIDE, &[21, 0, 0, 0, 0, 0, 0, 0]), &w], [20, 1]);
    // a mark is no operand: bytes of it that could be opcodes or jumps say nothing
    let jump = |mark: u32| field(WIDE, &[[3, 0, 0, 1], mark.to_be_bytes()].concat());
    say("a Jmp with a mark like a Jmp", &[&h2, &jump(0x0301_7FFF), &w], TAKEN);
    edges
}
