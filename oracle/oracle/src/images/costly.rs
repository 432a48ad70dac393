//! The images that cost a reader most: the longest that the lowering can write, and those where a fact could be looked for once for every pair.
use super::build::{edge, end, image, ins, local, prototype, rule_unless, wide, Edge, TAKEN};
use super::width::widened;
use files::image::{Capture, Constant, Instruction, Prototype};

pub fn all() -> Vec<Edge> {
    let mut broken = closing(32);
    let last = broken.len() - 1024 * 11 - 9;
    // the last Return of the main function becomes a Jmp past the end
    broken[last + 3..last + 7].copy_from_slice(&[3, 0, 0, 1]);
    vec![
        edge("75,836,160 bytes, a Closure in nearly each field", closing(256), TAKEN),
        edge("92,612,864 bytes, the same with marks of four bytes", widened(&closing(256)), TAKEN),
        edge("the same of 32 prototypes, the last fact fails", broken, rule_unless(false, 32 * (1 + 255 + 32767) - 1)),
        edge("Returns that are let pass, 16 prototypes of them", let_pass(), TAKEN),
        edge("the same with marks of four bytes", widened(&let_pass()), TAKEN),
        edge("65,535 Closures of 65,535 captures each", captures(), TAKEN),
    ]
}

/// Prototypes of 255 captures and 32,767 instructions, 1,024 constants of 8 bytes; each closes the one before it all the way.
fn closing(prototypes: usize) -> Vec<u8> {
    let captures: Vec<Capture> = (0..255).map(|k| local(k as u8)).collect();
    let one = |q: usize| {
        let body = if q == 0 { ins("Move", 254, 254, 0) } else { wide("Closure", 254, q - 1) };
        prototype(255, captures.clone(), code(body, 32767))
    };
    image((0..prototypes).map(one).collect(), (0..1024).map(Constant::Number).collect())
}

/// 16 prototypes without registers, whose Returns but the first give back register 0: each is let pass, since no step enters it.
fn let_pass() -> Vec<u8> {
    let mut all = vec![ins("Return", 0, 1, 0); 65535];
    all[0] = end();
    image(vec![prototype(0, vec![], all); 16], vec![])
}

fn captures() -> Vec<u8> {
    let captured = prototype(0, vec![local(254); 65535], vec![end()]);
    let closing: Prototype = prototype(255, vec![], code(wide("Closure", 0, 0), 65535));
    image(vec![captured, closing], vec![])
}

/// So many instructions, the last of them the Return of every function.
fn code(body: Instruction, count: usize) -> Vec<Instruction> {
    let mut all = vec![body; count - 1];
    all.push(end());
    all
}
