//! An image for people: one line for each prototype, capture, instruction and constant.
use crate::image::{Constant, Image, Instruction};
use crate::opcodes::name;
use crate::NONE;

/// `LoadK 0 0 1`: an instruction without its mark, as 01 lists them.
pub fn line(i: &Instruction) -> String {
    format!("{} {} {} {}", name(i.opcode).unwrap_or("?"), i.a, i.b, i.c)
}

pub fn listing(image: &Image) -> String {
    let mut text = String::new();
    for (k, p) in image.prototypes.iter().enumerate() {
        text +=
            &format!("prototype {k}: name {}, {} parameters, {} registers\n", word(p.name), p.parameters, p.registers);
        for c in &p.captures {
            text += &format!("  captures {} {}\n", if c.local { "register" } else { "capture" }, c.index);
        }
        for (at, i) in p.instructions.iter().enumerate() {
            text += &format!("  {at:5} {}  mark {}\n", line(i), i.mark.map_or("none".into(), |mark| mark.to_string()));
        }
    }
    for (k, c) in image.constants.iter().enumerate() {
        text += &match c {
            Constant::Number(bits) => format!("constant {k}: number {} ({bits:016X})\n", f64::from_bits(*bits)),
            Constant::Text(name) => format!("constant {k}: text {}\n", word(*name)),
            Constant::Other(w) => format!("constant {k}: other {w}\n"),
        };
    }
    text
}

fn word(w: u16) -> String {
    if w == NONE {
        "none".into()
    } else {
        w.to_string()
    }
}
