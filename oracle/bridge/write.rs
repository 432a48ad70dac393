// Part of two crates: what a finished compiler holds, as an image.
use crate::compiler::{Compiler, FnPrototype};
use crate::names::{constant, mark, name_number};
use files::image::{Capture, Image, Instruction, Prototype};

pub fn image(compiler: &Compiler, wide: bool) -> Image {
    Image {
        wide,
        prototypes: compiler.prototypes.iter().map(|p| prototype(p, wide)).collect(),
        constants: compiler.constants.iter().map(constant).collect(),
    }
}

fn prototype(p: &FnPrototype, wide: bool) -> Prototype {
    let marks = p.instruction_data.iter().map(|token| mark(token, wide));
    Prototype {
        name: name_number(&p.name),
        parameters: p.param_count.try_into().expect("a parameter count is a word"),
        registers: p.register_count.into(),
        captures: p.upvalues.iter().map(|u| Capture { local: u.is_local, index: u.index }).collect(),
        instructions: p
            .instructions
            .iter()
            .zip(marks)
            .map(|(i, mark)| Instruction { opcode: i.opcode.clone() as u8, a: i.a, b: i.b, c: i.c, mark })
            .collect(),
    }
}
