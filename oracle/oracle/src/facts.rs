//! Demand 3 in plain Rust: what holds at every instruction of an accepted image, reached or not; and 01's two rules on how
//! each prototype ends.
use files::image::{Capture, Constant, Image, Instruction, Prototype};
use files::listing::line;
use files::opcodes::{self, Meets};

/// 17: how many instructions a prototype may have, its last Return counted.
const LONGEST: usize = 32_767;

/// All facts, or the first that fails, in words.
pub fn check(image: &Image) -> Result<(), String> {
    if image.prototypes.is_empty() {
        return Err("no prototype".into());
    }
    for k in 0..image.prototypes.len() {
        check_prototype(image, k).map_err(|fault| format!("prototype {k}: {fault}"))?;
    }
    Ok(())
}

/// The same of an image's bytes.
pub fn check_bytes(bytes: &[u8]) -> Result<(), String> {
    check(&Image::from_bytes(bytes)?)
}

fn check_prototype(image: &Image, k: usize) -> Result<(), String> {
    let p = &image.prototypes[k];
    if p.instructions.len() > LONGEST {
        return Err(format!("{} instructions, over {LONGEST}", p.instructions.len()));
    }
    match p.instructions.last() {
        Some(i) if (name(i), i.a, i.b, i.c) == ("Return", 0, 0, 0) => {}
        _ => return Err("the last instruction is not Return 0 0 0".into()),
    }
    let here = Here { prototype: p, earlier: &image.prototypes[..k], constants: &image.constants };
    for (at, i) in p.instructions.iter().enumerate() {
        here.check(at, i).map_err(|fault| format!("instruction {at}, {}: {fault}", line(i)))?;
    }
    Ok(())
}

fn name(i: &Instruction) -> &'static str {
    opcodes::name(i.opcode).unwrap_or("?")
}

/// A prototype with what its instructions may name.
pub struct Here<'i> {
    pub prototype: &'i Prototype,
    pub earlier: &'i [Prototype],
    pub constants: &'i [Constant],
}

impl Here<'_> {
    /// The facts of the instruction at an index, or the first that fails, in words.
    pub fn check(&self, at: usize, i: &Instruction) -> Result<(), String> {
        if name(i) == "?" {
            return Err("no opcode".into());
        }
        if name(i) == "Jmp" && i.a != 0 {
            return Err("a Jmp with a other than 0".into());
        }
        if name(i) == "Call" && (i.b == 0 || i.c == 0) {
            return Err("a Call with b or c 0".into());
        }
        for target in targets(at, i) {
            within("a target", target, self.prototype.instructions.len())?;
        }
        for register in registers_met(i) {
            within("a register", register as isize, self.prototype.registers.into())?;
        }
        self.check_names(i)
    }

    /// Captures, constants, texts and prototypes that an instruction names.
    fn check_names(&self, i: &Instruction) -> Result<(), String> {
        match name(i) {
            "GetUpval" => within("a capture", i.b.into(), self.prototype.captures.len()),
            "LoadK" => within("a constant", i.bx() as isize, self.constants.len()),
            "GetGlobal" | "SetGlobal" | "GetBuiltin" => match self.constants.get(i.bx()) {
                Some(Constant::Text(_)) => Ok(()),
                other => Err(format!("a text is due, not {other:?}")),
            },
            "Closure" => {
                let made = self.earlier.get(i.bx()).ok_or("no earlier prototype")?;
                made.captures.iter().try_for_each(|c| self.check_capture(c))
            }
            _ => Ok(()),
        }
    }

    /// A capture of a prototype that is made here names a register or a capture that stands here.
    fn check_capture(&self, c: &Capture) -> Result<(), String> {
        if c.local {
            within("a captured register", c.index.into(), self.prototype.registers.into())
        } else {
            within("a captured capture", c.index.into(), self.prototype.captures.len())
        }
    }
}

fn within(what: &str, n: isize, count: usize) -> Result<(), String> {
    if n < 0 || n >= count as isize {
        Err(format!("{what} {n} of {count}"))
    } else {
        Ok(())
    }
}

/// 01, "Allowed steps".
pub fn targets(at: usize, i: &Instruction) -> Vec<isize> {
    let at = at as isize;
    match name(i) {
        "Return" => vec![],
        "Jmp" => vec![at + i.sbx()],
        "Test" => vec![at + 1, at + 2],
        "RegisterTryCatch" => vec![at + 1, at + i.bx() as isize],
        _ => vec![at + 1],
    }
}

/// 01, "Registers met".
fn registers_met(i: &Instruction) -> Vec<usize> {
    let (a, b, c) = (usize::from(i.a), usize::from(i.b), usize::from(i.c));
    match opcodes::meets(i.opcode) {
        Meets::None => vec![],
        Meets::A => vec![a],
        Meets::Ab => vec![a, b],
        Meets::Abc => vec![a, b, c],
        Meets::Return if b == 0 => vec![],
        Meets::Return => vec![a],
        // the function, its b - 1 arguments behind it, and the result before c
        Meets::Call => (a..a + b).chain([c.wrapping_sub(1)]).collect(),
    }
}
