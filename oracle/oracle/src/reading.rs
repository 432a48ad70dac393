//! A second reader of images, from E1 of document 02: the image, or 19 or 20 with its place. Three stages: the frame of the whole input, the
//! order of its fields from the left, the facts of its instructions.
use crate::facts::{targets, Here};
use crate::judge::Refusal;
use files::image::{mark, Capture, Constant, Image, Instruction, Prototype};
use files::opcodes::{is_written, opcode};
use files::tree::{fields, Field};

const MOST_PROTOTYPES: usize = 256;
const MOST_CONSTANTS: usize = 1024;

/// The image, where it is taken.
pub fn read(bytes: &[u8]) -> Result<Image, Refusal> {
    let frame = |place: usize| Refusal { number: 19, place: place as u64 };
    let rule = |place: usize| Refusal { number: 20, place: place as u64 };
    if bytes.is_empty() {
        return Err(frame(0));
    }
    let fields = fields(bytes).map_err(frame)?;
    let read = in_order(&fields).map_err(rule)?;
    match first_fault(&read) {
        Some(field) => Err(rule(field)),
        None => Ok(read.image),
    }
}

/// The number and place that the exported function writes.
pub fn numbers(bytes: &[u8]) -> [u64; 2] {
    read(bytes).map_or_else(|refusal| [refusal.number.into(), refusal.place], |_| [0, 0])
}

/// What is read so far: what of the last prototype is still due, and where each prototype's first instruction stands.
#[derive(Default)]
struct Reading {
    image: Image,
    captures_due: u16,
    instructions_due: u16,
    firsts: Vec<usize>,
}

/// All fields in 01's order, or the first that cannot follow, or how many there are where the end comes too soon.
fn in_order(fields: &[Field]) -> Result<Reading, usize> {
    let mut reading = Reading::default();
    for (place, field) in fields.iter().enumerate() {
        reading.take(place, field).ok_or(place)?;
    }
    match (reading.captures_due, reading.instructions_due) {
        (0, 0) => Ok(reading),
        _ => Err(fields.len()),
    }
}

impl Reading {
    /// The next field, or nothing where it cannot follow.
    fn take(&mut self, place: usize, field: &Field) -> Option<()> {
        if self.captures_due > 0 {
            let &[local @ (0 | 1), index] = sized(field, 0x42, 2)? else { return None };
            self.captures_due -= 1;
            self.image.prototypes.last_mut()?.captures.push(Capture { local: local == 1, index });
        } else if self.instructions_due > 0 {
            // the first instruction of the image decides on the width of all
            if self.firsts.is_empty() {
                self.image.wide = field.tag == 0x47;
            }
            let payload = if self.image.wide { sized(field, 0x47, 8)? } else { sized(field, 0x43, 6)? };
            let [opcode, a, b, c] = payload[..4] else { return None };
            let code = &mut self.image.prototypes.last_mut()?.instructions;
            if code.is_empty() {
                self.firsts.push(place);
            }
            self.instructions_due -= 1;
            code.push(Instruction { opcode, a, b, c, mark: mark(&payload[4..]) });
        } else if field.tag == 0x41 {
            self.header(field)?;
        } else {
            self.constant(field)?;
        }
        Some(())
    }

    /// A prototype of at least one instruction, not behind a constant, and not the 257th.
    fn header(&mut self, field: &Field) -> Option<()> {
        sized(field, 0x41, 10)?;
        let [name, parameters, registers, captures, instructions] = [0, 1, 2, 3, 4].map(|k| field.word(k));
        let full = self.image.prototypes.len() == MOST_PROTOTYPES;
        if full || !self.image.constants.is_empty() || instructions == 0 {
            return None;
        }
        (self.captures_due, self.instructions_due) = (captures, instructions);
        self.image.prototypes.push(Prototype { name, parameters, registers, captures: vec![], instructions: vec![] });
        Some(())
    }

    /// A constant behind a prototype, and not the 1,025th.
    fn constant(&mut self, field: &Field) -> Option<()> {
        let constant = match field.tag {
            0x44 => Constant::Number(u64::from_be_bytes(sized(field, 0x44, 8)?.try_into().ok()?)),
            0x45 => sized(field, 0x45, 2).map(|_| Constant::Text(field.word(0)))?,
            _ => sized(field, 0x46, 2).map(|_| Constant::Other(field.word(0)))?,
        };
        if self.image.prototypes.is_empty() || self.image.constants.len() == MOST_CONSTANTS {
            return None;
        }
        self.image.constants.push(constant);
        Some(())
    }
}

fn sized<'t>(field: &Field<'t>, tag: u8, size: usize) -> Option<&'t [u8]> {
    (field.tag == tag && field.payload.len() == size).then_some(field.payload)
}

/// The field of the first instruction for which a fact fails.
fn first_fault(read: &Reading) -> Option<usize> {
    let (all, constants) = (&read.image.prototypes, &read.image.constants);
    for (k, prototype) in all.iter().enumerate() {
        let here = Here { prototype, earlier: &all[..k], constants };
        let entered = entered(prototype);
        let passes = |at: usize, i: &Instruction| {
            is_written(i.opcode) && (here.check(at, i).is_ok() || is_let_pass(prototype, at, i) && !entered[at])
        };
        let fault = prototype.instructions.iter().enumerate().find(|(at, i)| !passes(*at, i));
        if let Some((at, _)) = fault {
            return Some(read.firsts[k] + at);
        }
    }
    None
}

/// A Return of register 0 in a prototype without registers, when it is not the first instruction: it may stay where no steps enter it.
fn is_let_pass(prototype: &Prototype, at: usize, i: &Instruction) -> bool {
    i.opcode == opcode("Return") && i.a == 0 && prototype.registers == 0 && at > 0
}

/// For each instruction whether the steps of any instruction enter it.
fn entered(prototype: &Prototype) -> Vec<bool> {
    let mut entered = vec![false; prototype.instructions.len()];
    for (at, i) in prototype.instructions.iter().enumerate() {
        for target in targets(at, i) {
            if let Some(is) = usize::try_from(target).ok().and_then(|to| entered.get_mut(to)) {
                *is = true;
            }
        }
    }
    entered
}
