//! Image files: prototypes by index, the main one last, then constants.
use crate::tree::{fields, push_field, Field};
use crate::NONE;

#[derive(Clone, Debug, Default, PartialEq)]
pub struct Image {
    /// Whether every mark has four bytes: each instruction's tag is 47 then, and not 43.
    pub wide: bool,
    pub prototypes: Vec<Prototype>,
    pub constants: Vec<Constant>,
}

#[derive(Clone, Debug, PartialEq)]
pub struct Prototype {
    pub name: u16,
    pub parameters: u16,
    pub registers: u16,
    pub captures: Vec<Capture>,
    pub instructions: Vec<Instruction>,
}

#[derive(Clone, Copy, Debug, PartialEq)]
pub struct Capture {
    pub local: bool,
    pub index: u8,
}

#[derive(Clone, Copy, Debug, PartialEq)]
pub struct Instruction {
    pub opcode: u8,
    pub a: u8,
    pub b: u8,
    pub c: u8,
    /// None is 65,535 in two bytes, and 4,294,967,295 in four.
    pub mark: Option<u32>,
}

impl Instruction {
    /// b and c as one number.
    pub fn bx(&self) -> usize {
        usize::from(self.b) * 256 + usize::from(self.c)
    }

    /// b and c as one signed number.
    pub fn sbx(&self) -> isize {
        i16::from_be_bytes([self.b, self.c]) as isize
    }
}

impl Instruction {
    fn write(&self, wide: bool, file: &mut Vec<u8>) {
        let code = [self.opcode, self.a, self.b, self.c];
        if wide {
            push_field(file, 0x47, &[code, self.mark.unwrap_or(u32::MAX).to_be_bytes()].concat());
        } else {
            let mark = self.mark.map_or(NONE, |mark| mark.try_into().expect("a narrow mark is a word"));
            push_field(file, 0x43, &[&code[..], &mark.to_be_bytes()].concat());
        }
    }
}

/// A number by its bits, a text by its name, another literal by its word.
#[derive(Clone, Copy, Debug, PartialEq)]
pub enum Constant {
    Number(u64),
    Text(u16),
    Other(u16),
}

impl Image {
    pub fn to_bytes(&self) -> Vec<u8> {
        let mut file = vec![];
        for p in &self.prototypes {
            p.write(self.wide, &mut file);
        }
        for c in &self.constants {
            match c {
                Constant::Number(bits) => push_field(&mut file, 0x44, &bits.to_be_bytes()),
                Constant::Text(name) => push_field(&mut file, 0x45, &name.to_be_bytes()),
                Constant::Other(word) => push_field(&mut file, 0x46, &word.to_be_bytes()),
            }
        }
        file
    }

    /// Reads what `to_bytes` writes; anything else is an error in words.
    pub fn from_bytes(bytes: &[u8]) -> Result<Image, String> {
        let fields = fields(bytes).map_err(|n| format!("field {n} is cut"))?;
        let mut rest = &fields[..];
        let mut image = Image { wide: is_wide(&fields), ..Image::default() };
        while let Some(head) = rest.first().filter(|f| f.tag == 0x41) {
            image.prototypes.push(Prototype::read(head, image.wide, &mut rest)?);
        }
        for f in rest {
            image.constants.push(constant(f)?);
        }
        Ok(image)
    }
}

impl Prototype {
    fn write(&self, wide: bool, file: &mut Vec<u8>) {
        let counts =
            [self.name, self.parameters, self.registers, count(self.captures.len()), count(self.instructions.len())];
        push_field(file, 0x41, &counts.map(u16::to_be_bytes).concat());
        for c in &self.captures {
            push_field(file, 0x42, &[u8::from(c.local), c.index]);
        }
        for i in &self.instructions {
            i.write(wide, file);
        }
    }

    fn read(head: &Field, wide: bool, rest: &mut &[Field]) -> Result<Prototype, String> {
        sized(head, 0x41, 10)?;
        let [name, parameters, registers, captures, instructions] = [0, 1, 2, 3, 4].map(|k| head.word(k));
        *rest = &rest[1..];
        let captures = take(rest, captures)?.iter().map(capture).collect::<Result<_, _>>()?;
        let instructions = take(rest, instructions)?.iter().map(|f| instruction(f, wide)).collect::<Result<_, _>>()?;
        Ok(Prototype { name, parameters, registers, captures, instructions })
    }
}

/// The first instruction decides.
fn is_wide(fields: &[Field]) -> bool {
    fields.iter().find(|f| matches!(f.tag, 0x43 | 0x47)).is_some_and(|f| f.tag == 0x47)
}

fn count(n: usize) -> u16 {
    n.try_into().expect("a count is a word")
}

fn take<'r, 't>(rest: &mut &'r [Field<'t>], n: u16) -> Result<&'r [Field<'t>], String> {
    let (front, back) = rest.split_at_checked(n.into()).ok_or("fewer fields than the prototype says")?;
    *rest = back;
    Ok(front)
}

fn sized<'f, 't>(f: &'f Field<'t>, tag: u8, size: usize) -> Result<&'t [u8], String> {
    if f.tag != tag || f.payload.len() != size {
        return Err(format!("tag {:02X} of {} bytes where {tag:02X} of {size} is due", f.tag, f.payload.len()));
    }
    Ok(f.payload)
}

fn capture(f: &Field) -> Result<Capture, String> {
    match sized(f, 0x42, 2)? {
        [local @ (0 | 1), index] => Ok(Capture { local: *local == 1, index: *index }),
        other => Err(format!("a capture of {other:?}")),
    }
}

fn instruction(f: &Field, wide: bool) -> Result<Instruction, String> {
    let p = if wide { sized(f, 0x47, 8)? } else { sized(f, 0x43, 6)? };
    Ok(Instruction { opcode: p[0], a: p[1], b: p[2], c: p[3], mark: mark(&p[4..]) })
}

/// The mark of two or four bytes that end an instruction's payload.
pub fn mark(bytes: &[u8]) -> Option<u32> {
    match *bytes {
        [a, b] => Some(u16::from_be_bytes([a, b])).filter(|m| *m != NONE).map(u32::from),
        [a, b, c, d] => Some(u32::from_be_bytes([a, b, c, d])).filter(|m| *m != u32::MAX),
        _ => None,
    }
}

fn constant(f: &Field) -> Result<Constant, String> {
    match f.tag {
        0x44 => sized(f, 0x44, 8).map(|p| Constant::Number(u64::from_be_bytes(p.try_into().unwrap()))),
        0x45 => sized(f, 0x45, 2).map(|_| Constant::Text(f.word(0))),
        0x46 => sized(f, 0x46, 2).map(|_| Constant::Other(f.word(0))),
        tag => Err(format!("tag {tag:02X} among the constants")),
    }
}
