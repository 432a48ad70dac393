//! Typed views of an image's fields. Nothing here panics: a field that is not what is due ends the row, and in an `Image` there is none.
use std::fmt::{Display, Formatter};

/// The opcodes by their number, in the order of the source's `OpCode`.
const NAMES: [&str; 51] = [
    "Move",
    "LoadK",
    "LoadNil",
    "Jmp",
    "Test",
    "Add",
    "Sub",
    "Div",
    "Mod",
    "Mul",
    "Pow",
    "Lt",
    "Gt",
    "Lte",
    "Gte",
    "Eq",
    "Neq",
    "Not",
    "Neg",
    "Call",
    "Return",
    "SetUpval",
    "GetUpval",
    "Closure",
    "List",
    "PushList",
    "Dict",
    "PushDict",
    "Slice",
    "Access",
    "Set",
    "Class",
    "ClassMeth",
    "ClassStMeth",
    "GetObj",
    "SetObj",
    "Addi",
    "Subi",
    "GetIter",
    "GetIterk",
    "GetIteri",
    "Length",
    "Super",
    "This",
    "GetGlobal",
    "SetGlobal",
    "GetCurrentFunc",
    "GetBuiltin",
    "RegisterTryCatch",
    "DeregisterTryCatch",
    "GetExcept",
];

/// 65,535 is no name and the empty text.
fn some(word: u16) -> Option<u16> {
    (word != u16::MAX).then_some(word)
}

/// The tag and payload of the first field, and what stands behind it.
fn first_field(bytes: &[u8]) -> Option<(u8, &[u8], &[u8])> {
    let [tag, high, low, rest @ ..] = bytes else { return None };
    let (payload, rest) = rest.split_at_checked(usize::from(u16::from_be_bytes([*high, *low])))?;
    Some((*tag, payload, rest))
}

/// The payload of the first field, where it has this tag and size; the bytes go on behind it.
fn take<const SIZE: usize>(bytes: &mut &[u8], tag: u8) -> Option<[u8; SIZE]> {
    let (found, payload, rest) = first_field(bytes)?;
    let payload = payload.try_into().ok().filter(|_| found == tag)?;
    *bytes = rest;
    Some(payload)
}

/// The tags of an instruction whose mark has two bytes, and of one whose mark has four.
const NARROW: u8 = 0x43;
const WIDE: u8 = 0x47;

/// Whether the first instruction has a mark of four bytes, as all have then.
pub(super) fn is_wide(mut fields: &[u8]) -> bool {
    while let Some((tag, _, rest)) = first_field(fields) {
        match tag {
            NARROW => return false,
            WIDE => return true,
            _ => fields = rest,
        }
    }
    false
}

/// A prototype: a function's header, with the fields behind it.
#[derive(Clone, Copy, Debug, PartialEq, Eq)]
pub struct Prototype<'i> {
    /// The function's name; none of a function expression and of the main prototype.
    pub name: Option<u16>,
    /// How many parameters it has.
    pub parameters: u16,
    /// How many registers it has.
    pub registers: u16,
    captures: u16,
    instructions: u16,
    fields: &'i [u8],
}

impl<'i> Prototype<'i> {
    /// What it captures of the function that makes it, by index.
    pub fn captures(&self) -> Captures<'i> {
        Captures { left: self.captures, fields: self.fields }
    }

    /// Its instructions by index.
    pub fn instructions(&self) -> Instructions<'i> {
        let mut captures = self.captures();
        captures.by_ref().for_each(drop);
        Instructions { left: self.instructions, fields: captures.fields }
    }
}

/// A variable of the function that makes the closure.
#[derive(Clone, Copy, Debug, PartialEq, Eq, Hash)]
pub enum Capture {
    /// A register of it.
    Register(u8),
    /// A capture of it.
    Capture(u8),
}

/// One instruction.
#[derive(Clone, Copy, Debug, PartialEq, Eq, Hash)]
pub struct Instruction {
    /// The opcode's number.
    pub opcode: u8,
    /// The first operand.
    pub a: u8,
    /// The second operand.
    pub b: u8,
    /// The third operand.
    pub c: u8,
    /// The mark: where in the script it comes from, or none. In a wide image any number of 32 bits but 4,294,967,295
    /// ([`line_and_column`] takes one apart), in a narrow one the line, below 65,535.
    pub mark: Option<u32>,
}

impl Instruction {
    /// The opcode's name.
    pub fn name(&self) -> &'static str {
        NAMES.get(usize::from(self.opcode)).copied().unwrap_or("?")
    }

    /// b and c as one number: a constant, a prototype, the way to a handler.
    pub fn bx(&self) -> u16 {
        u16::from_be_bytes([self.b, self.c])
    }

    /// b and c as one signed number: how far a Jmp goes.
    pub fn sbx(&self) -> i16 {
        i16::from_be_bytes([self.b, self.c])
    }
}

/// Line and column of a wide mark, as the text form of trees and the commands have them: the line in the high half, the column in the low half,
/// where 0 is no column. A generator may mean something else by its marks.
///
/// ```
/// assert_eq!(yengrazul::line_and_column(0x000C_0005), (12, 5));
/// ```
pub fn line_and_column(mark: u32) -> (u16, u16) {
    ((mark >> 16) as u16, mark as u16)
}

/// As in `LoadK 0 0 1`.
impl Display for Instruction {
    fn fmt(&self, f: &mut Formatter) -> std::fmt::Result {
        write!(f, "{} {} {} {}", self.name(), self.a, self.b, self.c)
    }
}

/// A constant.
#[derive(Clone, Copy, Debug, PartialEq, Eq, Hash)]
pub enum Constant {
    /// A number by its 64 bits; `f64::from_bits` gives its value.
    Number(u64),
    /// A text by its name; none is the empty text.
    Text(Option<u16>),
    /// Another literal by its word.
    Other(u16),
}

/// The prototypes of an image.
#[derive(Clone, Debug)]
pub struct Prototypes<'i> {
    fields: &'i [u8],
}

impl<'i> Prototypes<'i> {
    pub(super) fn of(fields: &'i [u8]) -> Prototypes<'i> {
        Prototypes { fields }
    }
}

impl<'i> Iterator for Prototypes<'i> {
    type Item = Prototype<'i>;

    fn next(&mut self) -> Option<Prototype<'i>> {
        let words: [u8; 10] = take(&mut self.fields, 0x41)?;
        let word = |k: usize| u16::from_be_bytes([words[2 * k], words[2 * k + 1]]);
        let fields = self.fields;
        let prototype = Prototype {
            name: some(word(0)),
            parameters: word(1),
            registers: word(2),
            captures: word(3),
            instructions: word(4),
            fields,
        };
        let mut instructions = prototype.instructions();
        instructions.by_ref().for_each(drop);
        self.fields = instructions.fields;
        Some(prototype)
    }
}

/// The captures of a prototype.
#[derive(Clone, Debug)]
pub struct Captures<'i> {
    left: u16,
    fields: &'i [u8],
}

impl Iterator for Captures<'_> {
    type Item = Capture;

    fn next(&mut self) -> Option<Capture> {
        self.left = self.left.checked_sub(1)?;
        let [local, index] = take(&mut self.fields, 0x42)?;
        Some(if local == 1 { Capture::Register(index) } else { Capture::Capture(index) })
    }
}

/// The instructions of a prototype.
#[derive(Clone, Debug)]
pub struct Instructions<'i> {
    left: u16,
    fields: &'i [u8],
}

impl Iterator for Instructions<'_> {
    type Item = Instruction;

    fn next(&mut self) -> Option<Instruction> {
        self.left = self.left.checked_sub(1)?;
        let (code, mark) = match first_field(self.fields)? {
            (NARROW, ..) => {
                let [opcode, a, b, c, mark @ ..]: [u8; 6] = take(&mut self.fields, NARROW)?;
                ([opcode, a, b, c], some(u16::from_be_bytes(mark)).map(u32::from))
            }
            _ => {
                let [opcode, a, b, c, mark @ ..]: [u8; 8] = take(&mut self.fields, WIDE)?;
                ([opcode, a, b, c], Some(u32::from_be_bytes(mark)).filter(|mark| *mark != u32::MAX))
            }
        };
        let [opcode, a, b, c] = code;
        Some(Instruction { opcode, a, b, c, mark })
    }
}

/// The constants of an image.
#[derive(Clone, Debug)]
pub struct Constants<'i> {
    fields: &'i [u8],
}

impl<'i> Constants<'i> {
    /// Those behind the prototypes.
    pub(super) fn of(image: &'i [u8]) -> Constants<'i> {
        let mut prototypes = Prototypes::of(image);
        prototypes.by_ref().for_each(drop);
        Constants { fields: prototypes.fields }
    }
}

impl Iterator for Constants<'_> {
    type Item = Constant;

    fn next(&mut self) -> Option<Constant> {
        match self.fields.first()? {
            0x44 => take(&mut self.fields, 0x44).map(|bits| Constant::Number(u64::from_be_bytes(bits))),
            0x45 => take(&mut self.fields, 0x45).map(|name| Constant::Text(some(u16::from_be_bytes(name)))),
            _ => take(&mut self.fields, 0x46).map(|word| Constant::Other(u16::from_be_bytes(word))),
        }
    }
}
