//! The judge's table of opcodes, from the source's `OpCode` and document 01. It is not read from the definition's, so that the two can differ:
//! `tests/opcodes` compares them.

/// 01, "Registers met": which operands are registers.
#[derive(Clone, Copy, Debug, PartialEq, Eq)]
pub enum Meets {
    None,
    A,
    Ab,
    Abc,
    /// a, only when b is not 0.
    Return,
    /// a, the arguments behind it, and the one before c.
    Call,
}

/// In the order of `OpCode`: the name, and what it meets where the lowering writes it. None: no routine that is ported pushes it.
const TABLE: [(&str, Option<Meets>); 51] = [
    ("Move", Some(Meets::Ab)),
    ("LoadK", Some(Meets::A)),
    ("LoadNil", Some(Meets::A)),
    ("Jmp", Some(Meets::None)),
    ("Test", Some(Meets::Ab)),
    ("Add", Some(Meets::Abc)),
    ("Sub", Some(Meets::Abc)),
    ("Div", Some(Meets::Abc)),
    ("Mod", Some(Meets::Abc)),
    ("Mul", Some(Meets::Abc)),
    ("Pow", Some(Meets::Abc)),
    ("Lt", Some(Meets::Abc)),
    ("Gt", Some(Meets::Abc)),
    ("Lte", Some(Meets::Abc)),
    ("Gte", Some(Meets::Abc)),
    ("Eq", Some(Meets::Abc)),
    ("Neq", Some(Meets::Abc)),
    ("Not", Some(Meets::Ab)),
    ("Neg", Some(Meets::Ab)),
    ("Call", Some(Meets::Call)),
    ("Return", Some(Meets::Return)),
    ("SetUpval", None),
    ("GetUpval", Some(Meets::A)),
    ("Closure", Some(Meets::A)),
    ("List", None),
    ("PushList", None),
    ("Dict", None),
    ("PushDict", None),
    ("Slice", None),
    ("Access", None),
    ("Set", None),
    ("Class", Some(Meets::Abc)),
    ("ClassMeth", Some(Meets::Abc)),
    ("ClassStMeth", Some(Meets::Abc)),
    ("GetObj", None),
    ("SetObj", None),
    ("Addi", Some(Meets::Ab)),
    ("Subi", None),
    ("GetIter", Some(Meets::Abc)),
    ("GetIterk", Some(Meets::Abc)),
    ("GetIteri", Some(Meets::Ab)),
    ("Length", Some(Meets::Ab)),
    ("Super", None),
    ("This", None),
    ("GetGlobal", Some(Meets::A)),
    ("SetGlobal", Some(Meets::A)),
    ("GetCurrentFunc", Some(Meets::A)),
    ("GetBuiltin", Some(Meets::A)),
    ("RegisterTryCatch", Some(Meets::None)),
    ("DeregisterTryCatch", Some(Meets::None)),
    ("GetExcept", Some(Meets::A)),
];

fn row(opcode: u8) -> Option<&'static (&'static str, Option<Meets>)> {
    TABLE.get(usize::from(opcode))
}

/// The opcode's name.
pub fn name(opcode: u8) -> Option<&'static str> {
    row(opcode).map(|row| row.0)
}

/// The number of an opcode by its name.
pub fn opcode(name: &str) -> u8 {
    TABLE.iter().position(|row| row.0 == name).expect("an opcode") as u8
}

/// Whether it is one of the 38 that the lowering writes.
pub fn is_written(opcode: u8) -> bool {
    row(opcode).is_some_and(|row| row.1.is_some())
}

/// What it meets; "of the rest a".
pub fn meets(opcode: u8) -> Meets {
    row(opcode).and_then(|row| row.1).unwrap_or(Meets::A)
}

/// A line for each opcode: number, name, what it meets, whether it is written.
pub fn lines() -> String {
    let line = |opcode: u8| {
        let (name, meets) = (name(opcode).unwrap_or("?"), format!("{:?}", meets(opcode)).to_lowercase());
        format!("{opcode} {name} {meets} {}\n", if is_written(opcode) { "written" } else { "unwritten" })
    };
    (0..TABLE.len() as u8).map(line).collect()
}
