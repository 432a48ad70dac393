//! The traced copy against the source, unchanged or as mode 1 has it: the same image, or the panic that the refusal stands for.
use crate::judge;
use files::image::Image;
use files::opcodes::opcode;
use files::tree::{is_wide, Field};

/// What the unchanged source does in a process of its own.
#[derive(Debug, PartialEq)]
pub enum Outcome {
    Finished(Made),
    Panicked(String),
    /// It printed this and ended the process.
    Exited {
        line: i32,
        message: String,
        lexeme: String,
    },
}

/// How many prototypes and constants there are, the longest prototype, and the jumps left unpatched.
#[derive(Debug, PartialEq)]
pub struct Made {
    pub prototypes: usize,
    pub constants: usize,
    pub longest: usize,
    pub strays: usize,
}

impl Made {
    pub fn of(image: &Image) -> Made {
        let codes = || image.prototypes.iter().map(|p| &p.instructions);
        let jump = opcode("Jmp");
        Made {
            prototypes: image.prototypes.len(),
            constants: image.constants.len(),
            longest: codes().map(Vec::len).max().unwrap_or(0),
            strays: codes().flatten().filter(|i| i.opcode == jump && i.a != 0).count(),
        }
    }
}

/// How the source ends: with an image, or by the refusal that stands for its panic or exit.
pub type End = Result<Image, traced::Refusal>;

/// How the source must end on a checked tree in a mode, by the traced copy. 11 and 14 to 17 it does not know: it goes on, and
/// ends by what comes after. Nothing where it makes too much of the tree to be run.
pub fn end_due(nodes: &[Field], mode: u64) -> Option<End> {
    match traced::lower(nodes, mode) {
        Err(refusal) if matches!(refusal.number, 11 | 14..=17) => {
            let end = traced::follow(nodes, mode)?;
            if let Ok(image) = &end {
                assert!(shows(refusal.number, nodes, image), "{refusal:?}, and nothing in the source's image shows it");
            }
            Some(end)
        }
        end => Some(end),
    }
}

/// Whether what the source finished with, or the tree, shows why a number that it does not know is due.
fn shows(number: u8, nodes: &[Field], image: &Image) -> bool {
    let made = Made::of(image);
    match number {
        11 => made.strays > 0,
        14 => made.constants > 1024,
        15 => made.prototypes > 256,
        16 => judge::open_functions(nodes) > 8,
        _ => made.longest > 32_767,
    }
}

/// Compares on one tree in a mode, in this process; says whether there was something to compare.
/// Where 9 or 10 is due the source ends the process: that is for a child.
pub fn in_process(tree: &[u8], mode: u64) -> Result<bool, String> {
    let Ok(nodes) = judge::check(tree, mode, u64::MAX) else { return Ok(false) };
    let attempt = if mode == 0 { unchanged::attempt } else { mode1::attempt };
    let due = match end_due(&nodes, mode) {
        None | Some(Err(traced::Refusal { number: 9 | 10, .. })) => return Ok(false),
        Some(due) => due,
    };
    match (&due, attempt(&nodes)) {
        (Ok(image), Ok(other)) if *image == other => Ok(true),
        (Err(refusal), Err(panic)) if panic.contains(panic_due(refusal.number)) => Ok(true),
        (Ok(_), other) => Err(format!("mode {mode}: an image is due, and the source {other:?}")),
        (Err(refusal), other) => Err(format!("mode {mode}: {refusal:?} is due, and the source {other:?}")),
    }
}

/// The words of the source's panic where a refusal is due.
fn panic_due(number: u8) -> &'static str {
    match number {
        7 => "Ran out of registers",
        8 => "Too many upvalues",
        12 => "called `Option::unwrap()` on a `None` value",
        13 => "attempt to add with overflow",
        17 => "attempt to negate with overflow",
        _ => unreachable!("the source has no panic for {number}"),
    }
}

/// Whether a child did what is due, and nothing else.
pub fn fits(nodes: &[Field], due: &End, did: &Outcome) -> bool {
    match (due, did) {
        (Ok(image), Outcome::Finished(made)) => *made == Made::of(image),
        (Err(due), Outcome::Exited { line, message, lexeme }) if matches!(due.number, 9 | 10) => {
            let words = if due.number == 9 { "Undefined variable" } else { "Global already defined" };
            let node = &nodes[due.node];
            // a let or a variable: name and mark; the source prints the mark as a number with a sign
            let high = if is_wide(nodes) { node.word(1) } else { 0 };
            let mark = u32::from(high) << 16 | u32::from(node.word(1 + usize::from(is_wide(nodes))));
            message == words && *line == mark as i32 && *lexeme == unchanged::names::name_text(node.word(0))
        }
        (Err(due), Outcome::Panicked(panic)) if !matches!(due.number, 9 | 10) => panic.contains(panic_due(due.number)),
        _ => false,
    }
}

/// Lowers a tree by the unchanged source and says what it did; where the source ends the process, it is ended.
pub fn in_child(tree: &[u8]) -> Outcome {
    let nodes = judge::check(tree, 0, u64::MAX).expect("a checked tree");
    match unchanged::attempt_or_exit(&nodes) {
        Err(panic) => Outcome::Panicked(panic),
        Ok(compiler) => Outcome::Finished(Made::of(&unchanged::write::image(&compiler, is_wide(&nodes)))),
    }
}

impl std::fmt::Display for Outcome {
    fn fmt(&self, f: &mut std::fmt::Formatter) -> std::fmt::Result {
        match self {
            Outcome::Finished(Made { prototypes, constants, longest, strays }) => {
                write!(f, "finished {prototypes} {constants} {longest} {strays}")
            }
            Outcome::Panicked(words) => write!(f, "panicked {words}"),
            Outcome::Exited { line, message, lexeme } => {
                write!(f, "Compilation Error on line {line}\n\t{message}: {lexeme}")
            }
        }
    }
}

impl Outcome {
    /// Reads what a child wrote, which is `in_child`'s outcome or the source's own words.
    pub fn parse(text: &str) -> Option<Outcome> {
        let text = text.trim_end();
        if let Some(words) = text.strip_prefix("panicked ") {
            return Some(Outcome::Panicked(words.into()));
        }
        if let Some(numbers) = text.strip_prefix("finished ") {
            let n: Vec<usize> = numbers.split(' ').filter_map(|n| n.parse().ok()).collect();
            let [prototypes, constants, longest, strays] = n[..] else { return None };
            return Some(Outcome::Finished(Made { prototypes, constants, longest, strays }));
        }
        let (line, rest) = text.strip_prefix("Compilation Error on line ")?.split_once("\n\t")?;
        let (message, lexeme) = rest.split_once(": ")?;
        Some(Outcome::Exited { line: line.parse().ok()?, message: message.into(), lexeme: lexeme.into() })
    }
}
