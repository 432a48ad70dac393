//! What the edits of build.rs call: the mode, the node being visited, and the refusals 7 to 17 of document 01.
use crate::compiler::{Chunk, Compiler, InstSrc};
use crate::token::{Literal, TokenData};
use std::cell::Cell;

/// A refusal unwinds with its number and the node whose rule takes the step.
#[derive(Clone, Copy, Debug, PartialEq)]
pub struct Refusal {
    pub number: u8,
    pub node: usize,
    /// How many visits were begun before it: two refusals with as many are of one step.
    pub visits: usize,
}

thread_local!(static MODE_1: Cell<bool> = const { Cell::new(false) });

/// The mode of this thread's next lowering.
pub fn set_mode_1(is: bool) {
    MODE_1.set(is);
}

pub fn is_mode_1() -> bool {
    MODE_1.get()
}

thread_local!(static NODE: Cell<usize> = const { Cell::new(0) });
thread_local!(static VISITS: Cell<usize> = const { Cell::new(0) });

/// The node being visited, until this is dropped.
pub struct Visit {
    outer: usize,
}

impl Visit {
    pub fn of(node: usize) -> Visit {
        if ENDS.get() {
            refuse(GIVEN_UP)
        }
        VISITS.set(VISITS.get() + 1);
        Visit { outer: NODE.replace(node) }
    }

    /// The first visit of a run.
    pub fn first(node: usize) -> Visit {
        VISITS.set(0);
        Visit::of(node)
    }
}

/// How many visits were begun since the first of the run.
pub fn visits() -> usize {
    VISITS.get()
}

impl Drop for Visit {
    fn drop(&mut self) {
        NODE.set(self.outer);
    }
}

pub fn refuse(number: u8) -> ! {
    std::panic::resume_unwind(Box::new(Refusal { number, node: NODE.get(), visits: VISITS.get() }))
}

/// The number of a run that is given up: nothing more is asked of it, or what it makes is out of all bounds.
pub const GIVEN_UP: u8 = 0;

thread_local!(static PASSED: Cell<u32> = const { Cell::new(0) });
thread_local!(static ONE_STEP: Cell<bool> = const { Cell::new(false) });
thread_local!(static ENDS: Cell<bool> = const { Cell::new(false) });

/// Within `run` these numbers are passed over: 11 and 14 to 17 as the source does, which does not know them, 9 as if the name were
/// a global, and the others with a value that no later refusal depends on.
pub fn past<T>(numbers: &[u8], run: impl FnOnce() -> T) -> T {
    PASSED.set(numbers.iter().map(|number| 1 << number).sum());
    let end = run();
    PASSED.set(0);
    end
}

/// Within `run` a number is passed over in one step: the next visit gives the run up.
pub fn past_in_a_step<T>(number: u8, run: impl FnOnce() -> T) -> T {
    ONE_STEP.set(true);
    let end = past(&[number], run);
    ONE_STEP.set(false);
    ENDS.set(false);
    end
}

pub fn is_passed(number: u8) -> bool {
    PASSED.get() & (1 << number) != 0
}

/// A refusal, or the value where its number is passed over.
pub fn refuse_or<T>(number: u8, value: T) -> T {
    if !is_passed(number) {
        refuse(number)
    }
    ENDS.set(ONE_STEP.get());
    value
}

/// 9 Undefined, 10 Redefined, by the source's own words.
pub fn compilation_error(message: &str) {
    match message {
        "Undefined variable" => refuse(9),
        "Global already defined" => refuse_or(10, ()),
        other => unreachable!("{other}"),
    }
}

/// A loop of the current function is open while `body` runs. (The source has the counter and never uses it.)
pub fn in_loop(compiler: &mut Compiler, body: impl FnOnce(&mut Compiler) -> Chunk) -> Chunk {
    compiler.contexts.last_mut().unwrap().loop_count += 1;
    let chunk = body(compiler);
    compiler.contexts.last_mut().unwrap().loop_count -= 1;
    chunk
}

/// 11 Stray, else the jump's kind as it is.
pub fn inside_loop(compiler: &Compiler, kind: u8) -> u8 {
    if compiler.contexts.last().unwrap().loop_count == 0 {
        refuse_or(11, ())
    }
    kind
}

/// 13 Return: b of a Return is its register plus 2.
pub fn plus_two(register: u8) -> u8 {
    register.checked_add(2).unwrap_or_else(|| refuse_or(13, 0))
}

/// 12 Empty: the Return of a body of one statement takes the mark of its last instruction.
pub fn last_mark(instructions: &[InstSrc]) -> Option<TokenData> {
    match instructions.last() {
        Some(last) => last.src.clone(),
        None => refuse_or(12, None),
    }
}

/// 14 Constants: the source's vector, which takes no 1,025th.
#[derive(Clone, Debug, Default)]
pub struct Constants(Vec<Literal>);

impl Constants {
    pub fn push(&mut self, literal: Literal) {
        if self.0.len() >= 1024 {
            refuse_or(14, ())
        }
        if self.0.len() == 100_000 {
            refuse(GIVEN_UP)
        }
        self.0.push(literal);
    }
}

impl std::ops::Deref for Constants {
    type Target = Vec<Literal>;

    fn deref(&self) -> &Vec<Literal> {
        &self.0
    }
}

/// 16 Nesting: a ninth open function.
pub fn entering(open: usize) {
    if open >= 8 {
        refuse_or(16, ())
    }
}

/// 17 Long, then 15 Prototypes, with the last Return counted.
pub fn leaving(instructions: usize, prototypes: usize) {
    if instructions > 32_767 {
        refuse_or(17, ())
    }
    if prototypes >= 256 {
        refuse_or(15, ())
    }
    if prototypes == 2_000 {
        refuse(GIVEN_UP)
    }
}

/// A loop's way back. The source stops at a loop of exactly 32,768; the port refuses it by 17 when its function is left.
pub fn negated(loop_size: i16) -> i16 {
    if is_passed(17) && loop_size == i16::MIN {
        refuse(17)
    }
    loop_size.wrapping_neg()
}
