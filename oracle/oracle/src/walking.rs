//! A second walker, from E4 and E8 of document 02 and 01's steps: where a run of a prototype went by its decisions, and by the failures
//! that struck.
use crate::facts::targets;
use crate::reading::read;
use files::image::{Instruction, Prototype};
use files::opcodes::opcode;

/// What a walk is asked for, but for the image and the lent bytes.
#[derive(Clone, Debug, PartialEq)]
pub struct Run {
    pub prototype: u64,
    pub decisions: Vec<u8>,
    /// Step numbers at which a failure strikes in place of the ordinary step.
    pub strikes: Vec<u64>,
    pub budget: u64,
}

/// What a walk leaves: the answer's five numbers and every lent byte.
#[derive(Clone, Debug, PartialEq)]
pub struct Walked {
    pub numbers: [u64; 5],
    pub visited: Vec<u8>,
}

/// How a walk ends, by the number that the answer has for it.
#[derive(Clone, Copy, Debug, PartialEq)]
pub enum Ending {
    Return = 0,
    Decisions = 1,
    Budget = 2,
    Failed = 3,
    Handlers = 4,
}

/// So many handlers may be registered.
const MOST_HANDLERS: usize = 256;

/// Number and place, or the prototype to be walked.
fn admitted(image: &[u8], run: &Run, lent: usize) -> Result<Prototype, [u64; 2]> {
    let image = read(image).map_err(|refusal| [refusal.number.into(), refusal.place])?;
    let place = usize::try_from(run.prototype).ok().filter(|k| *k < image.prototypes.len());
    let prototype = image.prototypes[place.ok_or([22, 0])?].clone();
    if let Some(offset) = run.decisions.iter().position(|byte| *byte > 1) {
        return Err([23, offset as u64]);
    }
    if let Some(before) = run.strikes.windows(2).position(|pair| pair[1] <= pair[0]) {
        return Err([25, before as u64 + 1]);
    }
    if lent < prototype.instructions.len() {
        return Err([29, 0]);
    }
    Ok(prototype)
}

/// The answer to a call that lends so many bytes.
pub fn walk(image: &[u8], run: &Run, lent: usize) -> Walked {
    let mut visited = vec![0; lent];
    let numbers = match admitted(image, run, lent) {
        Err([number, place]) => [number, place, 0, 0, 0],
        Ok(prototype) => {
            let mut walker = Walker::new(&prototype.instructions, run);
            let ending = walker.go(&mut visited);
            [0, 0, walker.steps, walker.at as u64, ending as u64]
        }
    };
    Walked { numbers, visited }
}

/// Where a run stands.
struct Walker<'r> {
    code: &'r [Instruction],
    decisions: &'r [u8],
    strikes: &'r [u64],
    budget: u64,
    at: usize,
    steps: u64,
    /// Where the registered handlers stand, the last on top.
    handlers: Vec<usize>,
}

impl<'r> Walker<'r> {
    fn new(code: &'r [Instruction], run: &'r Run) -> Walker<'r> {
        let (decisions, strikes, budget) = (&run.decisions[..], &run.strikes[..], run.budget);
        Walker { code, decisions, strikes, budget, at: 0, steps: 0, handlers: vec![] }
    }

    fn stands_at(&self, name: &str) -> bool {
        self.code[self.at].opcode == opcode(name)
    }

    /// Whether a failure strikes at the step that comes next.
    fn is_struck(&self) -> bool {
        self.strikes.contains(&self.steps)
    }

    /// Steps until the walk ends; every instruction stood at is visited, the last included.
    fn go(&mut self, visited: &mut [u8]) -> Ending {
        loop {
            visited[self.at] = 1;
            if let Some(ending) = self.ending() {
                return ending;
            }
            self.step();
        }
    }

    /// "At a Return, out of decisions, or out of budget, judged in that order before each step"; only a Test asks for a decision, and not
    /// where it is struck. Then what a step ends as: Failed without a handler, Handlers where one more would be registered.
    fn ending(&self) -> Option<Ending> {
        if self.stands_at("Return") {
            Some(Ending::Return)
        } else if self.stands_at("Test") && self.decisions.is_empty() && !self.is_struck() {
            Some(Ending::Decisions)
        } else if self.steps == self.budget {
            Some(Ending::Budget)
        } else if self.is_struck() && self.handlers.is_empty() {
            Some(Ending::Failed)
        } else if !self.is_struck() && self.stands_at("RegisterTryCatch") && self.handlers.len() == MOST_HANDLERS {
            Some(Ending::Handlers)
        } else {
            None
        }
    }

    /// To the handler registered last, which stays, where a failure strikes; else one of 01's steps.
    fn step(&mut self) {
        self.at = if self.is_struck() { *self.handlers.last().expect("else it had failed") } else { self.ordinary() };
        self.steps += 1;
    }

    /// At a Test the step that was decided, from RegisterTryCatch on, else the only one.
    fn ordinary(&mut self) -> usize {
        let to = targets(self.at, &self.code[self.at]);
        let mut which = 0;
        if self.stands_at("Test") {
            (which, self.decisions) = (usize::from(self.decisions[0]), &self.decisions[1..]);
        } else if self.stands_at("RegisterTryCatch") {
            self.handlers.push(to[1] as usize);
        } else if self.stands_at("DeregisterTryCatch") {
            self.handlers.pop();
        }
        to[which] as usize
    }
}
