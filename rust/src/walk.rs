//! Walks of a prototype by recorded decisions and failures, and what they reached, added up.
use crate::{Cause, Image, Refusal};
use std::collections::BTreeMap;
use std::fmt::{Display, Formatter};

extern "C" {
    // include/yengrazul.h says what it asks for and what it does.
    fn yengrazul_walk(
        image: *const u8,
        image_len: usize,
        prototype: u64,
        decisions: *const u8,
        decisions_len: usize,
        strikes: *const u64,
        strikes_len: usize,
        budget: u64,
        visited: *mut u8,
        visited_len: usize,
        answer: *mut [u64; 5],
    );
}

/// How a walk ended, judged in this order before each step. Later versions know more of them.
#[derive(Clone, Copy, Debug, PartialEq, Eq, PartialOrd, Ord, Hash)]
#[non_exhaustive]
pub enum Ending {
    /// At a Return.
    Return,
    /// At a Test that was not struck, and no decision was left.
    Decisions,
    /// All steps of the budget were taken.
    Budget,
    /// Struck, and no handler was registered. The step is not counted.
    Failed,
    /// At a RegisterTryCatch that was not struck, and 256 handlers were registered. The step is not counted.
    Handlers,
}

impl Ending {
    const ALL: [Ending; 5] = [Ending::Return, Ending::Decisions, Ending::Budget, Ending::Failed, Ending::Handlers];
}

/// As in `out of decisions`.
impl Display for Ending {
    fn fmt(&self, f: &mut Formatter) -> std::fmt::Result {
        f.write_str(match self {
            Ending::Return => "at a Return",
            Ending::Decisions => "out of decisions",
            Ending::Budget => "out of budget",
            Ending::Failed => "failed, with no handler registered",
            Ending::Handlers => "over 256 handlers registered",
        })
    }
}

/// What a walk did.
#[derive(Clone, Debug, PartialEq, Eq, Hash)]
pub struct Walk {
    /// How many steps it took, at most its budget.
    pub steps: u64,
    /// The instruction where it stood at its end.
    pub index: usize,
    /// How it ended.
    pub ending: Ending,
    /// Of each instruction of the prototype, whether the walk visited it, the last one included.
    pub visited: Vec<bool>,
}

/// As in `17 steps, at instruction 9: at a Return`.
impl Display for Walk {
    fn fmt(&self, f: &mut Formatter) -> std::fmt::Result {
        let steps = if self.steps == 1 { "step" } else { "steps" };
        write!(f, "{} {steps}, at instruction {}: {}", self.steps, self.index, self.ending)
    }
}

/// Walks a prototype from its first instruction on: each Test takes the next decision, 0 to the next instruction, 1 past it; a
/// RegisterTryCatch registers its handler and goes on to the next, and a DeregisterTryCatch takes the last one off. At the steps that `strikes`
/// names, from 0 and rising, a failure strikes in place of the ordinary step: it enters the handler registered last, which stays registered, and uses
/// no decision.
///
/// Any numbers and bytes may be asked about: a prototype that the image has not is refused by [`Cause::Prototype`], a decision that is neither
/// 0 nor 1 by [`Cause::Decision`] at its offset, strikes that do not rise by [`Cause::Order`] at the first that does not. Decisions and strikes that
/// are left over are no fault.
///
/// ```
/// use yengrazul::{walk, Ending, Image};
/// // Test 0 0 0; Jmp, back to the Test; Return 0 0 0: a loop that ends with a decision 1
/// let mut bytes = vec![0x41, 0, 10, 0xFF, 0xFF, 0, 0, 0, 1, 0, 0, 0, 3];
/// for code in [[4, 0, 0, 0], [3, 0, 255, 255], [20, 0, 0, 0]] {
///     bytes.extend([0x43, 0, 6]);
///     bytes.extend(code);
///     bytes.extend([0, 7]);
/// }
/// let image = Image::read(&bytes)?;
/// let done = walk(&image, 0, &[0, 0, 1], &[], 100)?;
/// assert_eq!((done.steps, done.index, done.ending), (5, 2, Ending::Return));
/// assert_eq!(walk(&image, 0, &[1], &[], 100)?.visited, [true, false, true]);
/// assert_eq!(walk(&image, 0, &[0, 0], &[], 100)?.to_string(), "4 steps, at instruction 0: out of decisions");
/// // a failure at step 3, and there is no handler
/// assert_eq!(walk(&image, 0, &[0, 0], &[3], 100)?.ending, Ending::Failed);
/// # Ok::<(), yengrazul::Refusal>(())
/// ```
pub fn walk(image: &Image, prototype: u64, decisions: &[u8], strikes: &[u64], budget: u64) -> Result<Walk, Refusal> {
    let place = usize::try_from(prototype).ok();
    let instructions = place.and_then(|at| image.prototypes().nth(at)).map_or(0, |found| found.instructions().count());
    let mut visited = vec![0; instructions];
    // an answer that is not written is none
    let mut answer = [u64::MAX; 5];
    let bytes = image.as_bytes();
    // Safe: image, decisions and strikes are lent for the call, visited and answer are its own, and nothing else is touched.
    unsafe {
        yengrazul_walk(
            bytes.as_ptr(),
            bytes.len(),
            prototype,
            decisions.as_ptr(),
            decisions.len(),
            strikes.as_ptr(),
            strikes.len(),
            budget,
            visited.as_mut_ptr(),
            visited.len(),
            &mut answer,
        );
    }
    told(answer, visited, budget)
}

/// The answer as a result. 0 alone is a walk, and only where all that it tells can be one.
fn told([number, place, steps, index, ending]: [u64; 5], visited: Vec<u8>, budget: u64) -> Result<Walk, Refusal> {
    let index = usize::try_from(index).ok().filter(|index| visited.get(*index) == Some(&1));
    let ending = usize::try_from(ending).ok().and_then(|ending| Ending::ALL.get(ending).copied());
    match (index, ending) {
        (Some(index), Some(ending)) if number == 0 && steps <= budget => {
            Ok(Walk { steps, index, ending, visited: visited.into_iter().map(|byte| byte == 1).collect() })
        }
        _ => Err(Refusal { cause: Cause::from_number(number).unwrap_or(Cause::Unknown(number)), node: place }),
    }
}

/// What the runs of an image reached, added up.
///
/// ```
/// use yengrazul::{lower, Coverage};
/// let image = lower(&[0x1E, 0, 0])?;
/// let mut coverage = Coverage::new(&image);
/// assert_eq!(coverage.to_string(), "prototype 0: 0 of 1 instructions reached; never: 0\n");
/// coverage.walk(0, &[], &[], 10)?;
/// assert_eq!((coverage.reached(), coverage.instructions()), (1, 1));
/// assert_eq!(coverage.to_string(), "prototype 0: 1 of 1 instructions reached\n");
/// # Ok::<(), yengrazul::Refusal>(())
/// ```
#[derive(Clone, Debug, PartialEq, Eq)]
pub struct Coverage<'i> {
    image: &'i Image,
    visited: Vec<Vec<bool>>,
}

impl<'i> Coverage<'i> {
    /// Of no run yet.
    pub fn new(image: &'i Image) -> Coverage<'i> {
        let visited = image.prototypes().map(|prototype| vec![false; prototype.instructions().count()]).collect();
        Coverage { image, visited }
    }

    /// Walks as [`walk`] does and adds what was visited; a walk that is refused adds nothing.
    pub fn walk(&mut self, prototype: u64, decisions: &[u8], strikes: &[u64], budget: u64) -> Result<Walk, Refusal> {
        let done = walk(self.image, prototype, decisions, strikes, budget)?;
        if let Some(part) = usize::try_from(prototype).ok().and_then(|at| self.visited.get_mut(at)) {
            join(part, &done.visited);
        }
        Ok(done)
    }

    /// Adds what other runs of the same image reached.
    ///
    /// # Panics
    ///
    /// Where it is another image.
    pub fn add(&mut self, other: &Coverage) {
        assert_eq!(self.image, other.image, "runs of one image alone are added up");
        for (part, more) in self.visited.iter_mut().zip(&other.visited) {
            join(part, more);
        }
    }

    /// Of each instruction of a prototype, whether a run visited it; nothing of a prototype that the image has not.
    pub fn visited(&self, prototype: usize) -> &[bool] {
        self.visited.get(prototype).map_or(&[], Vec::as_slice)
    }

    /// The instructions of a prototype that no run reached.
    pub fn never(&self, prototype: usize) -> impl Iterator<Item = usize> + '_ {
        let numbered = self.visited(prototype).iter().enumerate();
        numbered.filter(|(_, visited)| !**visited).map(|(index, _)| index)
    }

    /// The marks of which no run reached an instruction, in their order.
    pub fn marks_never(&self) -> Vec<u32> {
        let mut seen = BTreeMap::new();
        for (prototype, index, instruction) in self.image.instructions() {
            if let Some(mark) = instruction.mark {
                *seen.entry(mark).or_insert(false) |= self.visited[prototype][index];
            }
        }
        seen.into_iter().filter(|(_, reached)| !reached).map(|(mark, _)| mark).collect()
    }

    /// How many instructions of the image some run reached.
    pub fn reached(&self) -> usize {
        self.visited.iter().flatten().filter(|visited| **visited).count()
    }

    /// How many instructions the image has.
    pub fn instructions(&self) -> usize {
        self.visited.iter().map(Vec::len).sum()
    }
}

fn join(part: &mut [bool], more: &[bool]) {
    for (visited, more) in part.iter_mut().zip(more) {
        *visited |= *more;
    }
}

/// A line for each prototype, as in `prototype 3: 41 of 52 instructions reached; never: 12-15, 40-46`.
impl Display for Coverage<'_> {
    fn fmt(&self, f: &mut Formatter) -> std::fmt::Result {
        for (prototype, visited) in self.visited.iter().enumerate() {
            let never: Vec<usize> = self.never(prototype).collect();
            let (all, reached) = (visited.len(), visited.len() - never.len());
            write!(f, "prototype {prototype}: {reached} of {all} instructions reached")?;
            writeln!(f, "{}{}", if never.is_empty() { "" } else { "; never: " }, spans(&never))?;
        }
        Ok(())
    }
}

/// 12, 13, 14, 40 as `12-14, 40`.
fn spans(numbers: &[usize]) -> String {
    let rows = numbers.chunk_by(|one, next| one + 1 == *next);
    let words = rows.map(|row| match row {
        [one] => one.to_string(),
        _ => format!("{}-{}", row[0], row[row.len() - 1]),
    });
    words.collect::<Vec<_>>().join(", ")
}

#[cfg(test)]
mod tests {
    use super::*;

    #[test]
    fn zero_alone_is_a_walk() {
        let unknown = |number, node| Err(Refusal { cause: Cause::Unknown(number), node });
        assert!(told([0, 0, 5, 1, 2], vec![1, 1], 5).is_ok());
        assert_eq!(told([0, 0, 6, 1, 2], vec![1, 1], 5), unknown(0, 0)); // over its budget
        assert_eq!(told([0, 0, 5, 2, 2], vec![1, 1], 5), unknown(0, 0)); // outside
        assert_eq!(told([0, 0, 5, 1, 2], vec![1, 0], 5), unknown(0, 0)); // the last not visited
        assert_eq!(told([0, 0, 5, 1, 9], vec![1, 1], 5), unknown(0, 0)); // no ending
        assert_eq!(told([u64::MAX; 5], vec![0], 5), unknown(u64::MAX, u64::MAX));
        for cause in Cause::ALL {
            assert_eq!(told([cause.number(), 3, 0, 0, 0], vec![1], 5), Err(Refusal { cause, node: 3 }));
        }
    }

    #[test]
    fn spans_in_words() {
        assert_eq!(spans(&[]), "");
        assert_eq!(spans(&[12, 13, 14, 15, 40, 42, 43]), "12-15, 40, 42-43");
    }
}
