//! One call of the walker, with everything that must hold afterwards.
use crate::calls::{guarded, holds, same_numbers, Fault};
use crate::lent::Lent;
use oracle::rng::Rng;
use oracle::walking::Walked;
use oracle::walks::Question;

/// `yengrazul_walk`: image, prototype, decisions, strikes, budget, the lent bytes, and the answer's five numbers.
pub type Walk =
    unsafe extern "C" fn(*const u8, usize, u64, *const u8, usize, *const u64, usize, u64, *mut u8, usize, *mut u64);

/// Numbers and lent bytes against the second walker.
pub fn walk(function: Walk, question: &Question, due: &Walked, rng: &mut Rng) -> Result<(), Fault> {
    let run = &question.run;
    let image = Lent::holding(rng, &question.image);
    let decisions = Lent::holding(rng, &run.decisions);
    let strikes = Lent::holding(rng, &run.strikes);
    let mut visited: Lent<u8> = Lent::noise(rng, question.lent);
    let mut answer: Lent<u64> = Lent::noise(rng, 5);
    let (i, d, s) = (image.slice(), decisions.slice(), strikes.slice());
    let (v, a) = (visited.slice_mut(), answer.slice_mut());
    unsafe {
        let (v, lent, a) = (v.as_mut_ptr(), v.len(), a.as_mut_ptr());
        let (i, n, d, dn, s, sn) = (i.as_ptr(), i.len(), d.as_ptr(), d.len(), s.as_ptr(), s.len());
        function(i, n, run.prototype, d, dn, s, sn, run.budget, v, lent, a);
    }
    same_numbers(answer.slice(), due.numbers)?;
    guarded([image.is_guarded(), decisions.is_guarded(), strikes.is_guarded()])?;
    guarded([visited.is_guarded(), answer.is_guarded()])?;
    holds(image.slice() == question.image, "the image was written to")?;
    holds(decisions.slice() == run.decisions, "the decisions were written to")?;
    holds(strikes.slice() == run.strikes, "the strikes were written to")?;
    match visited.slice().iter().zip(&due.visited).position(|(got, due)| got != due) {
        Some(at) => Err(format!("lent byte {at} is {} where {} is due", visited.slice()[at], due.visited[at])),
        None => Ok(()),
    }
}

/// A walk for a line of text.
pub fn words(question: &Question) -> String {
    let mut text = format!("lent {}, {:?}", question.lent, question.run);
    text.truncate(600);
    text
}
