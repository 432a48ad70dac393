//! Walks by hand, with the five numbers and the bytes that are due.
use super::Question;
use crate::images::build::*;
use crate::images::width::widened;
use crate::walking::{Run, Walked};
use files::image::Instruction;

pub struct Edge {
    pub name: String,
    pub question: Question,
    pub due: Walked,
}

/// A walk over one prototype of one register: what is due are steps, index, ending, and the instructions visited.
struct Told<'e> {
    edges: &'e mut Vec<Edge>,
    name: &'static str,
    code: Vec<Instruction>,
    strikes: Vec<u64>,
}

fn of<'e>(edges: &'e mut Vec<Edge>, name: &'static str, code: Vec<Instruction>) -> Told<'e> {
    Told { edges, name, code, strikes: vec![] }
}

impl Told<'_> {
    fn struck(&mut self, strikes: &[u64], decisions: &[u8], budget: u64, due: [u64; 3], visited: &[usize]) {
        self.strikes = strikes.to_vec();
        self.say(decisions, budget, due, visited);
    }

    fn say(&mut self, decisions: &[u8], budget: u64, due: [u64; 3], visited: &[usize]) {
        let run = Run { prototype: 0, decisions: decisions.to_vec(), strikes: self.strikes.clone(), budget };
        let (n, [steps, index, ending]) = (self.code.len(), due);
        for lent in [n, n + 1, n + 300] {
            let bytes = (0..lent).map(|at| u8::from(visited.contains(&at))).collect();
            let due = Walked { numbers: [0, 0, steps, index, ending], visited: bytes };
            let question = Question { image: alone(1, self.code.clone()), run: run.clone(), lent };
            let name = format!(
                "{}, decisions {decisions:?}, strikes {:?}, budget {budget}, {lent} bytes",
                self.name, self.strikes
            );
            self.edges.push(Edge { name, question, due });
        }
    }
}

const RETURN: u64 = 0;
const DECISIONS: u64 = 1;
const BUDGET: u64 = 2;
const FAILED: u64 = 3;
const HANDLERS: u64 = 4;

pub fn all() -> Vec<Edge> {
    let mut edges = vec![];
    ends(&mut edges);
    steps(&mut edges);
    loops(&mut edges);
    long(&mut edges);
    refusals(&mut edges);
    failures(&mut edges);
    nested(&mut edges);
    registered(&mut edges);
    orders(&mut edges);
    let wide: Vec<Edge> = edges.iter().step_by(3).filter_map(made_wide).collect();
    edges.extend(wide);
    edges
}

/// The same walk over marks of four bytes, where there is an instruction: the same is due.
fn made_wide(narrow: &Edge) -> Option<Edge> {
    let question = Question { image: widened(&narrow.question.image), ..narrow.question.clone() };
    let changed = question.image != narrow.question.image;
    changed.then(|| Edge { name: format!("wide: {}", narrow.name), question, due: narrow.due.clone() })
}

fn nil() -> Instruction {
    ins("LoadNil", 0, 0, 0)
}

fn test() -> Instruction {
    ins("Test", 0, 0, 0)
}

/// The three endings, each where two of them meet.
fn ends(edges: &mut Vec<Edge>) {
    let mut told = of(edges, "a Return alone", vec![end()]);
    for budget in [0, 1, u64::MAX] {
        told.say(&[], budget, [0, 0, RETURN], &[0]);
        told.say(&[1, 0, 1], budget, [0, 0, RETURN], &[0]);
    }
    let mut told = of(edges, "a Test first", vec![test(), end(), nil(), end()]);
    for budget in [0, 1, u64::MAX] {
        told.say(&[], budget, [0, 0, DECISIONS], &[0]);
    }
    told.say(&[0], 0, [0, 0, BUDGET], &[0]);
    told.say(&[0], 1, [1, 1, RETURN], &[0, 1]);
    told.say(&[1], 1, [1, 2, BUDGET], &[0, 2]);
    told.say(&[1], 2, [2, 3, RETURN], &[0, 2, 3]);
    told.say(&[1, 0, 0], u64::MAX, [2, 3, RETURN], &[0, 2, 3]);
    let mut told = of(edges, "a Test behind another", vec![test(), test(), end(), end()]);
    told.say(&[0], 1, [1, 1, DECISIONS], &[0, 1]);
    told.say(&[0], 9, [1, 1, DECISIONS], &[0, 1]);
    told.say(&[0, 1], 1, [1, 1, BUDGET], &[0, 1]);
    told.say(&[0, 1], 2, [2, 3, RETURN], &[0, 1, 3]);
    told.say(&[1, 1], 2, [1, 2, RETURN], &[0, 2]);
}

/// Every kind of step.
fn steps(edges: &mut Vec<Edge>) {
    let code = vec![wide("RegisterTryCatch", 0, 3), nil(), wide("Jmp", 0, 2), end(), ins("Return", 0, 1, 0)];
    let mut told = of(edges, "a try goes on", code);
    told.say(&[], 9, [3, 4, RETURN], &[0, 1, 2, 4]);
    told.say(&[], 2, [2, 2, BUDGET], &[0, 1, 2]);
    let code = vec![wide("Jmp", 0, 3), end(), wide("Jmp", 0, 0xFFFF), wide("Jmp", 0, 0xFFFF), end()];
    let mut told = of(edges, "jumps back", code);
    told.say(&[], 9, [3, 1, RETURN], &[0, 1, 2, 3]);
    let code = vec![ins("DeregisterTryCatch", 1, 2, 3), ins("Test", 0, 0, 255), nil(), end()];
    let mut told = of(edges, "a Test whose c is 255", code);
    told.say(&[0], 9, [3, 3, RETURN], &[0, 1, 2, 3]);
    told.say(&[1], 9, [2, 3, RETURN], &[0, 1, 3]);
}

/// Loops without end, and one that decisions end.
fn loops(edges: &mut Vec<Edge>) {
    let mut told = of(edges, "a Jmp to itself", vec![wide("Jmp", 0, 0)]);
    for budget in [0, 1, 2, 1000, 100_000] {
        told.say(&[], budget, [budget, 0, BUDGET], &[0]);
    }
    let mut told = of(edges, "two Jmps", vec![wide("Jmp", 0, 1), wide("Jmp", 0, 0xFFFF)]);
    for budget in [1, 2, 3, 65_536, 65_537] {
        told.say(&[], budget, [budget, budget % 2, BUDGET], &[0, 1]);
    }
    // a while: Test, the way out, a body, the way back
    let code = vec![test(), wide("Jmp", 0, 3), nil(), wide("Jmp", 0, 0xFFFD), end()];
    let mut told = of(edges, "a while", code);
    for rounds in [0, 1, 2, 50] {
        let mut decisions = vec![1; rounds];
        let all: &[usize] = if rounds == 0 { &[0] } else { &[0, 2, 3] };
        told.say(&decisions, u64::MAX, [3 * rounds as u64, 0, DECISIONS], all);
        decisions.push(0);
        let visited = [all, &[1, 4]].concat();
        told.say(&decisions, u64::MAX, [3 * rounds as u64 + 2, 4, RETURN], &visited);
        told.say(&decisions, 3 * rounds as u64 + 1, [3 * rounds as u64 + 1, 1, BUDGET], &[all, &[1]].concat());
    }
}

/// As many instructions as there can be.
fn long(edges: &mut Vec<Edge>) {
    let code: Vec<Instruction> = (0..65_535).map(|at| if at == 65_534 { end() } else { nil() }).collect();
    let all: Vec<usize> = (0..65_535).collect();
    for (budget, due) in
        [(65_533, [65_533, 65_533, BUDGET]), (65_534, [65_534, 65_534, RETURN]), (1 << 32, [65_534, 65_534, RETURN])]
    {
        let visited: Vec<u8> = (0..65_535).map(|at| u8::from(at <= due[1])).collect();
        let run = Run { prototype: 0, decisions: vec![], strikes: vec![], budget };
        let due = Walked { numbers: [0, 0, due[0], due[1], due[2]], visited };
        let question = Question { image: alone(1, code.clone()), run, lent: all.len() };
        edges.push(Edge { name: format!("65,535 instructions, budget {budget}"), question, due });
    }
}

/// Every refusal at its limit, and the order of each two: 19 and 20, 22, 23, 29.
fn refusals(edges: &mut Vec<Edge>) {
    let three = image(vec![bare(), prototype(1, vec![], vec![nil(), nil(), end()]), bare()], vec![]);
    let broken = alone(0, vec![nil(), end()]);
    let mut say =
        |name: &str, image: &[u8], prototype: u64, decisions: &[u8], lent: usize, [number, place]: [u64; 2]| {
            let run = Run { prototype, decisions: decisions.to_vec(), strikes: vec![], budget: 9 };
            let question = Question { image: image.to_vec(), run, lent };
            let due = Walked { numbers: [number, place, 0, 0, 0], visited: vec![0; lent] };
            edges.push(Edge { name: format!("{name}: {prototype}, {decisions:?}, {lent}"), question, due });
        };
    for lent in [0, 2, 3, 50] {
        for decisions in [&[][..], &[0, 1], &[2], &[0, 0, 255]] {
            for prototype in [0, 1, 2, 3, 1 << 32, u64::MAX] {
                say("no image", &[], prototype, decisions, lent, [19, 0]);
                say("a cut image", &three[..three.len() - 1], prototype, decisions, lent, [19, 7]);
                say("a fact that fails", &broken, prototype, decisions, lent, [20, 1]);
                if prototype > 2 {
                    say("no such prototype", &three, prototype, decisions, lent, [22, 0]);
                }
            }
        }
        say("no such prototype", &three, 3, &[], lent, [22, 0]);
        say("a decision first", &three, 1, &[2, 3], lent, [23, 0]);
        say("a decision that is never used", &three, 0, &[0, 1, 0, 1, 2], lent, [23, 4]);
        say("the last decision", &three, 2, &[0, 255], lent, [23, 1]);
    }
    for lent in [0, 1, 2] {
        say("too few bytes", &three, 1, &[], lent, [29, 0]);
        say("too few bytes and decisions", &three, 1, &[1, 0], lent, [29, 0]);
    }
    say("no bytes for one", &three, 0, &[], 0, [29, 0]);
    say("no bytes for the last", &three, 2, &[], 0, [29, 0]);
}

fn off() -> Instruction {
    ins("DeregisterTryCatch", 0, 0, 0)
}

/// A try of one instruction: struck at each step, at its Return, twice, and where nothing is registered.
fn failures(edges: &mut Vec<Edge>) {
    let code = vec![wide("RegisterTryCatch", 0, 3), nil(), end(), nil(), off(), ins("Return", 0, 1, 0)];
    let mut told = of(edges, "a try", code);
    told.struck(&[], &[], 9, [2, 2, RETURN], &[0, 1, 2]);
    told.struck(&[0], &[], 9, [0, 0, FAILED], &[0]);
    told.struck(&[0], &[], 0, [0, 0, BUDGET], &[0]);
    told.struck(&[1], &[], 9, [4, 5, RETURN], &[0, 1, 3, 4, 5]);
    told.struck(&[1], &[], 1, [1, 1, BUDGET], &[0, 1]);
    told.struck(&[1], &[], 2, [2, 3, BUDGET], &[0, 1, 3]);
    told.struck(&[2], &[], 9, [2, 2, RETURN], &[0, 1, 2]);
    told.struck(&[1, 2], &[], 9, [5, 5, RETURN], &[0, 1, 3, 4, 5]);
    told.struck(&[1, 3], &[], 9, [6, 5, RETURN], &[0, 1, 3, 4, 5]);
    told.struck(&[1, 4], &[], 9, [4, 5, RETURN], &[0, 1, 3, 4, 5]);
    told.struck(&[1 << 32, (1 << 32) + 1], &[], 9, [2, 2, RETURN], &[0, 1, 2]);
    let code = vec![wide("RegisterTryCatch", 0, 4), test(), nil(), end(), off(), nil(), end()];
    let mut told = of(edges, "a Test in a try", code);
    told.struck(&[1], &[], 9, [4, 6, RETURN], &[0, 1, 4, 5, 6]);
    told.struck(&[1], &[], 1, [1, 1, BUDGET], &[0, 1]);
    told.struck(&[], &[], 1, [1, 1, DECISIONS], &[0, 1]);
    told.struck(&[2], &[], 9, [1, 1, DECISIONS], &[0, 1]);
    told.struck(&[1], &[0], 9, [4, 6, RETURN], &[0, 1, 4, 5, 6]);
    // behind the handler's DeregisterTryCatch nothing is registered
    told.struck(&[1, 3], &[], 9, [3, 5, FAILED], &[0, 1, 4, 5]);
    told.struck(&[1, 3], &[], 3, [3, 5, BUDGET], &[0, 1, 4, 5]);
    // a decision that a struck Test left is the next Test's
    let code = vec![wide("RegisterTryCatch", 0, 2), test(), test(), end(), end()];
    let mut told = of(edges, "a Test as a handler", code);
    told.struck(&[1], &[1], 9, [3, 4, RETURN], &[0, 1, 2, 4]);
    told.struck(&[1], &[0, 1], 9, [3, 3, RETURN], &[0, 1, 2, 3]);
    told.struck(&[1], &[], 9, [2, 2, DECISIONS], &[0, 1, 2]);
    let mut told = of(edges, "DeregisterTryCatch alone", vec![off(), off(), end()]);
    told.struck(&[], &[], 9, [2, 2, RETURN], &[0, 1, 2]);
    told.struck(&[1], &[], 9, [1, 1, FAILED], &[0, 1]);
    let mut told = of(edges, "a Return alone", vec![end()]);
    told.struck(&[0], &[], 0, [0, 0, RETURN], &[0]);
    told.struck(&[0, 1, u64::MAX], &[], 9, [0, 0, RETURN], &[0]);
}

/// Two tries, the inner one entered first; a DeregisterTryCatch gives way to the outer one.
fn nested(edges: &mut Vec<Edge>) {
    let code = vec![
        wide("RegisterTryCatch", 0, 6),
        wide("RegisterTryCatch", 0, 3),
        nil(),
        end(),
        off(),
        end(),
        off(),
        ins("Return", 0, 1, 0),
    ];
    let mut told = of(edges, "a try in a try", code);
    told.struck(&[1], &[], 9, [3, 7, RETURN], &[0, 1, 6, 7]);
    told.struck(&[2], &[], 9, [4, 5, RETURN], &[0, 1, 2, 4, 5]);
    told.struck(&[2, 3], &[], 9, [5, 5, RETURN], &[0, 1, 2, 4, 5]);
    told.struck(&[2, 4], &[], 9, [4, 5, RETURN], &[0, 1, 2, 4, 5]);
}

/// One handler more in each round: 256 are registered after 511 steps.
fn registered(edges: &mut Vec<Edge>) {
    let code = vec![wide("RegisterTryCatch", 0, 2), wide("Jmp", 0, 0xFFFF), off(), end()];
    let mut told = of(edges, "a handler in each round", code);
    told.struck(&[], &[], 511, [511, 1, BUDGET], &[0, 1]);
    told.struck(&[], &[], 512, [512, 0, BUDGET], &[0, 1]);
    told.struck(&[], &[], 513, [512, 0, HANDLERS], &[0, 1]);
    told.struck(&[], &[], u64::MAX, [512, 0, HANDLERS], &[0, 1]);
    told.struck(&[511], &[], u64::MAX, [513, 3, RETURN], &[0, 1, 2, 3]);
    told.struck(&[512], &[], u64::MAX, [514, 3, RETURN], &[0, 1, 2, 3]);
    told.struck(&[512], &[], 512, [512, 0, BUDGET], &[0, 1]);
    told.struck(&[0], &[], u64::MAX, [0, 0, FAILED], &[0]);
    // a round that takes off what it registered goes on without end
    let code = vec![wide("RegisterTryCatch", 0, 3), off(), wide("Jmp", 0, 0xFFFE), end()];
    let mut told = of(edges, "on and off", code);
    told.struck(&[], &[], 3000, [3000, 0, BUDGET], &[0, 1, 2]);
    told.struck(&[2998], &[], 3001, [2999, 3, RETURN], &[0, 1, 2, 3]);
    told.struck(&[2999], &[], 3001, [2999, 2, FAILED], &[0, 1, 2]);
}

/// 25 between 23 and 29, at the first entry that is not above the one before it.
fn orders(edges: &mut Vec<Edge>) {
    let image = alone(1, vec![nil(), end()]);
    let mut say = |strikes: &[u64], decisions: &[u8], prototype: u64, lent: usize, [number, place]: [u64; 2]| {
        let run = Run { prototype, decisions: decisions.to_vec(), strikes: strikes.to_vec(), budget: 9 };
        let question = Question { image: image.clone(), run, lent };
        let due = Walked { numbers: [number, place, 0, 0, 0], visited: vec![0; lent] };
        edges.push(Edge { name: format!("strikes {strikes:?}, {decisions:?}, {prototype}, {lent}"), question, due });
    };
    for lent in [0, 1, 2, 9] {
        for (strikes, place) in [
            (&[0, 0][..], 1),
            (&[5, 4], 1),
            (&[1, 2, 2], 2),
            (&[1, 2, 1, 0], 2),
            (&[9, 8, 7], 1),
            (&[0, 1, 2, 3, u64::MAX, u64::MAX], 5),
            (&[1 << 32, 1], 1),
            (&[u64::MAX, 0], 1),
        ] {
            say(strikes, &[], 0, lent, [25, place]);
            say(strikes, &[0, 1], 0, lent, [25, place]);
            say(strikes, &[0, 2], 0, lent, [23, 1]);
            say(strikes, &[0, 2], 1, lent, [22, 0]);
        }
    }
    say(&[0, 1, 2], &[], 0, 1, [29, 0]);
}
