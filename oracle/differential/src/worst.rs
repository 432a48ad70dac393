//! The trees and the images that cost most, each timed through the static library, with the stack that its call needs; README.md says more.
use differential::calls::{Lower, Read};
use differential::lent::Lent;
use differential::linked::{self, Library};
use differential::stack::{Stack, Took};
use files::tree::fields;
use oracle::images::build::Edge;
use oracle::images::costly;
use oracle::judge::work_for;
use oracle::rng::Rng;
use oracle::trees::costly::Worst;
use oracle::trees::worst::worst;
use oracle::visits;
use std::process::ExitCode;

/// Seconds of the processor that a call may take: the least of so many calls, since other work on the machine only adds to them.
const LIMIT: f64 = 2.0;
const CALLS: usize = 6;

/// A tree whose first call takes no more than this is called once.
const SURE: f64 = 1.5;

fn main() -> ExitCode {
    let Some(Library { lower, read, .. }) = linked::library() else {
        eprintln!("worst: no library is linked: set YENGRAZUL_LIB to the folder of libyengrazul.a");
        return ExitCode::from(2);
    };
    let only = std::env::args().nth(1);
    let asks = |kind: &str| only.as_deref().is_none_or(|only| only == kind);
    let (mut stack, mut rng, mut faults) = (Stack::new(), Rng::new(1), 0);
    if asks("trees") {
        faults += trees(lower, &mut stack, &mut rng);
    }
    if asks("images") {
        faults += images(read, &mut stack, &mut rng);
    }
    ExitCode::from(u8::from(faults > 0))
}

/// How many trees were lowered wrongly, too slowly or too deep.
fn trees(lower: Lower, stack: &mut Stack, rng: &mut Rng) -> usize {
    let (mut faults, mut deepest, all) = (0, 0, worst());
    println!("{:50} {:>9} {:>9} {:>8}", "tree", "nodes", "ms", "stack");
    for w in &all {
        let (mut took, mut verdict) = call(lower, w, stack, rng);
        for _ in 1..CALLS {
            if took.seconds > Some(SURE) {
                let (again, said) = call(lower, w, stack, rng);
                took.seconds = took.seconds.zip(again.seconds).map(|(one, other)| one.min(other));
                verdict = verdict.and(said);
            }
        }
        let verdict = verdict.and(in_time(&took)).and(in_stack(&took, "YENGRAZUL_STACK_BYTES"));
        faults += usize::from(verdict.is_err());
        deepest = deepest.max(took.stack_bytes);
        print(&w.name, w.tree.size(), &took, verdict);
    }
    println!("{} trees, {faults} wrong, the deepest stack {deepest} bytes", all.len());
    faults
}

/// How many images were read wrongly, too slowly or too deep.
fn images(read: Read, stack: &mut Stack, rng: &mut Rng) -> usize {
    let (mut faults, mut deepest, all) = (0, 0, costly::all());
    println!("{:50} {:>9} {:>9} {:>8}", "image", "bytes", "ms", "stack");
    for edge in &all {
        let (took, verdict) = call_read(read, edge, stack, rng);
        let verdict = verdict.and(in_time(&took)).and(in_stack(&took, "YENGRAZUL_READ_STACK_BYTES"));
        faults += usize::from(verdict.is_err());
        deepest = deepest.max(took.stack_bytes);
        print(&edge.name, edge.image.len(), &took, verdict);
    }
    println!("{} images, {faults} wrong, the deepest stack {deepest} bytes", all.len());
    faults
}

fn print(name: &str, size: usize, took: &Took, verdict: Result<(), String>) {
    let words = verdict.map_or_else(|fault| format!("  WRONG: {fault}"), |()| String::new());
    let ms = took.seconds.map_or("emulated".into(), |seconds| format!("{:.1}", seconds * 1000.0));
    println!("{name:50} {size:9} {ms:>9} {:8}{words}", took.stack_bytes);
}

fn in_time(took: &Took) -> Result<(), String> {
    match took.seconds {
        Some(seconds) if seconds >= LIMIT => Err(format!("over {LIMIT} seconds")),
        _ => Ok(()),
    }
}

/// A caller is told in include/yengrazul.h how much stack is enough.
fn in_stack(took: &Took, name: &str) -> Result<(), String> {
    let header = include_str!("../../../include/yengrazul.h");
    let said = header.lines().find_map(|line| line.strip_prefix(&format!("#define {name} ")));
    let said: usize = said.and_then(|said| said.parse().ok()).expect("the header says how much stack a call takes");
    match took.stack_bytes < said {
        true => Ok(()),
        false => Err(format!("over {said} bytes of stack")),
    }
}

/// These trees are too costly for the traced source: visits by the rule, 0 in a refusal.
fn visits_due(w: &Worst, tree: &[u8]) -> u64 {
    match w.due {
        0 => visits::by_rule(&fields(tree).expect("a tree of whole fields")),
        _ => 0,
    }
}

/// The call, on noise; then the number, the words and the bytes that must be zero, the guards.
fn call(function: Lower, w: &Worst, stack: &mut Stack, rng: &mut Rng) -> (Took, Result<(), String>) {
    let tree = Lent::holding(rng, &w.file());
    let mut work: Lent<u32> = Lent::noise(rng, work_for(w.tree.size()) as usize);
    let mut out: Lent<u8> = Lent::noise(rng, w.room);
    let mut answer: Lent<u64> = Lent::noise(rng, 4);
    let (t, words, bytes, told) = (tree.slice(), work.slice_mut(), out.slice_mut(), answer.slice_mut());
    let took = stack.run(|| unsafe {
        let (w, b) = (words.as_mut_ptr(), bytes.as_mut_ptr());
        function(t.as_ptr(), t.len(), w, words.len(), b, bytes.len(), 0, told.as_mut_ptr())
    });
    let (number, length, visits) = (answer.slice()[0], answer.slice()[2] as usize, answer.slice()[3]);
    let guarded = tree.is_guarded() && work.is_guarded() && out.is_guarded() && answer.is_guarded();
    let verdict = match () {
        _ if number != u64::from(w.due) => Err(format!("number {number} where {} is due", w.due)),
        _ if visits != visits_due(w, tree.slice()) => {
            Err(format!("{visits} visits where {} are due", visits_due(w, tree.slice())))
        }
        _ if !guarded => Err("a guard word was written to".into()),
        _ if work.slice().iter().any(|word| *word != 0) => Err("the work area is not all zero".into()),
        _ if out.slice()[length..].iter().any(|byte| *byte != 0) => {
            Err("the output is not zero behind the image".into())
        }
        _ => Ok(()),
    };
    (took, verdict)
}

/// The reading, of bytes between guards; then number and place.
fn call_read(function: Read, edge: &Edge, stack: &mut Stack, rng: &mut Rng) -> (Took, Result<(), String>) {
    let image = Lent::holding(rng, &edge.image);
    let mut answer: Lent<u64> = Lent::noise(rng, 2);
    let (bytes, told) = (image.slice(), answer.slice_mut());
    let took = stack.run(|| unsafe { function(bytes.as_ptr(), bytes.len(), told.as_mut_ptr()) });
    let verdict = match answer.slice() {
        got if got != edge.due => Err(format!("{got:?} where {:?} is due", edge.due)),
        _ if !(image.is_guarded() && answer.is_guarded()) => Err("a guard word was written to".into()),
        _ if image.slice() != edge.image => Err("the image was written to".into()),
        _ => Ok(()),
    };
    (took, verdict)
}
