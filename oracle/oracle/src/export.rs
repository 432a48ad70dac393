//! Lines for comparing with the definition: `mode tree work room number place length visits image`, bytes in hexadecimal, `-` for none.
use crate::limits::{ask_in, cases, wide_cases, Asked, Case, Room, Work};
use crate::questions::{self, Question};
use crate::rng::Rng;
use crate::trees::{crowd, width};

/// N lines of a mode from a seed: seven of ten small programs, then damaged files, crowded functions, and limits of each number alike; a
/// third of them wide.
/// With `many` a last line more is 32,769 fields, the only one that refusal 2 can have.
pub fn lines(seed: u64, count: u64, mode: u64, many: bool) -> Vec<String> {
    let (limits, wide_limits) = (limits_by_number(cases()), limits_by_number(wide_cases()));
    let mut lines = vec![];
    let mut k = 0;
    while (lines.len() as u64) < count {
        k += 1;
        let mut rng = Rng::for_case(seed, k);
        let asked = match k % 20 {
            0..=8 => questions::small(seed, k, mode).ask(),
            9..=12 => wide(&mut rng, questions::small(seed, k, mode)),
            13 => mixed(&mut rng, questions::small(seed, k, mode)),
            14 => questions::damaged(seed, k, mode).ask(),
            15 => wide(&mut rng, questions::damaged(seed, k, mode)),
            16 => crowded(&mut rng, mode),
            _ => {
                let of_a_number = rng.pick(if k % 20 == 17 { &wide_limits } else { &limits });
                reask(rng.pick(of_a_number), mode)
            }
        };
        if is_small(&asked) {
            lines.push(line(&asked));
        }
    }
    if many {
        let two = cases().into_iter().find(|c| c.name == "32,769 fields").expect("a limit by this name");
        lines.push(line(&reask(&two.ask(), mode)));
    }
    lines
}

fn wide(rng: &mut Rng, narrow: Question) -> Asked {
    Question { tree: questions::made_wide(rng, &narrow.tree), ..narrow }.ask()
}

fn mixed(rng: &mut Rng, narrow: Question) -> Asked {
    Question { tree: width::mixed(rng, &narrow.tree), ..narrow }.ask()
}

/// The small limits, those of one refusal number together.
fn limits_by_number(cases: Vec<Case>) -> Vec<Vec<Asked>> {
    let mut by_number: Vec<Vec<Asked>> = (0..19).map(|_| vec![]).collect();
    for asked in cases.iter().map(|c| c.ask()).filter(is_small) {
        by_number[usize::from(asked.answer.number)].push(asked);
    }
    by_number.retain(|asked| !asked.is_empty());
    by_number
}

fn reask(a: &Asked, mode: u64) -> Asked {
    ask_in(mode, a.tree.clone(), Work::Words(a.work), Room::Bytes(a.room))
}

/// Registers, nesting or numerals minus something.
fn crowded(rng: &mut Rng, mode: u64) -> Asked {
    let program = match rng.below(3) {
        0 => crowd::registers(rng),
        1 => crowd::nesting(rng),
        _ => crowd::minus(rng),
    };
    let tree = questions::numbered(rng, &program);
    ask_in(mode, tree, Work::Exact, Room::Exact)
}

/// About a hundred nodes at most; 5 cannot be had with fewer than 129, nor 8 with fewer than some 270.
fn is_small(a: &Asked) -> bool {
    let nodes = match a.answer.number {
        5 => 140,
        8 => 300,
        _ => 110,
    };
    files::tree::fields(&a.tree).map_or_else(|n| n, |f| f.len()) <= nodes && a.tree.len() < 6000 && a.image.len() < 6000
}

pub fn line(a: &Asked) -> String {
    format!("{} {} {} {} {} {}", a.mode, hex(&a.tree), a.work, a.room, a.answer, hex(&a.image))
}

pub fn hex(bytes: &[u8]) -> String {
    if bytes.is_empty() {
        return "-".into();
    }
    bytes.iter().map(|b| format!("{b:02x}")).collect()
}
