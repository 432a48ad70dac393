//! Mode 1 by listings written by hand; refusal 21; what both modes share, on random trees.
use files::image::Image;
use files::listing::line;
use oracle::answer::answer;
use oracle::limits::{ask_in, cases, Room, Work};
use oracle::rng::Rng;
use oracle::trees::build::*;
use oracle::trees::order::post;
use oracle::trees::random::{self, Taste};
use oracle::{modes, questions};

const A: u16 = 10;

fn a() -> Node {
    variable((A, 2))
}

fn one() -> Node {
    number(1.0)
}

/// The instructions of `let a = 1` and a statement behind it in a block, with marks, in a mode: the statement's own, without the last Return.
fn code(mode: u64, statement: Node) -> Vec<String> {
    let tree = post(&program(vec![block(vec![let_((A, 1), Some(one())), statement])]));
    let asked = ask_in(mode, tree, Work::Exact, Room::Exact);
    assert_eq!(asked.answer.number, 0);
    let image = Image::from_bytes(&asked.image).unwrap();
    let mark = |m: Option<u32>| m.map_or("-".into(), |m| m.to_string());
    let mut lines: Vec<String> = image
        .prototypes
        .last()
        .unwrap()
        .instructions
        .iter()
        .map(|i| format!("{} @{}", line(i), mark(i.mark)))
        .collect();
    assert_eq!(lines.pop().unwrap(), "Return 0 0 0 @-");
    assert_eq!(lines.remove(0), "LoadK 0 0 0 @-");
    lines
}

/// The listing in mode 1, and in mode 0 the same but for the lines that are named with what they are there.
fn gives(statement: Node, one: &[&str], zero: &[(usize, &str)]) {
    assert_eq!(code(1, statement.clone()), one);
    let mut due = one.to_vec();
    zero.iter().for_each(|(at, line)| due[*at] = line);
    assert_eq!(code(0, statement), due);
}

#[test]
fn a_for_with_an_initializer() {
    let due = [
        "LoadK 1 0 1 @-",
        "Test 0 0 0 @20",
        "Jmp 0 0 5 @20",
        "Jmp 0 0 2 @21",
        "Jmp 0 0 3 @22",
        "Neg 0 0 0 @23",
        "Jmp 0 255 251 @20",
    ];
    let body = block(vec![continue_(21), break_(22)]);
    gives(for_(20, Some(expression(one())), a(), unary(2, 23, a()), body), &due, &[(3, "Jmp 0 255 253 @21")]);
}

#[test]
fn a_for_whose_increment_gives_no_instruction() {
    let due = ["Test 0 0 0 @20", "Jmp 0 0 4 @20", "Jmp 0 0 2 @21", "Jmp 0 0 2 @22", "Jmp 0 255 252 @20"];
    let body = block(vec![continue_(21), break_(22)]);
    gives(for_(20, None, a(), a(), body), &due, &[(2, "Jmp 0 255 254 @21")]);
    // a continue alone, just before the backward Jmp
    let due = ["Test 0 0 0 @20", "Jmp 0 0 3 @20", "Jmp 0 0 1 @21", "Jmp 0 255 253 @20"];
    gives(for_(20, None, a(), a(), continue_(21)), &due, &[(2, "Jmp 0 255 254 @21")]);
}

/// The first of two instructions of the increment, not the second.
#[test]
fn a_for_whose_increment_gives_several() {
    let due = [
        "Test 0 0 0 @20",
        "Jmp 0 0 6 @20",
        "Jmp 0 0 2 @21",
        "Return 0 0 0 @22",
        "Neg 0 0 0 @23",
        "Not 0 0 0 @24",
        "Jmp 0 255 250 @20",
    ];
    let body = block(vec![continue_(21), return_(22, None)]);
    gives(for_(20, None, a(), unary(1, 24, unary(2, 23, a())), body), &due, &[(2, "Jmp 0 255 254 @21")]);
}

/// `2 - a` loads 2 into register 1 in the pass that is dropped, and into register 2 in the one that is kept: that LoadK is the first.
#[test]
fn a_for_whose_increment_drops_a_pass() {
    let due =
        ["Test 0 0 0 @20", "Jmp 0 0 5 @20", "Jmp 0 0 1 @21", "LoadK 2 0 1 @-", "Sub 3 2 0 @22", "Jmp 0 255 251 @20"];
    gives(for_(20, None, a(), binary(8, 22, number(2.0), a()), continue_(21)), &due, &[(2, "Jmp 0 255 254 @21")]);
}

#[test]
fn a_for_in_of_one_name() {
    let due = [
        "LoadK 1 0 1 @30",
        "Length 2 0 0 @30",
        "Lt 3 1 2 @30",
        "Test 3 3 0 @30",
        "Jmp 0 0 5 @30",
        "GetIterk 4 0 1 @30",
        "Jmp 0 0 1 @31",
        "Addi 1 1 1 @30",
        "Jmp 0 255 249 @30",
    ];
    gives(for_in(30, a(), continue_(31), &[(11, 32)]), &due, &[(6, "Jmp 0 255 250 @31")]);
}

#[test]
fn a_for_in_of_two_names() {
    let due = [
        "LoadK 1 0 1 @30",
        "Length 2 0 0 @30",
        "Lt 3 1 2 @30",
        "Test 3 3 0 @30",
        "Jmp 0 0 8 @30",
        "GetIter 4 0 1 @30",
        "GetIteri 5 4 0 @30",
        "GetIteri 6 4 1 @30",
        "Jmp 0 0 2 @31",
        "Return 0 0 0 @34",
        "Addi 1 1 1 @30",
        "Jmp 0 255 246 @30",
    ];
    let body = block(vec![continue_(31), return_(34, None)]);
    gives(for_in(30, a(), body, &[(11, 32), (12, 33)]), &due, &[(8, "Jmp 0 255 248 @31")]);
}

/// Each continue belongs to the loop around it.
#[test]
fn a_for_in_a_for() {
    let due = [
        "Test 0 0 0 @20",
        "Jmp 0 0 9 @20",
        "Test 0 0 0 @30",
        "Jmp 0 0 4 @30",
        "Jmp 0 0 1 @31",
        "Not 0 0 0 @32",
        "Jmp 0 255 252 @30",
        "Jmp 0 0 1 @21",
        "Neg 0 0 0 @22",
        "Jmp 0 255 247 @20",
    ];
    let inner = for_(30, None, a(), unary(1, 32, a()), continue_(31));
    let outer = for_(20, None, a(), unary(2, 22, a()), block(vec![inner, continue_(21)]));
    gives(outer, &due, &[(4, "Jmp 0 255 254 @31"), (7, "Jmp 0 255 249 @21")]);
}

/// The while's continue is the same in both modes.
#[test]
fn a_while_in_a_for_and_a_for_in_a_while() {
    let due = [
        "Test 0 0 0 @20",
        "Jmp 0 0 8 @20",
        "Test 0 0 0 @30",
        "Jmp 0 0 3 @30",
        "Jmp 0 255 254 @31",
        "Jmp 0 255 253 @30",
        "Jmp 0 0 1 @21",
        "Neg 0 0 0 @22",
        "Jmp 0 255 248 @20",
    ];
    let inner = while_(30, a(), continue_(31));
    let outer = for_(20, None, a(), unary(2, 22, a()), block(vec![inner, continue_(21)]));
    gives(outer, &due, &[(6, "Jmp 0 255 250 @21")]);

    let due = [
        "Test 0 0 0 @20",
        "Jmp 0 0 7 @20",
        "Test 0 0 0 @30",
        "Jmp 0 0 3 @30",
        "Jmp 0 0 1 @31",
        "Jmp 0 255 253 @30",
        "Jmp 0 255 250 @21",
        "Jmp 0 255 249 @20",
    ];
    let inner = for_(30, None, a(), a(), continue_(31));
    gives(while_(20, a(), block(vec![inner, continue_(21)])), &due, &[(4, "Jmp 0 255 254 @31")]);
}

/// From the body of a try and from its catch.
#[test]
fn a_try_in_a_for() {
    let due = [
        "Test 0 0 0 @20",
        "Jmp 0 0 10 @20",
        "RegisterTryCatch 0 0 4 @-",
        "Jmp 0 0 6 @21",
        "DeregisterTryCatch 0 0 0 @-",
        "Jmp 0 0 4 @-",
        "GetExcept 1 0 0 @30",
        "DeregisterTryCatch 0 0 0 @-",
        "Jmp 0 0 1 @31",
        "Neg 0 0 0 @22",
        "Jmp 0 255 246 @20",
    ];
    let body = try_(continue_(21), (11, 30), continue_(31));
    let zero = [(3, "Jmp 0 255 253 @21"), (8, "Jmp 0 255 248 @31")];
    gives(for_(20, None, a(), unary(2, 22, a()), body), &due, &zero);
}

/// From an if, and in a loop of a function within a loop.
#[test]
fn an_if_and_a_function_in_a_for() {
    let due = [
        "Test 0 0 0 @20",
        "Jmp 0 0 7 @20",
        "Test 0 0 0 @23",
        "Jmp 0 0 3 @23",
        "Jmp 0 0 2 @21",
        "Jmp 0 0 1 @23",
        "Neg 0 0 0 @22",
        "Jmp 0 255 249 @20",
    ];
    let body = if_(23, a(), vec![continue_(21)], vec![], vec![]);
    gives(for_(20, None, a(), unary(2, 22, a()), body), &due, &[(4, "Jmp 0 255 252 @21")]);

    // the function's own continue is no jump of the loop around it
    let inner = for_(30, None, one(), one(), continue_(31));
    let outer = for_(20, None, a(), a(), expression(function(&[], vec![inner])));
    let tree = post(&program(vec![block(vec![let_((A, 1), Some(one())), outer])]));
    let image = Image::from_bytes(&ask_in(1, tree, Work::Exact, Room::Exact).image).unwrap();
    let lines: Vec<String> = image.prototypes[0].instructions.iter().map(line).collect();
    assert_eq!(lines[..5], ["LoadK 1 0 1", "Test 1 1 0", "Jmp 0 0 4", "Jmp 0 0 1", "LoadK 2 0 2"]);
}

/// Over 255 and 256 instructions: the high byte.
#[test]
fn far() {
    for n in [0, 1, 253, 254, 255, 256, 511, 512, 20_000] {
        let code_behind = (0..n).map(|_| return_(22, None));
        let body = block([continue_(21)].into_iter().chain(code_behind).collect());
        let lines = code(1, for_(20, None, a(), unary(2, 23, a()), body));
        assert_eq!(lines[2], format!("Jmp 0 {} {} @21", (n + 1) / 256, (n + 1) % 256));
        assert_eq!(lines[2 + n + 1], "Neg 0 0 0 @23");
    }
}

#[test]
fn other_modes_are_refused_before_anything() {
    let continues = post(&program(vec![while_(1, one(), continue_(2))]));
    let broken = [0x16, 0, 2];
    let trees: [&[u8]; 4] = [&continues, &broken, &[], &[0x12, 0, 0].repeat(32_769)];
    for mode in [2, 3, 256, 257, 1 << 32, (1 << 32) + 1, (1 << 63) + 1, u64::MAX - 1, u64::MAX] {
        for tree in trees {
            for (work, room) in [(0, 0), (0, 1000), (1_000_000, 0), (1_000_000, 1000)] {
                let (answer, image) = answer(tree, mode, work, room);
                assert_eq!((answer.numbers(), image.len()), ([21, 0, 0, 0], 0), "mode {mode}");
            }
        }
    }
    for mode in [0, 1] {
        assert_eq!(answer(&continues, mode, 1_000_000, 1000).0.number, 0);
        assert_eq!(answer(&broken, mode, 0, 0).0.numbers(), [1, 0, 0, 0]);
    }
}

/// In no mode nothing else is ever answered, whatever the tree and the buffers are.
#[test]
fn the_questions_of_no_mode() {
    let (mut empty, mut lent_nothing, mut low) = (0, 0, 0);
    for k in 0..2000 {
        let asked = questions::no_mode(5, k).ask();
        assert_eq!(asked.answer.numbers(), [21, 0, 0, 0]);
        empty += u32::from(asked.tree.is_empty());
        lent_nothing += u32::from(asked.work == 0 && asked.room == 0);
        low += u32::from(asked.mode as u32 <= 1);
    }
    assert!(empty > 100 && lent_nothing > 100 && low > 100, "{empty} {lent_nothing} {low}");
}

/// How many jumps differ between the modes, of an accepted tree without classes; a refused one is refused alike.
fn shared(tree: Vec<u8>, work: Work, room: Room) -> usize {
    if modes::has_class(&tree) {
        return 0;
    }
    let [zero, one] = [0, 1].map(|mode| ask_in(mode, tree.clone(), work, room));
    assert_eq!(zero.answer, one.answer);
    let marked = modes::remarked(&tree).map_or(zero.image.clone(), |tree| ask_in(1, tree, work, room).image);
    modes::shared(&zero.image, &one.image, &marked).unwrap_or_else(|fault| panic!("{fault}"))
}

#[test]
fn both_modes_differ_in_continues_alone() {
    let mut differ = [0, 0];
    for k in 0..12_000 {
        let question = questions::random(21, k, k % 2);
        differ[(k % 2) as usize] += usize::from(shared(question.tree, question.work, question.room) > 0);
    }
    // many of the trees of mode 1 have such continues, few of mode 0's
    assert!(differ[0] > 200 && differ[1] > 2000, "{differ:?} of 6,000 trees each");
    for case in cases() {
        shared(case.rule.expand(), case.work, case.room);
    }
}

/// Images that differ elsewhere, or in a Jmp that is no continue's.
#[test]
fn other_differences_are_found() {
    let body = block(vec![continue_(21), break_(22), while_(23, a(), continue_(24))]);
    let tree =
        post(&program(vec![block(vec![let_((A, 1), Some(one())), for_(20, None, a(), unary(2, 22, a()), body)])]));
    let image = |tree: &[u8], mode| ask_in(mode, tree.to_vec(), Work::Exact, Room::Exact).image;
    let [zero, one] = [0, 1].map(|mode| image(&tree, mode));
    let marked = image(&modes::remarked(&tree).unwrap(), 0);
    assert_eq!(modes::shared(&zero, &one, &marked), Ok(1));
    let distance = |instruction: usize| 13 + 9 * instruction + 5;
    assert!(zero[distance(3)..][..2] != one[distance(3)..][..2], "instruction 3 is the for's continue");
    for at in (0..one.len()).filter(|at| ![distance(3), distance(3) + 1].contains(at)) {
        let mut changed = one.clone();
        changed[at] ^= 1;
        assert!(modes::shared(&zero, &changed, &marked).is_err(), "byte {at}");
    }
    // the right places, and the wrong way
    assert!(modes::shared(&one, &zero, &marked).is_err());
}

/// Where the continues of the trees of mode 1 stand: in a for, a for-in, a while, in a loop within a loop, and behind an if, a try or a function.
#[test]
fn the_continues_of_mode_1() {
    let mut found = [0; 7];
    for k in 0..2000 {
        let mut rng = Rng::for_case(44, k);
        let taste = Taste { loops: true, mischief: 0, ..Taste::any(&mut rng, 100) };
        visit(&random::program(&mut rng, taste), &mut vec![], &mut found);
    }
    assert!(found.iter().all(|n| *n > 200), "{found:?}");
}

fn visit(node: &Node, around: &mut Vec<u8>, found: &mut [u32; 7]) {
    if node.tag == 0x17 {
        let of_function = around.iter().rev().take_while(|tag| ![0x09, 0x1C].contains(tag));
        let of_loop: Vec<u8> = of_function.clone().copied().take_while(|tag| !(0x13..=0x15).contains(tag)).collect();
        let loops: Vec<u8> = of_function.copied().filter(|tag| (0x13..=0x15).contains(tag)).collect();
        let kinds = [
            loops[0] == 0x13,
            loops[0] == 0x14,
            loops[0] == 0x15,
            loops.len() > 1,
            of_loop.contains(&0x19),
            of_loop.contains(&0x1B),
            around.iter().any(|tag| [0x09, 0x1C].contains(tag)),
        ];
        found.iter_mut().zip(kinds).for_each(|(n, is)| *n += u32::from(is));
    }
    around.push(node.tag);
    node.children().for_each(|child| visit(child, around, found));
    around.pop();
}

/// Where continues go in the trees of mode 1: back in a while, to a for-in's Addi, to the backward Jmp, to an increment.
#[test]
fn the_trees_of_mode_1() {
    let (mut far, mut ahead, mut accepted) = (0, [0; 4], 0);
    for k in 0..4000 {
        let asked = questions::random(33, k, 1).ask();
        let Ok(image) = Image::from_bytes(&asked.image) else { continue };
        accepted += u32::from(asked.answer.number == 0);
        let Some(tree) = modes::remarked(&asked.tree) else { continue };
        let Ok(marked) = Image::from_bytes(&ask_in(1, tree, Work::Exact, Room::Exact).image) else { continue };
        for (p, q) in image.prototypes.iter().zip(&marked.prototypes) {
            for (at, (i, j)) in p.instructions.iter().zip(&q.instructions).enumerate() {
                if i.mark == j.mark || !line(i).starts_with("Jmp") {
                    continue;
                }
                let to = (at as isize + i.sbx()) as usize;
                let kind = match line(&p.instructions[to]) {
                    _ if i.sbx() < 0 => 0,
                    line if line.starts_with("Addi") => 1,
                    line if line.starts_with("Jmp") => 2,
                    _ => 3,
                };
                ahead[kind] += 1;
                far += u32::from(i.sbx() > 255);
            }
        }
    }
    assert!(ahead.iter().all(|n| *n > 300) && far > 0 && accepted > 3000, "{ahead:?} {far} {accepted}");
}
