//! Wide marks (02, E5): by hand, against the unchanged source, and beside the narrow tree of each wide one.
use files::image::Image;
use files::listing::line;
use files::tree::{fields, is_wide};
use oracle::answer::answer;
use oracle::compare::{end_due, fits, in_process, Outcome};
use oracle::limits::{ask, ask_in, wide_zoo, zoo, Asked, Room, Work};
use oracle::questions::{self, Question};
use oracle::reading::{numbers, read};
use oracle::trees::build::*;
use oracle::trees::order::post;
use oracle::trees::values::WIDE_MARKS;
use oracle::trees::width::{folded, kept, narrowed, same_but_for_marks, widened};
use oracle::{judge, modes};
use std::process::{Command, Stdio};

fn asked(tree: Vec<u8>) -> Asked {
    ask(tree, Work::Exact, Room::Exact)
}

/// Instructions of prototype k with their marks, `-` for none.
fn marked(image: &[u8], k: usize) -> Vec<String> {
    let image = Image::from_bytes(image).unwrap();
    let mark = |m: Option<u32>| m.map_or("-".into(), |m| m.to_string());
    image.prototypes[k].instructions.iter().map(|i| format!("{} @{}", line(i), mark(i.mark))).collect()
}

#[test]
fn the_empty_program() {
    let due = [0x41, 0, 10, 255, 255, 0, 0, 0, 0, 0, 0, 0, 1, 0x47, 0, 8, 20, 0, 0, 0, 255, 255, 255, 255];
    for mode in 0..2 {
        let asked = ask_in(mode, vec![0x3E, 0, 0], Work::Exact, Room::Exact);
        assert_eq!((asked.answer.numbers(), &asked.image[..]), ([0, 0, 24, 1], &due[..]));
    }
    // one byte less, one word less
    assert_eq!(ask(vec![0x3E, 0, 0], Work::Exact, Room::Bytes(23)).answer.numbers(), [18, 0, 0, 0]);
    assert_eq!(ask(vec![0x3E, 0, 0], Work::Words(12_303), Room::Exact).answer.numbers(), [6, 0, 0, 0]);
    assert_eq!(ask(vec![0x3E, 0, 0], Work::Words(12_304), Room::Exact).answer.number, 0);
}

/// Every mark of every kind, by its bytes: those that two bytes have too, and the absent one of either width.
#[test]
fn marks_keep_their_bits() {
    for mark in WIDE_MARKS {
        let [a, b, c, d] = mark.to_be_bytes();
        let image = asked(vec![0x18, 0, 4, a, b, c, d, 0x3E, 0, 2, 0, 0]).image;
        assert_eq!(image[13..], [0x47, 0, 8, 20, 0, 0, 0, a, b, c, d, 0x47, 0, 8, 20, 0, 0, 0, 255, 255, 255, 255]);
        assert_eq!(read(&image).unwrap().prototypes[0].instructions[0].mark, (mark != u32::MAX).then_some(mark));
    }
    // 65,535 is none in two bytes, and a mark like any other in four
    assert_eq!(marked(&asked(vec![0x18, 0, 2, 255, 255, 0x1E, 0, 2, 0, 0]).image, 0)[0], "Return 0 0 0 @-");
    let wide = asked(vec![0x18, 0, 4, 0, 0, 255, 255, 0x3E, 0, 2, 0, 0]).image;
    assert_eq!(marked(&wide, 0)[0], "Return 0 0 0 @65535");
}

/// Where the marks stand in each payload: another mark at each place shows in the image.
#[test]
fn marks_of_every_form() {
    let a = || variable((10, 1));
    let tree = post(&program(vec![
        block(vec![
            let_((10, 2), Some(number(0.5))),
            expression(unary(1, 3, a())),
            expression(logical(1, 4, a(), a())),
            while_(
                5,
                a(),
                if_(6, a(), vec![break_(7)], vec![elif(a(), vec![continue_(8)])], vec![return_(9, Some(a()))]),
            ),
            for_in(11, a(), block(vec![]), &[(15, 12), (16, 13)]),
            try_(block(vec![]), (18, 14), block(vec![])),
        ]),
        function_statement(
            (20, 15),
            &[(21, 16), (22, 17)],
            vec![expression(binary(2, 18, variable((21, 19)), a_name()))],
        ),
    ]));
    let image = asked(widened(&tree, |mark| mark << 20).unwrap()).image;
    let times = |m: u32| m << 20;
    let f = ["GetCurrentFunc 0 0 0 @", "Lt 3 1 2 @", "Return 3 5 0 @", "Return 0 0 0 @-"];
    let due: Vec<String> =
        f.iter().zip([15, 18, 18]).map(|(l, m)| format!("{l}{}", times(m))).chain([f[3].into()]).collect();
    assert_eq!(marked(&image, 0), due);
    let main: Vec<(&str, u32)> = vec![
        ("LoadK 0 0 0", 0),
        ("Not 0 0 0", 3),
        ("Test 0 0 1", 4),
        ("Jmp 0 0 2", 4),
        ("Move 0 0 0", 4),
        ("Test 0 0 0", 5),
        ("Jmp 0 0 11", 5),
        ("Test 0 0 0", 6),
        ("Jmp 0 0 3", 6),
        ("Jmp 0 0 8", 7),
        ("Jmp 0 0 6", 6),
        ("Test 0 0 0", 0),
        ("Jmp 0 0 3", 0),
        ("Jmp 0 255 248", 8),
        ("Jmp 0 0 2", 0),
        ("Return 0 2 0", 9),
        ("Jmp 0 255 245", 5),
    ];
    let due: Vec<String> =
        main.iter().map(|(l, m)| if *m == 0 { format!("{l} @-") } else { format!("{l} @{}", times(*m)) }).collect();
    assert_eq!(marked(&image, 1)[..due.len()], due);
    let rest: Vec<String> =
        marked(&image, 1)[due.len()..].iter().map(|l| l.split('@').nth(1).unwrap().to_string()).collect();
    let marks: Vec<u32> = [vec![11; 10], vec![0, 0, 0, 14, 0], vec![15, 15, 0]].concat();
    let due: Vec<String> = marks.iter().map(|m| if *m == 0 { "-".into() } else { times(*m).to_string() }).collect();
    assert_eq!(rest, due);
}

fn a_name() -> Node {
    variable((22, 20))
}

/// The tree with every tag: the wide image is the narrow one, its marks as they were changed.
#[test]
fn the_zoo_of_both_widths() {
    for (tree, change) in [(wide_zoo(), 3 << 16), (widened(&post(&zoo()), kept).unwrap(), 0)] {
        let mut image = Image::from_bytes(&asked(post(&zoo())).image).unwrap();
        image.wide = true;
        let code = image.prototypes.iter_mut().flat_map(|p| &mut p.instructions);
        code.for_each(|i| i.mark = i.mark.map(|mark| change | mark));
        assert_eq!(asked(tree).image, image.to_bytes());
    }
}

/// The bytes of each payload, as document 02 and its readings have them.
#[test]
fn lengths_of_payloads() {
    let wide = wide_zoo();
    let mut seen = [0; 256];
    for field in fields(&wide).unwrap() {
        let n = field.payload.len();
        let k = |at: usize| usize::from(field.word(at));
        let fits = match field.tag {
            0x01 => n == 8,
            0x02 | 0x03 | 0x10 => n == 2,
            0x04 | 0x18 => n == 6 || n == 4 && field.tag == 0x18,
            0x05 => n == 8,
            0x06 | 0x07 | 0x1B => n == 10,
            0x08 => n == 6 + 2 * 2,
            0x09 => n == 2 + 6 * k(0) + 2 * 2,
            0x11 => n == 6 || n == 8,
            0x13 => n == 8,
            0x14 => n == 12,
            0x15 => n == 8 + 6 * 2,
            0x16 | 0x17 => n == 4,
            0x19 => n == 10 + 2 * (k(3) + k(4 + k(3)) + 1),
            0x1C => n == 8 + 6 * k(3) + 2,
            0x1D => n >= 10 && (n - 10) % 2 == 0,
            _ => n % 2 == 0,
        };
        assert!(fits, "{n} bytes of tag {:02X}", field.tag);
        seen[usize::from(field.tag)] += 1;
    }
    assert!((0x01..=0x09).chain(0x10..=0x1D).chain([0x3E]).all(|tag| seen[tag] > 0) && seen[0x1E] == 0);
}

/// A wide tree beside the one with its marks folded to two bytes: number, place and visits are the same, and the image but for its marks.
fn beside_its_narrow(question: Question, mode: u64) -> Asked {
    let work = question.work;
    let wide = ask_in(mode, question.tree, work, Room::Plenty);
    assert!(is_wide(&fields(&wide.tree).unwrap()));
    let tree = narrowed(&wide.tree, folded).expect("a shorter one");
    let narrow = ask_in(mode, tree, work, Room::Plenty);
    let told = |a: &Asked| (a.answer.number, a.answer.place, a.answer.visits);
    assert_eq!(told(&wide), told(&narrow));
    if wide.answer.number == 0 {
        same_but_for_marks(&wide.image, &narrow.image).unwrap_or_else(|fault| panic!("{fault}"));
        let code: u64 =
            Image::from_bytes(&wide.image).unwrap().prototypes.iter().map(|p| p.instructions.len() as u64).sum();
        assert_eq!(wide.answer.length, narrow.answer.length + 2 * code);
    }
    wide
}

type Make = fn(u64, u64, u64) -> Question;

/// Wide trees of every kind whose frame is whole and whose last field is 3E, shape and all, and the damaged where both widths break alike.
#[test]
fn narrowing_the_marks_changes_nothing_else() {
    let kinds: [(Make, u64); 5] = [
        (questions::random, 6000),
        (questions::small, 3000),
        (questions::meeting, 300),
        (questions::minuses, 60),
        (questions::classes, 1500),
    ];
    let mut seen = [0; 30];
    for (make, count) in kinds {
        for k in 0..count {
            let (mode, narrow) = (k % 2, make(31, k, k % 2));
            let well = judge::check(&narrow.tree, mode, u64::MAX).map_or_else(|r| r.number > 3, |_| true);
            if !well {
                continue;
            }
            let tree = questions::made_wide(&mut oracle::rng::Rng::for_case(31, k), &narrow.tree);
            let wide = beside_its_narrow(Question { tree, ..narrow }, mode);
            seen[usize::from(wide.answer.number)] += 1;
            assert_eq!(numbers(&wide.image)[0] == 0, wide.answer.number == 0);
        }
    }
    assert!((4..=17).chain([0, 27]).filter(|n| *n != 14).all(|n| seen[n] > 0) && seen[0] > 7000, "{seen:?}");
}

/// Back and forth is the same tree.
#[test]
fn widening_and_narrowing() {
    for k in 0..2000 {
        let narrow = questions::small(8, k, 0).tree;
        let wide = widened(&narrow, kept).unwrap();
        assert_eq!(narrowed(&wide, |mark| if mark == u32::MAX { 65_535 } else { mark }), Some(narrow));
    }
}

/// The traced copy against the source, unchanged and as mode 1 has it, on wide trees.
#[test]
fn the_source_agrees() {
    let mut compared = [0, 0];
    for mode in 0..2 {
        for k in 0..6000 {
            match in_process(&questions::wide(17, k, mode).tree, mode) {
                Ok(something) => compared[mode as usize] += u64::from(something),
                Err(fault) => panic!("case {k} in mode {mode}: {fault}"),
            }
        }
    }
    assert!(compared.iter().all(|n| *n > 3500), "{compared:?}");
}

/// The source's line has a sign: what it prints of a mark is the same 32 bits.
#[test]
fn lines_that_the_source_prints() {
    for (mark, line) in [(65_536, "65536"), (u32::MAX - 1, "-2"), (u32::MAX, "-1"), (0x8000_0000, "-2147483648")] {
        let tree = widened(&post(&program(vec![expression(variable((30, 9)))])), |_| mark).unwrap();
        let mut child = Command::new(env!("CARGO_BIN_EXE_oracle"))
            .args(["rust", "-"])
            .stdin(Stdio::piped())
            .stdout(Stdio::piped())
            .spawn()
            .expect("a child");
        std::io::Write::write_all(&mut child.stdin.take().unwrap(), &tree).unwrap();
        let text = String::from_utf8(child.wait_with_output().unwrap().stdout).unwrap();
        assert!(text.starts_with(&format!("Compilation Error on line {line}\n")), "{text}");
        let nodes = judge::check(&tree, 0, u64::MAX).unwrap();
        assert!(fits(&nodes, &end_due(&nodes, 0).unwrap(), &Outcome::parse(&text).unwrap()));
    }
}

/// What the wide questions of a run reach: every number, mixes of both widths, and images of both.
#[test]
fn wide_questions_reach_everything() {
    let (mut seen, mut last, mut wide_images) = ([0; 30], [0, 0, 0], 0);
    for k in 0..12_000 {
        let asked = questions::wide(3, k, k / 100 % 2).ask();
        seen[usize::from(asked.answer.number)] += 1;
        wide_images += u64::from(asked.image.get(13..).is_some_and(|rest| rest.contains(&0x47)));
        if let Ok(nodes) = fields(&asked.tree) {
            let kind = match nodes.last().map(|node| node.tag) {
                Some(0x3E) => 0,
                Some(0x1E) => 1,
                _ => 2,
            };
            last[kind] += 1;
        }
    }
    assert!((0..=18).filter(|n| ![2, 14].contains(n)).chain([27]).all(|n| seen[n] > 0), "{seen:?}");
    assert!(seen[0] > 6000 && seen[3] > 1000 && wide_images > 5000, "{seen:?}, {wide_images} wide images");
    assert!(last[0] > 8000 && last[1] > 400 && last[2] > 100, "{last:?}");
}

/// Mixed files: most are refused by 3, at the node of the other width or at the program.
#[test]
fn mixed_files() {
    let (mut seen, mut places) = ([0; 30], 0);
    for k in 0..3000 {
        let mut rng = oracle::rng::Rng::for_case(12, k);
        let narrow = questions::small(12, k, 0).tree;
        let tree = oracle::trees::width::mixed(&mut rng, &narrow);
        let told = answer(&tree, 0, u64::MAX, u64::MAX).0;
        seen[usize::from(told.number)] += 1;
        places += u64::from(told.number == 3 && told.place + 1 < fields(&tree).unwrap().len() as u64);
    }
    assert!(seen[3] > 2000 && seen[0] > 50 && places > 1500, "{seen:?} {places}");
}

/// Both modes share of a wide tree what they share of a narrow one.
#[test]
fn both_modes_of_wide_trees() {
    let mut differ = 0;
    for k in 0..3000 {
        let tree = questions::made_wide(&mut oracle::rng::Rng::for_case(5, k), &questions::small(5, k, 1).tree);
        if modes::has_class(&tree) {
            continue;
        }
        let [zero, one] = [0, 1].map(|mode| ask_in(mode, tree.clone(), Work::Exact, Room::Plenty));
        assert_eq!(zero.answer, one.answer);
        let marked =
            modes::remarked(&tree).map_or(zero.image.clone(), |tree| ask_in(1, tree, Work::Exact, Room::Plenty).image);
        differ += modes::shared(&zero.image, &one.image, &marked).unwrap_or_else(|fault| panic!("{fault}"));
    }
    assert!(differ > 1000, "{differ}");
}
