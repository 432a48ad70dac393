//! What the generator reaches: every tag, op, opcode and refusal, and orders other than post order.
use files::image::Image;
use files::opcodes::is_written;
use files::tree::{fields, Field};
use files::NONE;
use oracle::limits::{ask, heavy_cases, Room, Work};
use oracle::rng::Rng;
use oracle::trees::order::post;
use oracle::trees::script::script;
use oracle::{compare, questions};

struct Seen {
    numbers: [u64; 19],
    opcodes: [u64; 51],
    tags: [u64; 31],
    ops: [[u64; 13]; 3],
    absent: [u64; 2],
    outer_captures: u64,
    out_of_order: u64,
}

impl Seen {
    fn accepted(&mut self, nodes: &[Field], image: &[u8]) {
        for (at, node) in nodes.iter().enumerate() {
            self.tags[usize::from(node.tag)] += 1;
            match node.tag {
                5..=7 => self.ops[usize::from(node.tag) - 5][usize::from(node.word(0))] += 1,
                0x10 => self.out_of_order += u64::from(usize::from(node.word(0)) + 1 != at),
                0x14 => self.absent[0] += u64::from(node.word(1) == NONE),
                0x1D => self.absent[1] += u64::from(node.word(2) == NONE),
                _ => {}
            }
        }
        for p in Image::from_bytes(image).unwrap().prototypes {
            self.outer_captures += p.captures.iter().filter(|c| !c.local).count() as u64;
            p.instructions.iter().for_each(|i| self.opcodes[usize::from(i.opcode)] += 1);
        }
    }
}

#[test]
fn random_trees_reach_everything() {
    let mut seen = Seen {
        numbers: [0; 19],
        opcodes: [0; 51],
        tags: [0; 31],
        ops: [[0; 13]; 3],
        absent: [0; 2],
        outer_captures: 0,
        out_of_order: 0,
    };
    let count = 15_000;
    for k in 0..count {
        let asked = questions::random(99, k, 0).ask();
        seen.numbers[usize::from(asked.answer.number)] += 1;
        if asked.answer.number == 0 {
            seen.accepted(&fields(&asked.tree).unwrap(), &asked.image);
        }
    }
    let numbers = seen.numbers;
    assert!(numbers[0] > count * 8 / 10, "{numbers:?}");
    assert!(numbers[5..].iter().all(|n| *n > 0), "{numbers:?}");
    for (opcode, times) in seen.opcodes.iter().enumerate() {
        assert_eq!(*times > 0, is_written(opcode as u8), "{opcode}");
    }
    assert!((1..=9).chain(0x10..=0x1E).all(|tag| seen.tags[tag] > 0), "{:?}", seen.tags);
    for (ops, most) in seen.ops.iter().zip([2, 12, 2]) {
        assert!(ops[1..=most].iter().all(|n| *n > 0), "{ops:?}");
    }
    assert!(seen.absent.iter().all(|n| *n > 0) && seen.outer_captures > 100 && seen.out_of_order > 10_000);
}

#[test]
fn damaged_files_are_of_every_kind() {
    let mut numbers = [0; 19];
    for k in 0..10_000 {
        numbers[usize::from(questions::damaged(99, k, 0).ask().answer.number)] += 1;
    }
    assert!([0, 1, 3, 4, 6, 9, 18].iter().all(|n| numbers[*n] > 10), "{numbers:?}");
}

#[test]
fn scripts_are_accepted() {
    for nodes in [1000, 3000, 10_000, 30_000, 32_000] {
        let tree = script(&mut Rng::new(nodes as u64), nodes);
        assert!(tree.size() * 10 > nodes * 9 && tree.size() <= 32_768, "{} for {nodes}", tree.size());
        assert_eq!(ask(post(&tree), Work::Exact, Room::Exact).answer.number, 0, "{nodes}");
    }
}

#[test]
fn heavy_trees_agree_with_the_unchanged_source() {
    for case in heavy_cases() {
        let asked = case.ask();
        assert!([0, 7, 14, 15].contains(&asked.answer.number), "{}: {}", case.name, asked.answer);
        (0..2).for_each(|mode| assert!(compare::in_process(&asked.tree, mode).is_ok()));
    }
}
