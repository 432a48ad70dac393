//! The checker of demand 3: takes what the lowering writes, and refuses images broken by hand.
use files::image::{Capture, Constant, Image, Instruction, Prototype};
use files::opcodes::opcode;
use oracle::facts::{check, check_bytes};
use oracle::limits::{ask, cases, zoo, Room, Work};
use oracle::questions;
use oracle::trees::order::post;

#[test]
fn every_accepted_image_has_the_facts() {
    let random = (0..6000).map(|k| questions::random(11, k, k % 2).ask());
    let mut n = 0;
    for asked in cases().iter().map(|c| c.ask()).chain(random) {
        if asked.answer.number == 0 {
            n += 1;
            check_bytes(&asked.image).unwrap_or_else(|fault| panic!("{fault}"));
        }
    }
    assert!(n > 6000, "{n} images");
}

/// The high bit of one byte changed: names, marks and numbers may be anything, most other bytes may not.
#[test]
fn changed_bytes_are_often_refused() {
    let bytes = ask(post(&zoo()), Work::Exact, Room::Exact).image;
    let refused = (0..bytes.len()).filter(|at| {
        let mut changed = bytes.clone();
        changed[*at] ^= 0x80;
        check_bytes(&changed).is_err()
    });
    assert!(refused.count() > bytes.len() / 3);
}

fn i(name: &str, a: u8, b: u8, c: u8) -> Instruction {
    Instruction { opcode: opcode(name), a, b, c, mark: None }
}

fn prototype(registers: u16, captures: Vec<Capture>, mut instructions: Vec<Instruction>) -> Prototype {
    instructions.push(i("Return", 0, 0, 0));
    Prototype { name: 65_535, parameters: 0, registers, captures, instructions }
}

/// A main prototype of three registers behind one that captures register 2, with a text and a number.
fn image(main: Vec<Instruction>) -> Image {
    let captures = vec![Capture { local: true, index: 2 }];
    Image {
        wide: false,
        prototypes: vec![prototype(1, captures, vec![i("GetUpval", 0, 0, 0)]), prototype(3, vec![], main)],
        constants: vec![Constant::Text(9), Constant::Number(0)],
    }
}

#[test]
fn good_by_hand() {
    let good = [
        vec![],
        vec![i("Jmp", 0, 0, 1)],
        vec![i("Jmp", 0, 0, 0)],
        vec![i("Test", 2, 2, 0), i("Jmp", 0, 255, 255)],
        vec![i("RegisterTryCatch", 0, 0, 1)],
        vec![i("Call", 0, 2, 3)],
        vec![i("Call", 0, 1, 1)],
        vec![i("Return", 200, 0, 0)],
        vec![i("LoadK", 2, 0, 1), i("SetGlobal", 2, 0, 0), i("GetBuiltin", 1, 0, 0)],
        vec![i("Closure", 0, 0, 0)],
        vec![i("Addi", 2, 2, 255), i("GetIteri", 0, 1, 200), i("DeregisterTryCatch", 9, 9, 9)],
    ];
    for code in good {
        assert_eq!(check(&image(code.clone())), Ok(()), "{code:?}");
    }
}

#[test]
fn broken_by_hand() {
    let broken = [
        ("jumps past the end", vec![i("Jmp", 0, 0, 2)]),
        ("jumps before the start", vec![i("Jmp", 0, 255, 255)]),
        ("an unpatched break", vec![i("Jmp", 2, 0, 0)]),
        ("a test at the end", vec![i("Test", 0, 0, 0)]),
        ("a handler past the end", vec![i("RegisterTryCatch", 0, 0, 2)]),
        ("a handler far away", vec![i("RegisterTryCatch", 0, 1, 1)]),
        ("register 3 as a", vec![i("LoadK", 3, 0, 0)]),
        ("register 3 as b", vec![i("Move", 0, 3, 0)]),
        ("register 3 as c", vec![i("Neq", 0, 0, 3)]),
        ("register 3 of a class", vec![i("ClassStMeth", 0, 0, 3)]),
        ("register 3 returned", vec![i("Return", 3, 5, 0)]),
        ("a call of register 3", vec![i("Call", 3, 1, 1)]),
        ("an argument in register 3", vec![i("Call", 0, 4, 1)]),
        ("a result in register 3", vec![i("Call", 0, 1, 4)]),
        ("a call with b 0", vec![i("Call", 0, 0, 1)]),
        ("a call with c 0", vec![i("Call", 0, 1, 0)]),
        ("constant 2", vec![i("LoadK", 0, 0, 2)]),
        ("a number where a name is due", vec![i("GetGlobal", 0, 0, 1)]),
        ("a number where a name is set", vec![i("SetGlobal", 0, 0, 1)]),
        ("a number where a builtin is due", vec![i("GetBuiltin", 0, 0, 1)]),
        ("no name", vec![i("GetGlobal", 0, 0, 2)]),
        ("a capture that main lacks", vec![i("GetUpval", 0, 0, 0)]),
        ("a closure of itself", vec![i("Closure", 0, 0, 1)]),
        ("a closure of none", vec![i("Closure", 0, 1, 0)]),
        ("no opcode", vec![Instruction { opcode: 51, a: 0, b: 0, c: 0, mark: Some(0) }]),
    ];
    for (name, code) in broken {
        assert!(check(&image(code)).is_err(), "{name}");
    }
}

#[test]
fn broken_prototypes() {
    let mut no_return = image(vec![]);
    no_return.prototypes[1].instructions = vec![i("Move", 0, 0, 0)];
    let mut nothing = image(vec![]);
    nothing.prototypes[1].instructions.clear();
    let mut narrow = image(vec![i("Closure", 0, 0, 0)]);
    narrow.prototypes[1].registers = 2;
    let mut captured = image(vec![i("Closure", 0, 0, 0)]);
    captured.prototypes[0].captures[0] = Capture { local: false, index: 0 };
    for broken in [no_return, nothing, narrow, captured, Image::default()] {
        assert!(check(&broken).is_err());
    }
}

/// Each way in which the last instruction can miss `Return 0 0 0`, and no other fault with it.
#[test]
fn the_last_instruction_is_return_0_0_0() {
    let last = |i: Instruction| {
        let mut image = image(vec![]);
        *image.prototypes[1].instructions.last_mut().unwrap() = i;
        check(&image)
    };
    assert_eq!(last(i("Return", 0, 0, 0)), Ok(()));
    for wrong in [i("Return", 0, 2, 0), i("Return", 1, 0, 0), i("Return", 0, 0, 1), i("Jmp", 0, 0, 0)] {
        let fault = last(wrong).expect_err("a fault");
        assert!(fault.contains("the last instruction is not Return 0 0 0"), "{wrong:?}: {fault}");
    }
}

#[test]
fn no_prototype_is_over_32_767_instructions() {
    let of = |n: usize| check(&image(vec![i("Move", 0, 0, 0); n - 1]));
    assert_eq!(of(32_767), Ok(()));
    let fault = of(32_768).expect_err("a fault");
    assert!(fault.contains("32768 instructions, over 32767"), "{fault}");
}
