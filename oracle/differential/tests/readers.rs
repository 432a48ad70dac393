//! The runner finds nothing wrong with a right reader, and finds each of these wrong ones.
use differential::calls::{Lower, Read};
use differential::run::{run, Plan, Report};
use files::image::{Image, Instruction, Prototype};
use files::opcodes::{is_written, opcode};
use files::tree::{fields, Field};
use oracle::images::build::{bare, end, ins, texts};
use oracle::reading::numbers;
use standin::{yengrazul_lower, yengrazul_read};
use std::slice::{from_raw_parts, from_raw_parts_mut};

fn runs(read: Read, lower: Option<Lower>, images: u64, fixed: bool) -> Report {
    let (random, meeting) = if lower.is_some() { (300, 20) } else { (0, 0) };
    run(&Plan { random, meeting, images, fixed, lower, read: Some(read), ..Plan::nothing(5) })
}

#[test]
fn a_right_reader() {
    let report = runs(yengrazul_read, None, 20_000, true);
    assert_eq!(report.differences, Vec::<String>::new());
    assert!(report.total() > 110_000, "{}", report.total());
    assert_eq!(report.by_number.iter().filter(|n| **n > 0).count(), 3, "{:?}", report.by_number);
}

#[test]
fn what_is_lowered_is_read_back() {
    let report = runs(yengrazul_read, Some(yengrazul_lower), 0, false);
    assert_eq!((report.total(), report.differences), (640, vec![]));
    unsafe extern "C" fn refuses_long_ones(image: *const u8, n: usize, answer: *mut u64) {
        yengrazul_read(image, n, answer);
        if n > 2000 {
            *answer = 20;
        }
    }
    assert!(!runs(refuses_long_ones, Some(yengrazul_lower), 0, false).differences.is_empty());
}

/// A wrong reader: what the right one says, made into something else.
macro_rules! wrong {
    ($name:ident, |$image:ident, $due:ident| $other:expr) => {
        #[test]
        fn $name() {
            unsafe extern "C" fn wrong(image: *const u8, n: usize, answer: *mut u64) {
                #[allow(unused_variables)]
                let $image = from_raw_parts(image, n);
                let $due = numbers($image);
                let other: [u64; 2] = $other;
                from_raw_parts_mut(answer, 2).copy_from_slice(&other);
            }
            assert!(!runs(wrong, None, 4000, true).differences.is_empty());
        }
    };
}

/// Taken where the image would be after an edit that makes one fault right.
fn taken_if(image: &[u8], due: [u64; 2], edit: impl Fn(&mut Image)) -> [u64; 2] {
    let Ok(mut other) = Image::from_bytes(image) else { return due };
    edit(&mut other);
    if numbers(&other.to_bytes()) == [0, 0] {
        [0, 0]
    } else {
        due
    }
}

fn each_instruction(image: &mut Image, edit: impl Fn(usize, &mut Instruction)) {
    for (own, prototype) in image.prototypes.iter_mut().enumerate() {
        prototype.instructions.iter_mut().for_each(|i| edit(own, i));
    }
}

fn each_prototype(image: &mut Image, edit: impl Fn(&mut Prototype)) {
    image.prototypes.iter_mut().for_each(edit);
}

/// The fields of opcodes that the lowering does not write.
fn unwritten(fields: &[Field]) -> Vec<u64> {
    let is = |f: &Field| f.tag == 0x43 && f.payload.len() == 6 && !is_written(f.payload[0]);
    fields.iter().enumerate().filter(|(_, f)| is(f)).map(|(place, _)| place as u64).collect()
}

wrong!(the_frame_s_place_one_off, |image, due| if due[0] == 19 { [19, due[1] + 1] } else { due });
wrong!(the_frame_s_place_0, |image, due| if due[0] == 19 { [19, 0] } else { due });
wrong!(no_bytes_taken, |image, due| if image.is_empty() { [0, 0] } else { due });
wrong!(a_field_of_the_rule_one_off, |image, due| if due[0] == 20 { [20, due[1] + 1] } else { due });
wrong!(the_end_too_soon_at_the_last_field, |image, due| match fields(image) {
    Ok(all) if due == [20, all.len() as u64] => [20, due[1] - 1],
    _ => due,
});
wrong!(a_step_one_beyond_the_end, |image, due| taken_if(image, due, |i| each_prototype(i, |p| p
    .instructions
    .push(end()))));
wrong!(a_closure_of_itself, |image, due| taken_if(image, due, |i| each_instruction(i, |own, i| {
    if i.opcode == opcode("Closure") && i.bx() == own {
        *i = ins("LoadNil", i.a, 0, 0);
    }
})));
wrong!(a_closure_of_a_later_one, |image, due| taken_if(image, due, |i| each_instruction(i, |own, i| {
    if i.opcode == opcode("Closure") && i.bx() > own {
        *i = ins("LoadNil", i.a, 0, 0);
    }
})));
wrong!(the_exception_for_the_first_too, |image, due| taken_if(image, due, |i| each_prototype(i, |p| {
    let first = &mut p.instructions[0];
    if p.registers == 0 && first.opcode == opcode("Return") && first.a == 0 {
        first.b = 0;
    }
})));
wrong!(the_exception_where_it_is_entered, |image, due| taken_if(image, due, |i| each_prototype(i, |p| {
    let without = p.registers == 0;
    let value = p.instructions.iter_mut().skip(1).filter(|i| without && i.opcode == opcode("Return") && i.a == 0);
    value.for_each(|i| i.b = 0);
})));
wrong!(no_exception, |image, due| match Image::from_bytes(image) {
    Ok(i)
        if i.prototypes
            .iter()
            .any(|p| p.registers == 0 && p.instructions.iter().any(|i| i.opcode == 20 && i.b > 0)) =>
        [20, 1],
    _ => due,
});
wrong!(the_exception_for_any_register, |image, due| taken_if(image, due, |i| each_prototype(i, |p| {
    if p.registers == 0 {
        p.instructions.iter_mut().filter(|i| i.opcode == opcode("Return")).for_each(|i| i.a = 0);
    }
})));
wrong!(a_1_025th_constant, |image, due| taken_if(image, due, |i| i
    .constants
    .truncate(i.constants.len().min(1025).max(1) - 1)));
wrong!(a_257th_prototype, |image, due| taken_if(image, due, |i| i.prototypes.truncate(256)));
wrong!(any_a_in_a_jump, |image, due| taken_if(image, due, |i| each_instruction(i, |_, i| {
    if i.opcode == opcode("Jmp") {
        i.a = 0;
    }
})));
wrong!(registers_that_wrap, |image, due| taken_if(image, due, |i| each_instruction(i, |_, i| {
    if i.opcode == opcode("Call") && i.b > 0 && u16::from(i.a) + u16::from(i.b) > 256 {
        i.b = 1;
    }
})));
wrong!(a_capture_that_nothing_closes, |image, due| match Image::from_bytes(image) {
    Ok(i) if due == [0, 0] && i.prototypes.len() > 1 && i.prototypes[0].captures.iter().any(|c| c.index == 255) =>
        [20, 1],
    _ => due,
});
wrong!(a_number_where_a_name_is_due, |image, due| taken_if(image, due, |i| i.constants = texts(i.constants.len())));
wrong!(a_taken_image_with_a_place, |image, due| if due == [0, 0] { [0, 1] } else { due });
wrong!(a_capture_s_fault_at_the_capture, |image, due| match Image::from_bytes(image) {
    Ok(i)
        if due[0] == 20
            && fields(image).is_ok_and(|all| due[1] < all.len() as u64 && all[due[1] as usize].payload[0] == 23) =>
    {
        // told at the first capture there is
        let before =
            i.prototypes.iter().take_while(|p| p.captures.is_empty()).map(|p| 1 + p.instructions.len()).sum::<usize>();
        [20, before as u64 + 1]
    }
    _ => due,
});
wrong!(facts_before_order, |image, due| match fields(image).map(|all| unwritten(&all)) {
    Ok(places) if due[0] == 20 && places.first().is_some_and(|place| *place < due[1]) => [20, places[0]],
    _ => due,
});
wrong!(the_highest_fault, |image, due| match fields(image).map(|all| unwritten(&all)) {
    Ok(places) if due[0] == 20 && places.contains(&due[1]) => [20, *places.last().unwrap()],
    _ => due,
});
wrong!(an_opcode_that_is_named_and_never_written, |image, due| taken_if(image, due, |i| each_instruction(
    i,
    |_, i| {
        if i.opcode == opcode("Subi") {
            i.opcode = opcode("Addi");
        }
    }
)));
wrong!(a_prototype_without_instructions, |image, due| taken_if(image, due, |i| each_prototype(i, |p| {
    if p.instructions.is_empty() {
        *p = bare();
    }
})));

#[test]
fn what_is_not_its_own() {
    unsafe extern "C" fn nothing(_: *const u8, _: usize, _: *mut u64) {}
    unsafe extern "C" fn the_image(image: *const u8, n: usize, answer: *mut u64) {
        yengrazul_read(image, n, answer);
        if n > 0 {
            *(image as *mut u8).add(n - 1) ^= 1;
        }
    }
    unsafe extern "C" fn behind_the_image(image: *const u8, n: usize, answer: *mut u64) {
        yengrazul_read(image, n, answer);
        *(image as *mut u8).add(n) ^= 1;
    }
    unsafe extern "C" fn behind_the_answer(image: *const u8, n: usize, answer: *mut u64) {
        yengrazul_read(image, n, answer);
        *answer.add(2) ^= 1;
    }
    for wrong in [nothing as Read, the_image, behind_the_image, behind_the_answer] {
        assert!(!runs(wrong, None, 50, false).differences.is_empty());
    }
}
