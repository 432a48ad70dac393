//! The runner finds nothing wrong with a right mender, and finds each of these wrong ones.
use differential::mends::Mend;
use differential::run::{run, Plan, Report};
use files::image::{Image, Instruction};
use files::opcodes::opcode;
use oracle::mending::{mend, Mended};
use oracle::reading::numbers;
use standin::yengrazul_mend;
use std::slice::{from_raw_parts, from_raw_parts_mut};

fn runs(function: Mend, mends: u64, fixed: bool) -> Report {
    run(&Plan { mends, fixed, mend: Some(function), ..Plan::nothing(5) })
}

#[test]
fn a_right_mender() {
    let report = runs(yengrazul_mend, 6000, true);
    assert_eq!(report.differences, Vec::<String>::new());
    assert!(report.total() > 9_000, "{}", report.total());
    assert!([0, 18, 19, 20, 26].iter().all(|n| report.by_number[*n] > 100), "{:?}", report.by_number);
}

/// A wrong mender: from what the right one leaves, something else. The bytes of output and list are those from before.
macro_rules! wrong {
    ($name:ident, |$image:ident, $out:ident, $list:ident, $due:ident| $other:expr) => {
        #[test]
        fn $name() {
            #[allow(unused_variables)]
            unsafe extern "C" fn wrong(
                i: *const u8,
                n: usize,
                o: *mut u8,
                on: usize,
                l: *mut u8,
                ln: usize,
                a: *mut u64,
            ) {
                let $image = from_raw_parts(i, n);
                let (out, list) = (from_raw_parts_mut(o, on), from_raw_parts_mut(l, ln));
                let ($out, $list) = (out.to_vec(), list.to_vec());
                #[allow(unused_mut)]
                let mut $due = mend($image, on, ln);
                let other: Mended = $other;
                out.copy_from_slice(&other.out);
                list.copy_from_slice(&other.list);
                from_raw_parts_mut(a, 4).copy_from_slice(&other.numbers);
            }
            // at random first, then by hand and of the source
            let mut found = !runs(wrong, 2000, false).differences.is_empty();
            found = found || !runs(wrong, 1, true).differences.is_empty();
            assert!(found);
        }
    };
}

fn refused(number: u64, place: u64, out: usize, list: usize) -> Mended {
    Mended { numbers: [number, place, 0, 0], out: vec![0; out], list: vec![0; list] }
}

/// The answer where the lent bytes suffice for anything.
fn at_large(image: &[u8]) -> Mended {
    mend(image, image.len(), image.len())
}

/// What is mended, with each listed instruction as `edit` has it: the new payload, from the new and the old.
fn each_listed(due: Mended, image: &[u8], edit: impl Fn(&mut [u8], &[u8])) -> Mended {
    let mut other = due;
    for at in 0..image.len().min(other.out.len()) {
        // an instruction's opcode is the fourth byte of its field: only listed ones changed theirs
        if image[at] == 3 && other.out[at] == 20 && at >= 3 && image[at - 3..at] == [0x43, 0, 6] {
            edit(&mut other.out[at..at + 6], &image[at..at + 6]);
        }
    }
    other
}

fn in_entries(due: Mended, edit: impl Fn(&mut [u8])) -> Mended {
    let mut other = due;
    let entries = other.numbers[3] as usize;
    other.list.chunks_mut(8).take(entries).for_each(edit);
    other
}

/// The verdict on the image with its jumps as `keep` has them, where that is a refusal.
fn judged(image: &[u8], due: Mended, edit: impl Fn(usize, usize, &mut Instruction)) -> Mended {
    let Ok(mut other) = Image::from_bytes(image) else { return due };
    for p in &mut other.prototypes {
        let n = p.instructions.len();
        p.instructions
            .iter_mut()
            .enumerate()
            .filter(|(_, i)| i.opcode == opcode("Jmp"))
            .for_each(|(at, i)| edit(at, n, i));
    }
    match mend(&other.to_bytes(), due.out.len(), due.list.len()) {
        other if other.numbers != due.numbers || other.out != due.out => other,
        _ => due,
    }
}

wrong!(marks_dropped, |image, out, list, due| each_listed(due, image, |new, _| new[4..].copy_from_slice(&[255, 255])));
wrong!(an_old_a_kept, |image, out, list, due| each_listed(due, image, |new, old| new[1] = old[1]));
wrong!(an_old_offset_kept, |image, out, list, due| each_listed(due, image, |new, old| new[3] = old[3]));
wrong!(the_new_bytes_listed, |image, out, list, due| in_entries(due, |e| e[4..].copy_from_slice(&[20, 0, 0, 0])));
wrong!(indices_low_byte_first, |image, out, list, due| in_entries(due, |e| e.swap(2, 3)));
wrong!(prototypes_low_byte_first, |image, out, list, due| in_entries(due, |e| e.swap(0, 1)));
wrong!(indices_from_1, |image, out, list, due| in_entries(due, |e| e[3] = e[3].wrapping_add(1)));
wrong!(the_list_turned_around, |image, out, list, due| {
    let entries = due.numbers[3] as usize;
    let turned: Vec<u8> = due.list[..8 * entries].chunks(8).rev().flatten().copied().collect();
    due.list[..8 * entries].copy_from_slice(&turned);
    due
});
wrong!(a_stale_list, |image, out, list, due| {
    let from = 8 * due.numbers[3] as usize;
    due.list[from..].copy_from_slice(&list[from..]);
    due
});
wrong!(a_stale_output, |image, out, list, due| {
    let from = due.numbers[2] as usize;
    due.out[from..].copy_from_slice(&out[from..]);
    due
});
wrong!(a_list_when_there_is_no_room, |image, out, list, due| {
    let whole = at_large(image);
    let n = due.list.len().min(8 * whole.numbers[3] as usize);
    if due.numbers[0] == 18 {
        due.list[..n].copy_from_slice(&whole.list[..n]);
    }
    due
});
wrong!(an_output_when_there_is_no_list, |image, out, list, due| {
    let n = due.out.len().min(image.len());
    if due.numbers[0] == 26 {
        due.out[..n].copy_from_slice(&image[..n]);
    }
    due
});
wrong!(the_order_of_18_and_26, |image, out, list, due| if due.numbers[0] == 26 && out.len() < image.len() {
    refused(18, 0, out.len(), list.len())
} else {
    due
});
wrong!(the_order_of_26_and_20, |image, out, list, due| if due.numbers[0] == 20 && list.len() < 8 {
    refused(26, 0, out.len(), list.len())
} else {
    due
});
wrong!(a_list_one_byte_short_taken, |image, out, list, due| {
    let whole = at_large(image);
    let needs = 8 * whole.numbers[3] as usize;
    if due.numbers[0] == 26 && list.len() + 1 == needs && out.len() >= image.len() {
        let mut out = whole.out;
        out.resize(due.out.len(), 0);
        Mended { numbers: whole.numbers, out, list: whole.list[..list.len()].to_vec() }
    } else {
        due
    }
});
wrong!(a_list_asked_for_one_entry_more, |image, out, list, due| if due.numbers[0] == 0
    && list.len() as u64 == 8 * due.numbers[3]
{
    refused(26, 0, out.len(), list.len())
} else {
    due
});
wrong!(exactly_enough_room_refused, |image, out, list, due| if due.numbers[0] == 0 && out.len() == image.len() {
    refused(18, 0, out.len(), list.len())
} else {
    due
});
wrong!(a_place_of_18, |image, out, list, due| {
    due.numbers[1] += u64::from(due.numbers[0] == 18);
    due
});
wrong!(a_place_of_26, |image, out, list, due| {
    due.numbers[1] += u64::from(due.numbers[0] == 26);
    due
});
wrong!(a_length_of_the_list, |image, out, list, due| {
    due.numbers[3] *= 8;
    due
});
wrong!(a_length_when_refused, |image, out, list, due| {
    due.numbers[2] += u64::from(due.numbers[0] == 26) * image.len() as u64;
    due
});
wrong!(no_jump_replaced, |image, out, list, due| match numbers(image) {
    [20, place] if due.numbers[0] == 0 => refused(20, place, out.len(), list.len()),
    _ => due,
});
wrong!(the_place_from_before, |image, out, list, due| match numbers(image) {
    [20, place] if due.numbers[0] == 20 && place < due.numbers[1] => refused(20, place, out.len(), list.len()),
    _ => due,
});
wrong!(strays_that_lead_inside_kept, |image, out, list, due| judged(image, due, |at, n, i| {
    let to = at as isize + i.sbx();
    if matches!(i.a, 1 | 2) && to >= 0 && to < n as isize {
        i.a = 0
    }
}));
wrong!(only_breaks_replaced, |image, out, list, due| judged(image, due, |_, _, i| if i.a == 2 {
    i.a = 3
}));
wrong!(any_a_replaced, |image, out, list, due| judged(image, due, |_, _, i| if i.a > 2 {
    i.a = 1
}));
wrong!(any_a_taken, |image, out, list, due| judged(image, due, |_, _, i| if i.a > 2 {
    i.a = 0
}));
wrong!(targets_before_the_first_kept, |image, out, list, due| judged(image, due, |at, _, i| {
    if at as isize + i.sbx() < 0 {
        (i.a, i.b, i.c) = (0, 0, 0)
    }
}));
wrong!(the_last_target_replaced, |image, out, list, due| judged(image, due, |at, n, i| {
    if at as isize + i.sbx() == n as isize - 1 {
        i.a = 1
    }
}));
wrong!(the_first_target_replaced, |image, out, list, due| judged(image, due, |at, _, i| {
    if at as isize + i.sbx() == 0 {
        i.a = 1
    }
}));
wrong!(far_jumps_replaced, |image, out, list, due| judged(image, due, |_, _, i| if i.sbx() < -20_000 {
    i.a = 1
}));
wrong!(offsets_without_a_sign, |image, out, list, due| judged(image, due, |at, n, i| if at + i.bx() >= n {
    i.a = 1
}));
wrong!(returns_entered_by_strays_refused, |image, out, list, due| match Image::from_bytes(image) {
    Ok(i)
        if due.numbers[0] == 0
            && due.numbers[3] > 0
            && i.prototypes
                .iter()
                .any(|p| p.registers == 0 && p.instructions.iter().any(|i| i.opcode == 20 && i.b > 0)) =>
        refused(20, 1, out.len(), list.len()),
    _ => due,
});

#[test]
fn what_is_not_its_own() {
    unsafe extern "C" fn nothing(_: *const u8, _: usize, _: *mut u8, _: usize, _: *mut u8, _: usize, _: *mut u64) {}
    macro_rules! harm {
        ($name:ident, |$i:ident, $n:ident, $o:ident, $on:ident, $l:ident, $ln:ident, $a:ident| $harm:expr) => {
            #[allow(unused_variables)]
            unsafe extern "C" fn $name(
                $i: *const u8,
                $n: usize,
                $o: *mut u8,
                $on: usize,
                $l: *mut u8,
                $ln: usize,
                $a: *mut u64,
            ) {
                yengrazul_mend($i, $n, $o, $on, $l, $ln, $a);
                $harm
            }
        };
    }
    harm!(the_image, |i, n, o, on, l, ln, a| if n > 0 {
        *(i as *mut u8) ^= 1
    });
    harm!(behind_the_output, |i, n, o, on, l, ln, a| *o.add(on) ^= 1);
    harm!(behind_the_list, |i, n, o, on, l, ln, a| *l.add(ln) ^= 1);
    harm!(before_the_list, |i, n, o, on, l, ln, a| *l.sub(1) ^= 1);
    harm!(behind_the_answer, |i, n, o, on, l, ln, a| *a.add(4) ^= 1);
    for wrong in [nothing as Mend, the_image, behind_the_output, behind_the_list, before_the_list, behind_the_answer] {
        assert!(!runs(wrong, 50, false).differences.is_empty());
    }
}
