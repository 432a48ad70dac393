//! The oracle behind the C interface of the lowering, the reader, the walker and the mender: what a right library does, to try the runner on.
use oracle::mending;
use oracle::walking::{self, Run};
use oracle::{answer, judge, reading};
use std::slice::{from_raw_parts, from_raw_parts_mut};

/// # Safety
/// The pointers and lengths are of slices, and `answer` is of four numbers.
#[no_mangle]
pub unsafe extern "C" fn yengrazul_lower(
    tree: *const u8,
    tree_len: usize,
    work: *mut u32,
    work_len: usize,
    out: *mut u8,
    out_len: usize,
    mode: u64,
    answer: *mut u64,
) {
    let (tree, work) = (from_raw_parts(tree, tree_len), from_raw_parts_mut(work, work_len));
    let (out, answer) = (from_raw_parts_mut(out, out_len), from_raw_parts_mut(answer, 4));
    let (due, image) = answer::answer(tree, mode, work_len as u64, out_len as u64);
    work.fill(0);
    out.fill(0);
    out[..image.len()].copy_from_slice(&image);
    answer.copy_from_slice(&due.numbers());
}

/// # Safety
/// The pointer and length are of a slice, and `answer` is of three numbers.
#[no_mangle]
pub unsafe extern "C" fn yengrazul_check(
    tree: *const u8,
    tree_len: usize,
    work_len: usize,
    mode: u64,
    answer: *mut u64,
) {
    let (tree, answer) = (from_raw_parts(tree, tree_len), from_raw_parts_mut(answer, 3));
    answer.copy_from_slice(&match judge::check(tree, mode, work_len as u64) {
        Ok(nodes) => [0, 0, nodes.len() as u64],
        Err(refusal) => [refusal.number.into(), refusal.place, 0],
    });
}

/// # Safety
/// The pointer and length are of a slice, and `answer` is of two numbers.
#[no_mangle]
pub unsafe extern "C" fn yengrazul_read(image: *const u8, image_len: usize, answer: *mut u64) {
    let (image, answer) = (from_raw_parts(image, image_len), from_raw_parts_mut(answer, 2));
    answer.copy_from_slice(&reading::numbers(image));
}

/// # Safety
/// The pointers and lengths are of slices, and `answer` is of five numbers.
#[no_mangle]
pub unsafe extern "C" fn yengrazul_walk(
    image: *const u8,
    image_len: usize,
    prototype: u64,
    decisions: *const u8,
    decisions_len: usize,
    strikes: *const u64,
    strikes_len: usize,
    budget: u64,
    visited: *mut u8,
    visited_len: usize,
    answer: *mut u64,
) {
    let (image, decisions) = (from_raw_parts(image, image_len), from_raw_parts(decisions, decisions_len));
    let (visited, answer) = (from_raw_parts_mut(visited, visited_len), from_raw_parts_mut(answer, 5));
    let strikes = from_raw_parts(strikes, strikes_len).to_vec();
    let run = Run { prototype, decisions: decisions.to_vec(), strikes, budget };
    let walked = walking::walk(image, &run, visited_len);
    visited.copy_from_slice(&walked.visited);
    answer.copy_from_slice(&walked.numbers);
}

/// # Safety
/// The pointers and lengths are of slices, and `answer` is of four numbers.
#[no_mangle]
pub unsafe extern "C" fn yengrazul_mend(
    image: *const u8,
    image_len: usize,
    out: *mut u8,
    out_len: usize,
    list: *mut u8,
    list_len: usize,
    answer: *mut u64,
) {
    let mended = mending::mend(from_raw_parts(image, image_len), out_len, list_len);
    from_raw_parts_mut(out, out_len).copy_from_slice(&mended.out);
    from_raw_parts_mut(list, list_len).copy_from_slice(&mended.list);
    from_raw_parts_mut(answer, 4).copy_from_slice(&mended.numbers);
}
