//! The functions of the static library, where one is linked.
use crate::calls::{Check, Lower, Read};
use crate::mends::Mend;
use crate::walks::Walk;

/// Every exported call.
#[derive(Clone, Copy)]
pub struct Library {
    pub lower: Lower,
    pub check: Check,
    pub read: Read,
    pub walk: Walk,
    pub mend: Mend,
}

#[cfg(has_library)]
extern "C" {
    fn yengrazul_lower(
        tree: *const u8,
        tree_len: usize,
        work: *mut u32,
        work_len: usize,
        out: *mut u8,
        out_len: usize,
        mode: u64,
        answer: *mut u64,
    );
    fn yengrazul_check(tree: *const u8, tree_len: usize, work_len: usize, mode: u64, answer: *mut u64);
    fn yengrazul_read(image: *const u8, image_len: usize, answer: *mut u64);
    fn yengrazul_walk(
        image: *const u8,
        image_len: usize,
        prototype: u64,
        decisions: *const u8,
        decisions_len: usize,
        strikes: *const u64,
        strikes_len: usize,
        budget: u64,
        visited: *mut u8,
        visited_len: usize,
        answer: *mut u64,
    );
    fn yengrazul_mend(
        image: *const u8,
        image_len: usize,
        out: *mut u8,
        out_len: usize,
        list: *mut u8,
        list_len: usize,
        answer: *mut u64,
    );
}

pub fn library() -> Option<Library> {
    #[cfg(has_library)]
    return Some(Library {
        lower: yengrazul_lower,
        check: yengrazul_check,
        read: yengrazul_read,
        walk: yengrazul_walk,
        mend: yengrazul_mend,
    });
    #[cfg(not(has_library))]
    None
}

/// Bytes of stack that the last emulated call of this thread touched.
#[cfg(not(target_arch = "x86_64"))]
pub fn emulated_stack() -> usize {
    #[cfg(has_library)]
    {
        extern "C" {
            fn yengrazul_emulated_stack() -> u64;
        }
        return unsafe { yengrazul_emulated_stack() } as usize;
    }
    #[cfg(not(has_library))]
    0
}
