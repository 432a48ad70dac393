//! A call on a stack of our own, full of a pattern, to see how deep it was touched and how long the processor took.
#[cfg(target_arch = "x86_64")]
use std::arch::asm;

/// Words of the stack lent to a call: 16 MB.
#[cfg(target_arch = "x86_64")]
const WORDS: usize = 2 << 20;

#[cfg(target_arch = "x86_64")]
pub struct Stack(Vec<u64>);

/// What a call took; its time is not known where it is emulated.
pub struct Took {
    pub seconds: Option<f64>,
    pub stack_bytes: usize,
}

/// What stands in a word that nothing has touched.
#[cfg(target_arch = "x86_64")]
fn untouched(k: usize) -> u64 {
    (k as u64 + 1).wrapping_mul(0x9E37_79B9_7F4A_7C15)
}

#[cfg(target_arch = "x86_64")]
unsafe extern "C" fn enter<F: FnMut()>(call: *mut F) {
    (*call)();
}

#[cfg(target_arch = "x86_64")]
impl Stack {
    pub fn new() -> Stack {
        Stack((0..WORDS).map(untouched).collect())
    }

    /// Runs a call here. It must not unwind.
    pub fn run(&mut self, mut call: impl FnMut()) -> Took {
        let start = processor_seconds();
        self.enter(&mut call);
        let seconds = processor_seconds() - start;
        let first = self.0.iter().enumerate().position(|(k, word)| *word != untouched(k)).unwrap_or(WORDS);
        assert!(first > 0, "the stack is too small");
        (first..WORDS).for_each(|k| self.0[k] = untouched(k));
        Took { seconds: Some(seconds), stack_bytes: 8 * (WORDS - first) }
    }

    fn enter<F: FnMut()>(&mut self, call: &mut F) {
        let top = self.0.as_mut_ptr_range().end as usize & !15;
        // the caller's stack is kept in a register that a call leaves alone
        unsafe {
            asm!(
                "mov r12, rsp",
                "mov rsp, {top}",
                "call {enter}",
                "mov rsp, r12",
                out("r12") _,
                top = in(reg) top,
                enter = sym enter::<F>,
                in("rdi") call,
                clobber_abi("C"),
            );
        }
    }
}

#[cfg(target_arch = "x86_64")]
extern "C" {
    fn clock_gettime(clock: i32, time: *mut [i64; 2]) -> i32;
}

/// CLOCK_THREAD_CPUTIME_ID of Linux: other processes do not count.
#[cfg(target_arch = "x86_64")]
fn processor_seconds() -> f64 {
    let mut time = [0i64; 2];
    unsafe { clock_gettime(3, &mut time) };
    time[0] as f64 + time[1] as f64 / 1e9
}

/// On another processor the call is emulated (tests/emulated of the project): the child looks at its own stack.
#[cfg(not(target_arch = "x86_64"))]
pub struct Stack;

#[cfg(not(target_arch = "x86_64"))]
impl Stack {
    pub fn new() -> Stack {
        std::env::set_var("YENGRAZUL_STACK", "1");
        Stack
    }

    /// Runs a call there.
    pub fn run(&mut self, mut call: impl FnMut()) -> Took {
        call();
        Took { seconds: None, stack_bytes: crate::linked::emulated_stack() }
    }
}
