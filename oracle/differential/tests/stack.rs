//! The stack of a call is measured: as much as it touches, and anew at each call. An emulated call looks at its stack itself.
#![cfg(target_arch = "x86_64")]
use differential::stack::Stack;
use std::hint::black_box;

#[inline(never)]
fn touch<const N: usize>() {
    black_box(&mut [7u8; N]);
}

#[test]
fn what_a_call_touches() {
    let mut stack = Stack::new();
    for _ in 0..2 {
        let large = stack.run(touch::<1_000_000>).stack_bytes;
        assert!((1_000_000..1_001_000).contains(&large), "{large}");
        let small = stack.run(touch::<1_000>).stack_bytes;
        assert!((1_000..2_000).contains(&small), "{small}");
    }
    let busy = || (0..1_000_000u64).for_each(|k| assert!(black_box(k) < 1_000_000));
    assert!(stack.run(busy).seconds > Some(0.0));
}
