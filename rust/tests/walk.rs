//! Walks through the library: endings in their order, decisions, strikes, refusals with their places, and runs added up.
use yengrazul::{walk, Cause, Coverage, Ending, Image};

mod common;
use common::{root, through};

/// An image of one prototype, of one register, with these instructions and the mark 10 times their index.
fn image(code: &[[u8; 4]]) -> Image {
    let mut bytes = vec![0x41, 0, 10, 0xFF, 0xFF, 0, 0, 0, 1, 0, 0, 0, u8::try_from(code.len()).expect("a short one")];
    for (index, instruction) in code.iter().enumerate() {
        bytes.extend([0x43, 0, 6]);
        bytes.extend(instruction);
        bytes.extend([0, 10 * u8::try_from(index).expect("a short one")]);
    }
    Image::read(&bytes).expect("an image")
}

const TEST: [u8; 4] = [4, 0, 0, 0];
const BACK: [u8; 4] = [3, 0, 255, 255];
const RETURN: [u8; 4] = [20, 0, 0, 0];

fn told(image: &Image, decisions: &[u8], budget: u64) -> (u64, usize, Ending) {
    struck(image, decisions, &[], budget)
}

fn struck(image: &Image, decisions: &[u8], strikes: &[u64], budget: u64) -> (u64, usize, Ending) {
    let done = walk(image, 0, decisions, strikes, budget).expect("a walk");
    (done.steps, done.index, done.ending)
}

#[test]
fn endings_in_their_order() {
    let waits = image(&[TEST, BACK, RETURN]);
    assert_eq!(told(&waits, &[0, 0, 1], 100), (5, 2, Ending::Return));
    assert_eq!(told(&waits, &[0, 0, 1], 5), (5, 2, Ending::Return));
    assert_eq!(told(&waits, &[0, 0, 1], 4), (4, 0, Ending::Budget));
    assert_eq!(told(&waits, &[0, 0], 4), (4, 0, Ending::Decisions));
    assert_eq!(told(&waits, &[0, 0], 3), (3, 1, Ending::Budget));
    assert_eq!(told(&waits, &[], 0), (0, 0, Ending::Decisions));
    assert_eq!(told(&waits, &[1, 0, 0], u64::MAX), (1, 2, Ending::Return));
    assert_eq!(told(&image(&[RETURN]), &[], 0), (0, 0, Ending::Return));
    assert_eq!(told(&image(&[[3, 0, 0, 0], RETURN]), &[], 1000), (1000, 0, Ending::Budget));
}

/// 0 RegisterTryCatch to 4; 1 Test; 2 Jmp to 5; 3 Return; 4 DeregisterTryCatch; 5 Test; 6 Jmp to 5; 7 Return.
#[test]
fn a_strike_enters_the_handler_registered_last() {
    let guarded = image(&[[48, 0, 0, 4], TEST, [3, 0, 0, 3], RETURN, [49, 0, 0, 0], TEST, BACK, RETURN]);
    assert_eq!(struck(&guarded, &[1], &[], 9), (2, 3, Ending::Return));
    // at a Test: no decision is asked for or used
    assert_eq!(struck(&guarded, &[], &[1], 9), (3, 5, Ending::Decisions));
    assert_eq!(struck(&guarded, &[1], &[1], 9), (4, 7, Ending::Return));
    // the handler stays registered while it is entered, and is taken off by its DeregisterTryCatch
    assert_eq!(struck(&guarded, &[1], &[1, 2], 9), (5, 7, Ending::Return));
    assert_eq!(struck(&guarded, &[1], &[1, 3], 9), (3, 5, Ending::Failed));
    // struck before it registers; at a Return nothing strikes; the budget is judged before a failure
    assert_eq!(struck(&guarded, &[1], &[0], 9), (0, 0, Ending::Failed));
    assert_eq!(struck(&guarded, &[1], &[2], 9), (2, 3, Ending::Return));
    assert_eq!(struck(&guarded, &[1], &[0], 0), (0, 0, Ending::Budget));
}

#[test]
fn handlers_are_256_at_most() {
    let again = image(&[[48, 0, 0, 2], BACK, RETURN]);
    assert_eq!(struck(&again, &[], &[], 10_000), (512, 0, Ending::Handlers));
    assert_eq!(struck(&again, &[], &[], 512), (512, 0, Ending::Budget));
    assert_eq!(struck(&again, &[], &[512], 10_000), (513, 2, Ending::Return));
}

#[test]
fn refusals_with_their_places() {
    let one = image(&[TEST, BACK, RETURN]);
    let refused = |prototype, decisions: &[u8], strikes: &[u64]| {
        let refusal = walk(&one, prototype, decisions, strikes, 9).expect_err("refused");
        (refusal.cause, refusal.node)
    };
    for prototype in [1, 256, 1 << 32, u64::MAX] {
        assert_eq!(refused(prototype, &[2], &[1, 1]), (Cause::Prototype, 0));
    }
    assert_eq!(refused(0, &[2], &[1, 1]), (Cause::Decision, 0));
    // also behind what the walk uses
    assert_eq!(refused(0, &[1, 0, 1, 255, 2], &[]), (Cause::Decision, 3));
    assert_eq!(refused(0, &[1], &[0, 7, u64::MAX, u64::MAX]), (Cause::Order, 3));
    assert_eq!(refused(0, &[1], &[5, 4, 3]), (Cause::Order, 1));
}

#[test]
fn runs_are_added_up() {
    let one = image(&[TEST, [3, 0, 0, 2], RETURN, TEST, BACK, RETURN]);
    let mut coverage = Coverage::new(&one);
    assert_eq!(coverage.marks_never(), [0, 10, 20, 30, 40, 50]);
    coverage.walk(0, &[1], &[], 9).expect("a walk");
    assert_eq!(coverage.to_string(), "prototype 0: 2 of 6 instructions reached; never: 1, 3-5\n");
    assert!(coverage.walk(0, &[2], &[], 9).is_err());
    let mut other = Coverage::new(&one);
    other.walk(0, &[0, 1], &[], 9).expect("a walk");
    coverage.add(&other);
    assert_eq!(coverage.never(0).collect::<Vec<_>>(), [4]);
    assert_eq!((coverage.marks_never(), coverage.reached(), coverage.instructions()), (vec![40], 5, 6));
    assert_eq!(coverage.visited(0), [true, true, true, true, false, true]);
    assert!(coverage.visited(1).is_empty() && coverage.never(1).next().is_none());
}

/// The runs of examples/22-positions, by their decisions alone, reach what its report says.
#[test]
fn the_example() {
    let text = std::fs::read(root().join("examples/22-positions.tree")).expect("a text");
    let image = yengrazul::lower_in(&through("tree", &text), yengrazul::Mode::One).expect("an image");
    let report = std::fs::read_to_string(root().join("examples/22-positions.reached")).expect("a report");
    let mut coverage = Coverage::new(&image);
    let runs: [(u64, &[u8]); 4] = [(1, &[]), (0, &[1, 0, 0, 1, 0, 0, 0]), (0, &[1, 1, 1, 0, 0, 0]), (0, &[0])];
    for (prototype, decisions) in runs {
        assert_eq!(coverage.walk(prototype, decisions, &[], 1000).expect("a walk").ending, Ending::Return);
    }
    for line in coverage.to_string().lines() {
        assert!(report.lines().any(|found| found == line || found.starts_with(&format!("{line}; "))), "{line}");
    }
}
