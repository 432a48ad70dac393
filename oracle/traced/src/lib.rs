//! The traced copy of the source: the same image, or the refusal that 01's table gives.
include!(concat!(env!("OUT_DIR"), "/modules.rs"));

pub mod trace;

/// The one thing that the source takes from a file we were not handed; 01 drops the path.
pub mod interpreter {
    pub fn get_absolute_path() -> String {
        String::new()
    }
}

macro_rules! node {
    ($number:expr, $name:ident { $($fields:tt)* }) => {
        $name { node: $number, $($fields)* }
    };
}

#[path = "../../bridge/names.rs"]
pub mod names;
#[path = "../../bridge/read.rs"]
pub mod read;
#[path = "../../bridge/write.rs"]
pub mod write;

use compiler::Compiler;
use files::image::Image;
use files::tree::{is_wide, Field};
use std::panic::{catch_unwind, resume_unwind, AssertUnwindSafe};
pub use trace::Refusal;

/// The image of a checked tree in mode 0 or 1, or the first of 7 to 17 that is met.
pub fn lower(fields: &[Field], mode: u64) -> Result<Image, Refusal> {
    counted(fields, mode).map(|(image, _)| image)
}

/// The same, and how many nodes the copy's routines noted on the way to the image: a node that is lowered again is noted again.
pub fn counted(fields: &[Field], mode: u64) -> Result<(Image, usize), Refusal> {
    assert!(mode < 2, "a lowering has mode 0 or 1");
    let run = || {
        trace::set_mode_1(mode == 1);
        let program = read::program(fields);
        let _visit = trace::Visit::first(fields.len() - 1);
        let mut compiler = Compiler {
            constants: Default::default(),
            contexts: vec![],
            prototypes: vec![],
            globals: Default::default(),
        };
        compiler.compile(program);
        compiler.leave_function(0);
        (write::image(&compiler, is_wide(fields)), trace::visits())
    };
    catch_unwind(AssertUnwindSafe(run)).map_err(|panic| match panic.downcast::<Refusal>() {
        Ok(refusal) => *refusal,
        Err(other) => resume_unwind(other),
    })
}

/// How the source ends in a mode on a checked tree that one of 11 and 14 to 17 refuses, none of which it knows: with an image, or by
/// another refusal, where 17 stands for the negation that stops a loop of exactly 32,768. Nothing where it makes too much.
pub fn follow(fields: &[Field], mode: u64) -> Option<Result<Image, Refusal>> {
    let end = trace::past(&[11, 14, 15, 16, 17], || lower(fields, mode));
    (!matches!(end, Err(Refusal { number: trace::GIVEN_UP, .. }))).then_some(end)
}

/// The refusal of a checked tree, with the number that the same node meets in the same step where its own is passed over.
pub fn met(fields: &[Field], mode: u64) -> Option<(Refusal, u8)> {
    let first = lower(fields, mode).err()?;
    let then = trace::past_in_a_step(first.number, || lower(fields, mode)).err()?;
    let same = (then.node, then.visits) == (first.node, first.visits) && then.number != trace::GIVEN_UP;
    same.then_some((first, then.number))
}
