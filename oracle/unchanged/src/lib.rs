//! The source, unchanged: `compile` on a fresh compiler, then `leave_function` with 0 parameters.
include!(concat!(env!("OUT_DIR"), "/modules.rs"));

mod quiet;

/// The one thing that the source takes from a file we were not handed; 01 drops the path.
pub mod interpreter {
    pub fn get_absolute_path() -> String {
        String::new()
    }
}

macro_rules! node {
    ($number:expr, $name:ident { $($fields:tt)* }) => {{
        let _ = $number;
        $name { $($fields)* }
    }};
}

#[path = "../../bridge/names.rs"]
pub mod names;
#[path = "../../bridge/read.rs"]
pub mod read;
#[path = "../../bridge/write.rs"]
pub mod write;

use compiler::Compiler;
use files::image::Image;
use files::tree::{is_wide, Field};

/// The compiler after the whole program. Panics and ends the process where the source does.
pub fn compile(program: Vec<stmt::Stmt>) -> Compiler {
    let mut compiler =
        Compiler { constants: vec![], contexts: vec![], prototypes: vec![], globals: Default::default() };
    compiler.compile(program);
    compiler.leave_function(0);
    compiler
}

/// The image of a checked tree. Panics and ends the process where the source does.
pub fn lower(fields: &[Field]) -> Image {
    write::image(&compile(read::program(fields)), is_wide(fields))
}

/// The same with a panic as an error in its own words. An exit of the source here ends the process as a failure.
pub fn attempt(fields: &[Field]) -> Result<Image, String> {
    quiet::without_exit(|| quiet::catch(|| lower(fields)))
}

/// The compiler after the whole program, or a panic in its own words. An exit of the source ends the process.
pub fn attempt_or_exit(fields: &[Field]) -> Result<Compiler, String> {
    quiet::catch(|| compile(read::program(fields)))
}
