//! Lowers Grotsky syntax trees to register bytecode: a tree file goes in, an image file comes out, or a refusal with its
//! cause and the node at fault. The work is done by `yengrazul_lower`, a function of Rattle that is proved to give the
//! answer of documents 01 and 02 for every byte string; this crate lends it buffers and puts its answer into types.
//!
//! ```
//! // the empty program: one field, tag 1E, without payload
//! let image = yengrazul::lower(&[0x1E, 0, 0])?;
//! assert_eq!(image.as_bytes().len(), 22);
//!
//! // a break that stands in no loop
//! let refusal = yengrazul::lower(&[0x16, 0, 2, 0, 5, 0x1E, 0, 2, 0, 0]).unwrap_err();
//! assert_eq!(refusal.cause, yengrazul::Cause::Stray);
//! assert_eq!(
//!     refusal.to_string(),
//!     "refused 11 Stray at node 0: break and continue must stand in a loop of their own function"
//! );
//! # Ok::<(), yengrazul::Refusal>(())
//! ```
//!
//! [`Image::read`] takes an image back, whoever wrote it, and gives its prototypes, instructions and constants; it is proved too. So is [`walk`],
//! which follows a prototype by the decisions and failures that a rig recorded; [`Coverage`] adds such runs up and tells what none of them reached.
//!
//! [`mend`] mends an image that the Rust left on an old card: its stray jumps become returns, and are told. It is proved too.
//!
//! A tree whose last field has tag 3E has marks of four bytes, for a line and a column, and so has its image: [`Image::is_wide`] says so, and
//! [`Instruction::mark`] holds a mark of either width.
//!
//! What tree and image files hold: `docs/FORMATS.md` of the project.
//!
//! To build it, `tools/prove.sh yengrazul_c` must have written `libyengrazul.a` to `target/staticlib` of the project;
//! `YENGRAZUL_LIB` may name another folder that holds it, as `lib/yengrazul` of an installed package.
#![deny(missing_docs, unsafe_op_in_unsafe_fn)]

mod image;
mod lowerer;
mod mending;
mod mode;
mod refusal;
mod walk;

pub use image::{
    line_and_column, Capture, Captures, Constant, Constants, Image, Instruction, Instructions, Prototype, Prototypes,
};
pub use lowerer::{Lowerer, LARGEST_IMAGE, MOST_NODES, STACK_BYTES};
pub use mending::{mend, Mended, Replaced};
pub use mode::Mode;
pub use refusal::{Cause, Refusal};
pub use walk::{walk, Coverage, Ending, Walk};

/// The version of the project; the header and the commands have the same.
pub const VERSION: &str = env!("CARGO_PKG_VERSION");

/// The image of a tree file in [`Mode::Zero`], or the refusal. Any bytes may be asked about.
///
/// The call runs on a thread of its own, whose stack is large enough for every tree, so it may be made from any thread.
/// [`Lowerer`] does the same and keeps its buffers for the next call.
///
/// # Panics
///
/// Where the system gives no thread.
pub fn lower(tree: &[u8]) -> Result<Image, Refusal> {
    Lowerer::new().lower(tree)
}

/// The same in a [`Mode`], or in any number: what is no mode is refused by [`Cause::Mode`].
///
/// # Panics
///
/// Where the system gives no thread.
pub fn lower_in(tree: &[u8], mode: impl Into<u64>) -> Result<Image, Refusal> {
    Lowerer::new().mode(mode).lower(tree)
}
