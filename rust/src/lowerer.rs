//! The one foreign call, and the buffers that it is lent.
use crate::{Cause, Image, Refusal};
use std::panic::resume_unwind;
use std::thread;

/// A call takes less of its thread's stack than this: calls nest as deep as the tree, 128 nodes at most. `tests/parts/45-worst` of
/// the project measures what the worst trees take.
pub const STACK_BYTES: usize = 1_048_576;

/// A tree of more nodes is refused.
pub const MOST_NODES: usize = 32_768;

/// No image is longer: 256 prototypes of 255 captures and 32,767 instructions with wide marks, 1,024 constants.
pub const LARGEST_IMAGE: usize = 256 * (13 + 255 * 5 + 32_767 * 11) + 1024 * 11;

/// What this crate's own frames take on the thread of a call, with room to spare.
const OWN_STACK: usize = 65_536;

extern "C" {
    // include/yengrazul.h says what it asks for and what it does.
    fn yengrazul_lower(
        tree: *const u8,
        tree_len: usize,
        work: *mut u32,
        work_len: usize,
        out: *mut u8,
        out_len: usize,
        mode: u64,
        answer: *mut [u64; 4],
    );
}

/// Lowers one tree after the other in the same buffers. Nothing of a call is left in them for the next.
///
/// ```
/// let mut lowerer = yengrazul::Lowerer::new();
/// assert!(lowerer.lower(&[]).is_err());
/// assert!(lowerer.lower(&[0x1E, 0, 0]).is_ok());
/// ```
#[derive(Default)]
pub struct Lowerer {
    mode: u64,
    visits: u64,
    work: Vec<u32>,
    out: Vec<u8>,
}

impl Lowerer {
    /// In mode 0, with empty buffers; they grow with the trees.
    pub fn new() -> Lowerer {
        Lowerer::default()
    }

    /// The same in another [`Mode`](crate::Mode), or in any number: what is no mode is refused by [`Cause::Mode`].
    pub fn mode(self, mode: impl Into<u64>) -> Lowerer {
        Lowerer { mode: mode.into(), ..self }
    }

    /// How much work the last tree was (document 02, E6): how many nodes were lowered, one that is lowered twice counted twice. 0 where it was refused,
    /// and before the first.
    ///
    /// A node counts one plus its lowered children; the right side of a Minus counts twice where its left is a number equal to one of 0 to 255, and a
    /// number on the right of Plus that equals one counts nothing. It is the same in every mode, at most the number of nodes where no such
    /// Minus occurs, and at most 1,025 times that in any case.
    ///
    /// ```
    /// let mut lowerer = yengrazul::Lowerer::new();
    /// lowerer.lower(&[0x1E, 0, 0])?;
    /// assert_eq!(lowerer.visits(), 1);
    /// # Ok::<(), yengrazul::Refusal>(())
    /// ```
    pub fn visits(&self) -> u64 {
        self.visits
    }

    /// The image of a tree file, or the refusal. Any bytes may be asked about. Runs on a thread of its own with enough stack.
    ///
    /// # Panics
    ///
    /// Where the system gives no thread.
    pub fn lower(&mut self, tree: &[u8]) -> Result<Image, Refusal> {
        let on_its_own = thread::Builder::new().name("yengrazul".into()).stack_size(STACK_BYTES + OWN_STACK);
        thread::scope(|scope| {
            // Safe: the new thread has the stack.
            let call = on_its_own.spawn_scoped(scope, || unsafe { self.lower_here(tree) });
            call.expect("a thread for the lowering").join().unwrap_or_else(|panic| resume_unwind(panic))
        })
    }

    /// The same on the calling thread, for callers that make their threads themselves.
    ///
    /// # Safety
    ///
    /// [`STACK_BYTES`] of the calling thread's stack are free, and 65,536 more for this crate.
    pub unsafe fn lower_here(&mut self, tree: &[u8]) -> Result<Image, Refusal> {
        let nodes = count_nodes(tree);
        let words = 12_288 + 16 * nodes;
        // most images take some 8 bytes for each node
        let mut room = 4096 + 16 * nodes;
        loop {
            self.grow(words, room);
            let told = unsafe { call(tree, &mut self.work[..words], &mut self.out[..room], self.mode) };
            match told {
                Err(refusal) if refusal.cause == Cause::Room && room < LARGEST_IMAGE => {
                    room = LARGEST_IMAGE.min(4 * room);
                }
                _ => {
                    self.visits = told.as_ref().map_or(0, |lowered| lowered.visits);
                    return told.map(|lowered| Image::written(&self.out[..lowered.length]));
                }
            }
        }
    }

    fn grow(&mut self, words: usize, room: usize) {
        if self.work.len() < words {
            self.work.resize(words, 0);
        }
        if self.out.len() < room {
            self.out.resize(room, 0);
        }
    }
}

/// What is told of an accepted tree.
#[derive(Clone, Copy, Debug, PartialEq, Eq)]
struct Lowered {
    length: usize,
    visits: u64,
}

/// The length of the image and the visits, or the refusal. The caller's thread has the stack that a call takes.
unsafe fn call(tree: &[u8], work: &mut [u32], out: &mut [u8], mode: u64) -> Result<Lowered, Refusal> {
    // an answer that is not written is none
    let mut answer = [u64::MAX; 4];
    unsafe {
        yengrazul_lower(
            tree.as_ptr(),
            tree.len(),
            work.as_mut_ptr(),
            work.len(),
            out.as_mut_ptr(),
            out.len(),
            mode,
            &mut answer,
        );
    }
    told(answer, out.len())
}

/// Number, place, length and visits as a result. 0 alone is an image, and only where its length can be one.
fn told([number, node, length, visits]: [u64; 4], room: usize) -> Result<Lowered, Refusal> {
    match usize::try_from(length) {
        Ok(length) if number == 0 && 0 < length && length <= room => Ok(Lowered { length, visits }),
        _ => Err(Refusal { cause: Cause::from_number(number).unwrap_or(Cause::Unknown(number)), node }),
    }
}

/// The whole fields at the front of a tree, counted no further than a tree may have nodes.
fn count_nodes(mut tree: &[u8]) -> usize {
    let mut nodes = 0;
    while let [_, high, low, rest @ ..] = tree {
        match rest.get(usize::from(u16::from_be_bytes([*high, *low]))..) {
            Some(next) if nodes < MOST_NODES => tree = next,
            _ => break,
        }
        nodes += 1;
    }
    nodes
}

#[cfg(test)]
mod tests {
    use super::*;

    const EMPTY: [u8; 3] = [0x1E, 0, 0];

    #[test]
    fn noise_in_the_buffers_changes_nothing_and_is_cleared() {
        let due = Lowerer::new().lower(&EMPTY).unwrap();
        let mut lowerer = Lowerer::new();
        for (tree, mode) in [(&EMPTY[..], 0u64), (&[], 0), (&EMPTY[..2], 1), (&EMPTY, 1), (&EMPTY, 2), (&[], u64::MAX)]
        {
            lowerer = lowerer.mode(mode);
            lowerer.grow(12_288 + 16, 4096 + 16);
            lowerer.work.fill(0xA5A5_A5A5);
            lowerer.out.fill(0x5A);
            let told = lowerer.lower(tree);
            let nodes = count_nodes(tree);
            assert!(lowerer.work[..12_288 + 16 * nodes].iter().all(|word| *word == 0));
            let image = told.as_ref().map_or(0, |image| image.as_bytes().len());
            assert!(lowerer.out[image..4096 + 16 * nodes].iter().all(|byte| *byte == 0));
            assert_eq!(lowerer.visits(), u64::from(told.is_ok()));
            assert_eq!(told.ok(), (tree.len() == 3 && mode < 2).then(|| due.clone()));
        }
    }

    #[test]
    fn zero_alone_is_an_image() {
        let unknown = |number, node| Err(Refusal { cause: Cause::Unknown(number), node });
        assert_eq!(told([0, 0, 22, 1], 22), Ok(Lowered { length: 22, visits: 1 }));
        assert_eq!(told([0, 0, 23, 1], 22), unknown(0, 0));
        assert_eq!(told([0, 0, 0, 1], 22), unknown(0, 0));
        assert_eq!(told([99, 5, 22, 1], 22), unknown(99, 5));
        assert_eq!(told([u64::MAX; 4], 22), unknown(u64::MAX, u64::MAX));
        for cause in Cause::ALL {
            assert_eq!(told([cause.number(), 3, 22, 1], 22), Err(Refusal { cause, node: 3 }));
        }
    }

    #[test]
    fn nodes_are_whole_fields() {
        assert_eq!(count_nodes(&[]), 0);
        assert_eq!(count_nodes(&EMPTY[..2]), 0);
        assert_eq!(count_nodes(&EMPTY), 1);
        assert_eq!(count_nodes(&[0x16, 0, 2, 0, 5, 0x1E, 0, 2, 0, 0]), 2);
        assert_eq!(count_nodes(&[0x16, 0, 2, 0, 5, 0x1E, 0, 2, 0]), 1);
        assert_eq!(count_nodes(&EMPTY.repeat(MOST_NODES + 1)), MOST_NODES);
    }
}
