//! Old images mended: jumps that lead nowhere become returns.
use crate::{Cause, Image, Instruction, Refusal};

extern "C" {
    // include/yengrazul.h says what it asks for and what it does.
    fn yengrazul_mend(
        image: *const u8,
        image_len: usize,
        out: *mut u8,
        out_len: usize,
        list: *mut u8,
        list_len: usize,
        answer: *mut [u64; 4],
    );
}

/// The bytes of an entry in the list, and the fewest of an instruction in an image.
const ENTRY: usize = 8;
const INSTRUCTION: usize = 9;

/// An image that was mended.
#[derive(Clone, Debug, PartialEq, Eq, Hash)]
pub struct Mended {
    /// The image, which the reader takes.
    pub image: Image,
    /// The jumps that were replaced, in order; none where nothing was to mend.
    pub replaced: Vec<Replaced>,
}

/// A jump that is `Return 0 0 0` now.
#[derive(Clone, Copy, Debug, PartialEq, Eq, Hash)]
pub struct Replaced {
    /// The prototype that it stands in.
    pub prototype: usize,
    /// Its index there.
    pub index: usize,
    /// What stood there. The mark is kept in the image.
    pub old: Instruction,
}

impl Replaced {
    /// The index that it led to; none where that is before the first instruction.
    pub fn target(&self) -> Option<usize> {
        self.index.checked_add_signed(isize::from(self.old.bx() as i16))
    }
}

/// Mends an image of the Rust's old prototypes: each Jmp that is an unpatched break or continue (2 or 1 in a), or whose target leaves its
/// prototype, becomes `Return 0 0 0` with its mark kept. Every other byte stays. Any bytes may be asked about: where another rule is broken they
/// are refused by [`Cause::ImageFrame`] or [`Cause::ImageRule`].
///
/// ```
/// // one prototype of a stray break with mark 7, and a Return
/// let card = [
///     0x41, 0, 10, 255, 255, 0, 0, 0, 0, 0, 0, 0, 2, //
///     0x43, 0, 6, 3, 2, 0, 0, 0, 7, //
///     0x43, 0, 6, 20, 0, 0, 0, 255, 255,
/// ];
/// assert!(yengrazul::Image::read(&card).is_err());
/// let mended = yengrazul::mend(&card)?;
/// let found = &mended.replaced[0];
/// assert_eq!((found.prototype, found.index, found.old.to_string(), found.old.mark), (0, 0, "Jmp 2 0 0".to_string(), Some(7)));
/// assert_eq!(mended.image.instructions().next().map(|(_, _, i)| (i.to_string(), i.mark)), Some(("Return 0 0 0".to_string(), Some(7))));
/// # Ok::<(), yengrazul::Refusal>(())
/// ```
pub fn mend(image: &[u8]) -> Result<Mended, Refusal> {
    let mut out = vec![0; image.len()];
    let mut list = vec![0; image.len() / INSTRUCTION * ENTRY];
    // an answer that is not written is none
    let mut answer = [u64::MAX; 4];
    // Safe: the bytes are lent for the call, each area with its own length, the answer has four numbers, and nothing else is touched.
    unsafe {
        yengrazul_mend(
            image.as_ptr(),
            image.len(),
            out.as_mut_ptr(),
            out.len(),
            list.as_mut_ptr(),
            list.len(),
            &mut answer,
        );
    }
    let entries = usize::try_from(answer[3]).ok().filter(|entries| *entries <= list.len() / ENTRY);
    match (answer, entries) {
        ([0, 0, length, _], Some(entries)) if length == out.len() as u64 => {
            let image = Image::mended(out);
            let replaced = list[..entries * ENTRY].chunks_exact(ENTRY).map(|entry| replaced(entry, &image)).collect();
            Ok(Mended { image, replaced })
        }
        ([number, node, ..], _) => {
            Err(Refusal { cause: Cause::from_number(number).unwrap_or(Cause::Unknown(number)), node })
        }
    }
}

/// An entry of eight bytes, with the mark that the image keeps.
fn replaced(entry: &[u8], image: &Image) -> Replaced {
    let word = |at: usize| usize::from(u16::from_be_bytes([entry[at], entry[at + 1]]));
    let (prototype, index) = (word(0), word(2));
    let now = image.prototypes().nth(prototype).and_then(|p| p.instructions().nth(index));
    let mark = now.and_then(|now| now.mark);
    Replaced { prototype, index, old: Instruction { opcode: entry[4], a: entry[5], b: entry[6], c: entry[7], mark } }
}
