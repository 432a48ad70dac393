//! Images: one that is held is one that the reader takes, so its parts are given without a word on faults.
mod parts;

use crate::{Cause, Refusal};
pub use parts::{
    line_and_column, Capture, Captures, Constant, Constants, Instruction, Instructions, Prototype, Prototypes,
};

extern "C" {
    // include/yengrazul.h says what it asks for and what it does.
    fn yengrazul_read(image: *const u8, image_len: usize, answer: *mut [u64; 2]);
}

/// An image file that the reader takes: prototypes, the main one last, then constants, as document 01 lays them out.
///
/// ```
/// use yengrazul::{lower, Cause, Image};
/// let bytes = lower(&[0x1E, 0, 0])?.into_bytes();
/// let image = Image::read(&bytes)?;
/// for (prototype, index, i) in image.instructions() {
///     assert_eq!((prototype, index, i.to_string()), (0, 0, "Return 0 0 0".to_string()));
///     assert_eq!(i.mark, None);
/// }
/// // cut, it is refused, with the number of whole fields before the cut
/// let refusal = Image::read(&bytes[..20]).unwrap_err();
/// assert_eq!((refusal.cause, refusal.node), (Cause::ImageFrame, 1));
/// # Ok::<(), yengrazul::Refusal>(())
/// ```
#[derive(Clone, Debug, PartialEq, Eq, Hash)]
pub struct Image(Vec<u8>);

impl Image {
    /// The image, where the reader takes it: exactly the images that document 02 allows, whoever wrote them. Any bytes may be asked about.
    pub fn read(bytes: &[u8]) -> Result<Image, Refusal> {
        // an answer that is not written is none
        let mut answer = [u64::MAX; 2];
        // Safe: the bytes are lent for the call, the answer has two numbers, and nothing else is touched.
        unsafe { yengrazul_read(bytes.as_ptr(), bytes.len(), &mut answer) };
        match answer {
            [0, 0] => Ok(Image(bytes.to_vec())),
            [number, node] => {
                Err(Refusal { cause: Cause::from_number(number).unwrap_or(Cause::Unknown(number)), node })
            }
        }
    }

    /// What the lowering wrote, which the reader takes.
    pub(crate) fn written(bytes: &[u8]) -> Image {
        Image(bytes.to_vec())
    }

    /// What mending left, which the reader takes.
    pub(crate) fn mended(bytes: Vec<u8>) -> Image {
        Image(bytes)
    }

    /// The bytes of the file.
    pub fn as_bytes(&self) -> &[u8] {
        &self.0
    }

    /// The bytes of the file, owned.
    pub fn into_bytes(self) -> Vec<u8> {
        self.0
    }

    /// The prototypes by their index; the last is the main one.
    pub fn prototypes(&self) -> Prototypes<'_> {
        Prototypes::of(&self.0)
    }

    /// Every instruction of every prototype, with the prototype's index and its own.
    pub fn instructions(&self) -> impl Iterator<Item = (usize, usize, Instruction)> + '_ {
        let numbered =
            |(k, p): (usize, Prototype)| p.instructions().enumerate().map(|(at, i)| (k, at, i)).collect::<Vec<_>>();
        self.prototypes().enumerate().flat_map(numbered)
    }

    /// Whether its marks have four bytes, as those of the tree had: a mark is then more than a line.
    ///
    /// ```
    /// // the empty program, of either width
    /// assert!(!yengrazul::lower(&[0x1E, 0, 0])?.is_wide());
    /// let image = yengrazul::lower(&[0x3E, 0, 0])?;
    /// assert!(image.is_wide() && image.as_bytes().len() == 24);
    /// # Ok::<(), yengrazul::Refusal>(())
    /// ```
    pub fn is_wide(&self) -> bool {
        parts::is_wide(&self.0)
    }

    /// The constants by their index.
    pub fn constants(&self) -> Constants<'_> {
        Constants::of(&self.0)
    }
}

impl AsRef<[u8]> for Image {
    fn as_ref(&self) -> &[u8] {
        &self.0
    }
}

/// The reader judges.
impl TryFrom<&[u8]> for Image {
    type Error = Refusal;

    fn try_from(bytes: &[u8]) -> Result<Image, Refusal> {
        Image::read(bytes)
    }
}
