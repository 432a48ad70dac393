//! The mode of a call.

/// How a tree is lowered. The image does not say which mode it was made in.
///
/// ```
/// use yengrazul::{lower, lower_in, Cause, Mode};
/// let empty = [0x1E, 0, 0];
/// assert_eq!(lower_in(&empty, Mode::default()), lower(&empty));
/// assert!(lower_in(&empty, Mode::One).is_ok());
/// // any number is handed on, and every other one is refused
/// assert_eq!(lower_in(&empty, 2u64).unwrap_err().cause, Cause::Mode);
/// ```
#[derive(Clone, Copy, Debug, Default, PartialEq, Eq, PartialOrd, Ord, Hash)]
#[repr(u64)]
pub enum Mode {
    /// As document 01 says and as the Rust does: continue in a for loop starts the loop over.
    #[default]
    Zero = 0,
    /// As document 02 says: continue in a for loop goes on with it, at the first instruction of a classic for's increment (at the jump back
    /// where the increment gives none), or at the step of a for-in's counter. Continue in a while is the same in both modes. A tree with a class
    /// is refused ([`Cause::Retired`](crate::Cause::Retired)).
    One = 1,
}

impl From<Mode> for u64 {
    fn from(mode: Mode) -> u64 {
        mode as u64
    }
}
