//! Refusals: the numbers of documents 01 and 02 with their names, and the cause in words.
use std::error::Error;
use std::fmt::{Display, Formatter};

macro_rules! causes {
    ($($number:literal $variant:ident $name:literal $text:literal,)*) => {
        /// Why there is no image; the numbers and names are those of documents 01 and 02. Later versions know more of them.
        #[derive(Clone, Copy, Debug, PartialEq, Eq, PartialOrd, Ord, Hash)]
        #[non_exhaustive]
        pub enum Cause {
            $(#[doc = concat!($number, ": ", $text, ".")] $variant,)*
            /// The library answered what this crate does not know: another number, or 0 and no image that fits the buffer. Whatever it
            /// means, there is no image.
            Unknown(u64),
        }

        impl Cause {
            /// All that this crate knows, by their numbers.
            pub const ALL: [Cause; [$($number),*].len()] = [$(Cause::$variant),*];

            /// The number in its document, or the unknown one.
            pub fn number(self) -> u64 {
                match self {
                    $(Cause::$variant => $number,)*
                    Cause::Unknown(number) => number,
                }
            }

            /// The name in its document.
            pub fn name(self) -> &'static str {
                match self {
                    $(Cause::$variant => $name,)*
                    Cause::Unknown(_) => "Unknown",
                }
            }

            /// The cause in words.
            pub fn text(self) -> &'static str {
                match self {
                    $(Cause::$variant => $text,)*
                    Cause::Unknown(_) => "the library answers what this crate does not know; they are of different versions",
                }
            }
        }

        // Every cause by its name: a caller's match needs an arm for the others (the first compiles), or a new cause would break it.
        #[cfg(doctest)]
        #[doc = concat!(
            "```\nlet _ = |cause| match cause {\n", $("yengrazul::Cause::", stringify!($variant), " => 0,\n",)*
            "yengrazul::Cause::Unknown(_) => 1,\n_ => 2,\n};\n```\n",
            "```compile_fail,E0004\nlet _ = |cause| match cause {\n", $("yengrazul::Cause::", stringify!($variant), " => 0,\n",)*
            "yengrazul::Cause::Unknown(_) => 1,\n};\n```\n",
        )]
        pub struct MatchedByName;
    };
}

// include/yengrazul.h has the same words, crates/lower_main/src/words.rt those of the lowering, which never gives 19, 20 and 26, and tools/walks.py
// those of a walk; tests/same_words.rs compares them.
causes! {
    1 Frame "Frame" "a header or a payload runs past the end, or there is no field at all",
    2 Many "Many" "a tree may have 32,768 nodes",
    3 Shape "Shape" "a node's tag, size, operators, names and children must be as 01 says, and a program stands last and only there",
    4 Tree "Tree" "every node but the last must be a child exactly once",
    5 Depth "Depth" "a node may stand 128 deep, the program being 1",
    6 Work "Work" "the work area must have 12,288 words and 16 more for each node",
    7 Registers "Registers" "a function may take 255 registers",
    8 Captures "Captures" "a function may capture 255 variables",
    9 Undefined "Undefined" "the variable is found nowhere: no local, capture, builtin or global has its name",
    10 Redefined "Redefined" "a global let must not name a global that is known already",
    11 Stray "Stray" "break and continue must stand in a loop of their own function",
    12 Empty "Empty" "a function body of one statement must give an instruction",
    13 Return "Return" "a return can give back registers 0 to 253, and its value is in register 254",
    14 Constants "Constants" "a program may have 1,024 constants",
    15 Prototypes "Prototypes" "a program may have 256 prototypes, the main one counted",
    16 Nesting "Nesting" "eight functions may be open at once, the main one counted",
    17 Long "Long" "a function may have 32,767 instructions, its last Return counted",
    18 Room "Room" "the image must fit into the output",
    19 ImageFrame "Image frame" "a header or a payload of the image runs past the end, or there is no field at all",
    20 ImageRule "Image rule" "the image's fields must follow as 01 says, and every instruction must keep 02's rules",
    21 Mode "Mode" "the mode must be 0 or 1",
    22 Prototype "Prototype" "the image must have a prototype of this number",
    23 Decision "Decision" "a decision must be 0 or 1",
    25 Order "Order" "a strike must be above the one before it",
    26 ListRoom "List room" "the list must have eight bytes for each jump that is replaced",
    27 Retired "Retired" "classes are retired: mode 1 lowers none, and mode 0 lowers them as before",
    29 Visits "Visits" "there must be a lent byte for each instruction of the prototype",
}

impl Cause {
    /// The known cause that has this number.
    pub fn from_number(number: u64) -> Option<Cause> {
        Cause::ALL.into_iter().find(|cause| cause.number() == number)
    }
}

/// As in `7 Registers`.
impl Display for Cause {
    fn fmt(&self, f: &mut Formatter) -> std::fmt::Result {
        write!(f, "{} {}", self.number(), self.name())
    }
}

/// What a refused tree, image or walk is told.
///
/// ```
/// use yengrazul::{Cause, Refusal};
/// let refusal = Refusal { cause: Cause::Registers, node: 412 };
/// assert_eq!(refusal.to_string(), "refused 7 Registers at node 412: a function may take 255 registers");
/// ```
#[derive(Clone, Copy, Debug, PartialEq, Eq, Hash)]
pub struct Refusal {
    /// Why.
    pub cause: Cause,
    /// Where: nodes are counted from 0, in the order of their fields. Of [`Cause::Frame`] and [`Cause::ImageFrame`], the whole fields before it;
    /// of [`Cause::ImageRule`], the field of the image, or how many there are where the end comes too soon; of [`Cause::Decision`], the offset of
    /// the decision; of [`Cause::Order`], the strike's number in its list; of [`Cause::Mode`], [`Cause::Prototype`], [`Cause::ListRoom`] and
    /// [`Cause::Visits`], 0.
    pub node: u64,
}

impl Display for Refusal {
    fn fmt(&self, f: &mut Formatter) -> std::fmt::Result {
        let (cause, node) = (self.cause, self.node);
        match cause {
            Cause::Frame | Cause::ImageFrame => {
                write!(f, "refused {cause} after {node} whole fields: {}", cause.text())
            }
            Cause::ImageRule => write!(f, "refused {cause} at field {node}: {}", cause.text()),
            Cause::Decision => write!(f, "refused {cause} at byte {node}: {}", cause.text()),
            Cause::Order => write!(f, "refused {cause} at strike {node}: {}", cause.text()),
            Cause::Mode | Cause::Prototype | Cause::ListRoom | Cause::Visits => {
                write!(f, "refused {cause}: {}", cause.text())
            }
            _ => write!(f, "refused {cause} at node {node}: {}", cause.text()),
        }
    }
}

impl Error for Refusal {}
