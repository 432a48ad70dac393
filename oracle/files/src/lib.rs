//! The two file formats of document 01, and the table of opcodes; nothing more of what they mean.
pub mod image;
pub mod listing;
pub mod opcodes;
pub mod tree;

/// 65,535: the empty text, an absent child, and no mark where marks have two bytes.
pub const NONE: u16 = 65_535;
