//! Runs functions with the C interface of the lowering against the oracle.
pub mod calls;
pub mod lent;
pub mod linked;
pub mod mends;
pub mod run;
pub mod stack;
pub mod walks;
