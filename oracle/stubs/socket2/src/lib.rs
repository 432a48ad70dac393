//! The one type that the source names.
#[derive(Debug)]
pub struct Socket;
