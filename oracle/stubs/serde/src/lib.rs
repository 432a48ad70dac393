//! The two names that the source imports.
pub use serde_derive::{Deserialize, Serialize};
