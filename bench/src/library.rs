//! The library's calls.

#[path = "../../include/nesfoal.rs"]
mod nesfoal;
pub use nesfoal::*;
