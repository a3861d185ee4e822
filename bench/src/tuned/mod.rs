//! The slicer's calls in Rust, written for speed: what the proved library is timed against.
//!
//! Linear algorithms; an arc is one 64-bit word; tables of starts and rows linked by number; sets of bits; all
//! tables on the stack and cleared only as far as the net goes; no bounds checks (every index is below a limit
//! that reading has checked). Answers, refusals and lent buffers are those of papers 01 and 02.

mod arcs;
mod bytes;
mod c;
mod check;
mod criterion;
mod cut;
mod effect;
mod list;
mod range;
mod read;
mod replay;
mod run_cut;
mod shadow;
mod starts;
mod together;
#[cfg(feature = "vectors")]
mod vectors;

pub use c::{arcs, branching, check, effect, range, replay, run_cut, safety, shadow, together, verdict};
