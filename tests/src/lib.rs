//! A second implementation of papers 01 and 02 in plain Rust, written from the papers alone, and what is needed
//! to compare it with the library: a generator of cases, and the papers' examples as fixed cases.

// The implementation, one module an idea.
pub mod arcs;
pub mod check;
pub mod criterion;
pub mod cut;
pub mod effect;
pub mod list;
pub mod net;
pub mod normal;
pub mod pnml;
pub mod range;
pub mod read;
pub mod replay;
pub mod run_cut;
pub mod shadow;
pub mod start;
pub mod together;
pub mod transfer;
pub mod write;

// The cases.
pub mod cases;
pub mod fixed;
pub mod gen;
pub mod json;
pub mod published;
pub mod rng;
