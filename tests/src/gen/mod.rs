//! The generator of cases: files good and damaged, criteria, lists, numbers and buffers.

mod calls;
mod damage;
mod draft;
mod inputs;
mod plan;
mod pnml;
mod slice;
mod starts;

pub use calls::*;
pub use damage::{any_refusal, damage};
pub use draft::{Draft, DraftArc};
pub use inputs::*;
pub use plan::{capped_plan, limit_plan, plan};
pub use pnml::pnml_case;
pub use slice::*;
pub use starts::*;
