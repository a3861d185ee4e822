//! The arcs of a transition as a part of one of two files, a plan and a slice.

use crate::net::Kind;
use crate::read::read;

/// Where the run starts in the file named, and its bytes; empty at 0 where there is none.
pub fn arcs<'a>(plan: &'a [u8], slice: &'a [u8], of_slice: bool, transition: u32) -> (usize, &'a [u8]) {
    let none: (usize, &[u8]) = (0, &[]);
    let Ok(plan_net) = read(plan, Some(Kind::Plan)) else { return none };
    let Ok(slice_net) = read(slice, Some(Kind::Slice)) else { return none };
    let (net, file) = if of_slice { (slice_net, slice) } else { (plan_net, plan) };
    let transition = transition as usize;
    if transition >= net.transitions() || net.arcs_of(transition).is_empty() {
        return none;
    }
    let start = net.arcs_at + 8 * net.starts[transition];
    let end = net.arcs_at + 8 * net.starts[transition + 1];
    (start, &file[start..end])
}
