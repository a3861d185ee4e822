//! Where the arcs of a transition stand in one of two files.

use super::read::{read, PLAN, SLICE};
use super::starts::first;

#[inline(always)]
pub fn arcs(plan: &[u8], slice: &[u8], of_slice: bool, transition: u32, start: &mut u32) -> u32 {
    *start = 0;
    let Ok(plan_header) = read(plan, PLAN) else { return 0 };
    let Ok(slice_header) = read(slice, SLICE) else { return 0 };
    let (h, file) = if of_slice { (slice_header, slice) } else { (plan_header, plan) };
    let t = u64::from(transition);
    if transition as usize >= h.transitions {
        return 0;
    }
    // SAFETY: the file was read.
    unsafe {
        let (from, to) = (first(&h, t, 0, 0), first(&h, t + 1, 0, 0));
        if from == to {
            return 0;
        }
        *start = (h.arcs_at as usize - file.as_ptr() as usize + 8 * from) as u32;
        8 * (to - from) as u32
    }
}
