//! What a list needs, and from which markings of a range it fires.

use super::list;
use super::read::*;
use super::replay::{Moves, Tables};

#[inline(always)]
pub fn range(plan: &[u8], numbers: &[u16], upper: &[u32], need: &mut [u64]) -> u32 {
    let mut tables = Tables::new();
    // SAFETY: numbers are below the limits once read; there are as many entries as places.
    unsafe {
        let moves = Moves::in_room(&mut tables);
        let h = match moves.read(plan, PLAN) {
            Ok(h) => h,
            Err(refusal) => return refusal,
        };
        if h.capped {
            return 17;
        }
        let refusal = list::refusal(numbers, h.transitions);
        if refusal != 0 {
            return refusal;
        }
        let marking = |p: usize| if h.wide { h.wide_place(p) as u32 } else { h.marking(p) };
        if upper.len() != h.places || (0..h.places).any(|p| *upper.get_unchecked(p) < marking(p)) {
            return 21;
        }
        if need.len() < h.places {
            return 13;
        }
        let needed = need.as_mut_ptr().cast::<i64>();
        moves.needed(&h, numbers, needed);
        let lacks = |p: usize, held: u32| *needed.add(p) > i64::from(held);
        if !(0..h.places).any(|p| lacks(p, marking(p))) {
            return 0;
        }
        if !(0..h.places).any(|p| lacks(p, *upper.get_unchecked(p))) {
            return 100;
        }
        101
    }
}
