//! Taking the inputs of a transition together, as often as a marking allows.

use super::bytes::*;
use super::read::*;
use super::starts::first;

#[inline(always)]
pub fn together(plan: &[u8], transition: u32, marking: &[u64], rest: &mut [u64], times: &mut u64) -> u32 {
    *times = 0;
    let h = match read(plan, PLAN) {
        Ok(h) => h,
        Err(refusal) => return refusal,
    };
    if transition as usize >= h.transitions {
        return 12;
    }
    if marking.len() != h.places {
        return 15;
    }
    if rest.len() < h.places {
        return 13;
    }
    let t = u64::from(transition);
    // SAFETY: the file was read; places are below the entries of both; behind the arcs the trailer stands, so that one more
    // word can be read.
    unsafe {
        let (tokens, left) = (marking.as_ptr(), rest.as_mut_ptr());
        left.copy_from_nonoverlapping(tokens, h.places);
        let from = first(&h, t, 0, 0);
        let to = inputs_end(&h, t, from);
        if from == to {
            return 100;
        }
        let (mut k, mut j) = (u64::MAX, from);
        let mut arc = h.arc(from);
        while j < to {
            let p = place(arc);
            let mut taken = u64::from(weight(arc));
            j += 1;
            arc = h.arc(j);
            while place(arc) == p && j < to {
                taken += u64::from(weight(arc));
                j += 1;
                arc = h.arc(j);
            }
            // A product in place of a quotient, but where this place allows the fewest so far.
            let held = *tokens.add(p);
            if k.checked_mul(taken).is_none_or(|all| all > held) {
                k = held / taken;
            }
        }
        for arc in (from..to).map(|j| h.arc(j)) {
            *left.add(place(arc)) -= k * u64::from(weight(arc));
        }
        *times = k;
    }
    0
}

/// One past the transition's last input arc, of which `from` is the first: by search where there are many.
#[inline(always)]
unsafe fn inputs_end(h: &Header, transition: u64, from: usize) -> usize {
    const FEW: usize = 8;
    let takes = |j: usize| h.arc(j) & 0x1_FFFF == transition;
    if from + FEW < h.arcs && takes(from + FEW) {
        return first(h, transition, 1, 0);
    }
    let mut to = from;
    while to < h.arcs && takes(to) {
        to += 1;
    }
    to
}
