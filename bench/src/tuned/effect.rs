//! The effect of a transition on a place.

use super::read::{read, EITHER};
use super::starts::weight_of;

#[inline(always)]
pub fn effect(file: &[u8], place: u32, transition: u32, effect: &mut i32) -> u32 {
    *effect = 0;
    let h = match read(file, EITHER) {
        Ok(h) => h,
        Err(refusal) => return refusal,
    };
    if place as usize >= h.places {
        return 10;
    }
    if transition as usize >= h.transitions {
        return 12;
    }
    let (p, t) = (u64::from(place), u64::from(transition));
    // SAFETY: the file was read.
    *effect = unsafe { weight_of(&h, t, 1, p) - weight_of(&h, t, 0, p) };
    0
}
