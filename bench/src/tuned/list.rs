//! A list of transitions: refusals 11 and 12, or 0.

#[inline(always)]
pub fn refusal(list: &[u16], transitions: usize) -> u32 {
    if list.len() > 65_535 {
        return 11;
    }
    // No early leave, so that the loop is done by vectors.
    let limit = transitions as u16;
    let mut unknown = false;
    for &t in list {
        unknown |= t >= limit;
    }
    if unknown {
        12
    } else {
        0
    }
}
