//! The criterion: refusal 10, or 0.

use super::bytes::get16;

/// `at` has the places, two bytes each. They rise, so the last one is the largest.
#[inline(always)]
pub unsafe fn refusal(at: *const u8, count: usize, places: usize) -> u32 {
    if count == 0 {
        return 0;
    }
    let mut wrong = get16(at.add(2 * count - 2)) >= places;
    for i in 1..count {
        wrong |= get16(at.add(2 * i)) as u16 <= get16(at.add(2 * i - 2)) as u16;
    }
    if wrong {
        10
    } else {
        0
    }
}
