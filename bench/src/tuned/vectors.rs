//! The arcs four at a time: refusals 6 and 7, or 0. What is wrong, if anything is, the loop over single arcs finds.

use super::read::each_arc;
use std::arch::x86_64::*;

#[inline(never)]
pub unsafe fn arcs(at: *const u8, count: usize, room: u64) -> u32 {
    let blocks = count / 4;
    if blocks == 0 || !good(at, blocks, room) {
        return each_arc(at, count, room, |_, _| ());
    }
    // The rest, and the arc before it once more.
    let last = 4 * blocks - 1;
    each_arc(at.add(8 * last), count - last, room, |_, _| ())
}

/// Whether so many blocks of four arcs are in range and in order.
#[inline(always)]
unsafe fn good(at: *const u8, blocks: usize, room: u64) -> bool {
    // A field's room is 0x8000 less its limit; a limit of 0 makes each arc bad.
    let most = |shift: u32| 0x8000 - (room >> shift & 0xFFFF) as i32 - 1;
    let (transition, place) = (most(0), most(32));
    if transition < 0 || place < 0 {
        return false;
    }
    let (t, p) = (transition as i16, place as i16);
    let high = _mm_set_epi16(-1, p, 1, t, -1, p, 1, t);
    let low = _mm_set_epi16(1, 0, 0, 0, 1, 0, 0, 0);
    // Transition, direction and place as one number of 21 bits.
    let steps = _mm_set_epi16(0, 1, 1_024, 2_048, 0, 1, 1_024, 2_048);
    let mut wrong = _mm_setzero_si128();
    let mut falling = _mm_setzero_si128();
    let mut before = _mm_setzero_si128();
    for i in 0..blocks {
        let v = _mm_loadu_si128(at.add(32 * i).cast());
        let w = _mm_loadu_si128(at.add(32 * i + 16).cast());
        wrong = _mm_or_si128(wrong, _mm_or_si128(_mm_subs_epu16(v, high), _mm_subs_epu16(low, v)));
        wrong = _mm_or_si128(wrong, _mm_or_si128(_mm_subs_epu16(w, high), _mm_subs_epu16(low, w)));
        let a = _mm_castsi128_ps(_mm_madd_epi16(v, steps));
        let b = _mm_castsi128_ps(_mm_madd_epi16(w, steps));
        let even = _mm_castps_si128(_mm_shuffle_ps::<0b10_00_10_00>(a, b));
        let odd = _mm_castps_si128(_mm_shuffle_ps::<0b11_01_11_01>(a, b));
        let keys = _mm_add_epi32(even, odd);
        falling = _mm_or_si128(falling, _mm_cmpgt_epi32(_mm_or_si128(_mm_slli_si128::<4>(keys), before), keys));
        before = _mm_srli_si128::<12>(keys);
    }
    let none = _mm_cmpeq_epi16(_mm_or_si128(wrong, falling), _mm_setzero_si128());
    _mm_movemask_epi8(none) == 0xFFFF
}
