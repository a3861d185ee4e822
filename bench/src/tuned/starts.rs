//! Where the arcs of each transition start, as tables and by search.

use super::bytes::*;
use super::read::Header;

/// Turns the table of ends (one after the last arc of each number, 0 without one) into starts: entry n is then the
/// first arc of number n or above.
#[inline(always)]
pub unsafe fn fill(table: *mut u16, entries: usize) {
    let mut most = 0;
    for i in 0..entries {
        most = most.max(*table.add(i));
        *table.add(i) = most;
    }
}

/// The first arc whose transition, direction and place, in this order, are not below these.
#[inline(always)]
pub unsafe fn first(h: &Header, transition: u64, direction: u64, place: u64) -> usize {
    let wanted = transition << 32 | direction << 16 | place;
    let (mut low, mut left) = (0, h.arcs);
    while left > 0 {
        let half = left / 2;
        let arc = h.arc(low + half);
        let key = (arc & 0xFFFF) << 32 | (arc & 0xFFFF_0000) | (arc >> 32 & 0xFFFF);
        let below = key < wanted;
        low = if below { low + half + 1 } else { low };
        left = if below { left - half - 1 } else { half };
    }
    low
}

/// The sum of the weights of the arcs between the two in a direction.
#[inline(always)]
pub unsafe fn weight_of(h: &Header, transition: u64, direction: u64, place: u64) -> i32 {
    let joining = transition | direction << 16 | place << 32;
    let mut sum = 0;
    for j in first(h, transition, direction, place)..h.arcs {
        let arc = h.arc(j);
        if arc & 0xFFFF_FFFF_FFFF != joining {
            break;
        }
        sum += weight(arc) as i32;
    }
    sum
}
