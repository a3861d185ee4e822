//! The two cuts: kept sets by a worklist over linked rows, and the slice written from them.

use super::bytes::*;
use super::criterion;
use super::read::*;

const LEFT_OUT: u16 = 0xFFFF;

/// The rows of a net. For each place its heads. For each arc, counted from 1: the arc before it in its row (16 bits), its
/// transition (16), and that transition's first arc (16).
#[derive(Clone, Copy)]
pub struct Rows {
    heads: *mut Heads,
    links: *mut u64,
}

impl Rows {
    #[inline(always)]
    pub fn in_room(heads: &mut Raw<Heads, PLACES>, links: &mut Raw<u64, { ARCS + 1 }>) -> Rows {
        Rows { heads: heads.as_mut_ptr().cast(), links: links.as_mut_ptr().cast() }
    }

    /// # Safety
    /// The room lasts.
    #[inline(always)]
    pub unsafe fn clear(self, h: &Header) {
        self.heads.write_bytes(0, h.places);
        *self.links = u64::MAX;
    }

    /// The last arc that raises a place, counted from 1, or 0.
    ///
    /// # Safety
    /// The rows are linked, and the place is one of the net's.
    #[inline(always)]
    pub unsafe fn raising(self, place: usize) -> usize {
        usize::from((*self.heads.add(place)).arcs[1])
    }

    /// # Safety
    /// The arc is one of a row.
    #[inline(always)]
    pub unsafe fn link(self, arc: usize) -> u64 {
        *self.links.add(arc)
    }
}

/// The last arc, counted from 1, that lowers a place and the last that raises it; and what the transition of the lowering
/// one takes, less what it gave back so far.
#[derive(Clone, Copy)]
#[repr(C)]
pub struct Heads {
    arcs: [u16; 2],
    taken: u32,
}

/// What is kept so far, a byte for each, and the kept places that are still to be gone through.
#[derive(Clone, Copy)]
pub struct Kept {
    pub places: *mut u8,
    pub transitions: *mut u8,
    pub pending: *mut u16,
}

/// Safety, or branching.
#[inline(always)]
pub fn cut<const SAFETY: bool>(plan: &[u8], q: &[u16], slice: &mut [u8], results: [&mut u32; 3]) -> u32 {
    let [length, places, transitions] = results;
    *length = 0;
    *places = 0;
    *transitions = 0;
    let (mut heads, mut links) = (raw(), raw());
    let rows = Rows::in_room(&mut heads, &mut links);
    // SAFETY: numbers are below the limits once read; tables are cleared as far as the net goes.
    unsafe {
        let read = read_by(plan, PLAN, |h| {
            rows.clear(h);
            rows_of(h.arcs_at, h.arcs, room(h), rows)
        });
        let h = match read {
            Ok(h) => h,
            Err(refusal) => return refusal,
        };
        let refusal = criterion::refusal(q.as_ptr().cast(), q.len(), h.places);
        if refusal != 0 {
            return refusal;
        }
        let mut kept_places = raw::<u8, PLACES>();
        let mut kept_transitions = raw::<u8, TRANSITIONS>();
        let mut pending = raw::<u16, { PLACES + 1 }>();
        let kept = Kept {
            places: kept_places.as_mut_ptr().cast(),
            transitions: kept_transitions.as_mut_ptr().cast(),
            pending: pending.as_mut_ptr().cast(),
        };
        kept.places.write_bytes(0, h.places);
        kept.transitions.write_bytes(0, h.transitions);
        if h.capped {
            keep::<SAFETY, true>(&h, rows, q, kept);
        } else {
            keep::<SAFETY, false>(&h, rows, q, kept);
        }
        write(&h, kept, slice, [length, places, transitions])
    }
}

/// Checks the arcs and links the rows.
#[inline(never)]
unsafe fn rows_of(at: *const u8, count: usize, room: u64, rows: Rows) -> u32 {
    let mut link = Link::new();
    each_arc(at, count, room, |j, arc| link.see(rows, j, arc))
}

/// Links arcs into the rows, one after the other. Of parallel arcs that take, the first one is linked; of those that give,
/// each that raises its place, since the search passes over a transition that it knows.
pub struct Link {
    /// The transition of the arc before, and its first arc.
    last: usize,
    first: usize,
}

impl Link {
    #[inline(always)]
    pub fn new() -> Link {
        Link { last: usize::MAX, first: 0 }
    }

    /// # Safety
    /// Arcs come in order, each within the limits; the rows were cleared.
    #[inline(always)]
    pub unsafe fn see(&mut self, rows: Rows, j: usize, arc: u64) {
        let (t, d, p) = (transition(arc), direction(arc), place(arc));
        let first = if t == self.last { self.first } else { j };
        (self.last, self.first) = (t, first);
        let heads = &mut *rows.heads.add(p);
        let lowering = heads.arcs.as_mut_ptr();
        let before = *rows.links.add(usize::from(*lowering));
        let link = |head: *mut u16| {
            *rows.links.add(j + 1) = u64::from(*head) | (t as u64) << 16 | (first as u64) << 32;
            *head = j as u16 + 1;
        };
        let tokens = weight(arc);
        if (before >> 16) as u16 != t as u16 {
            link(lowering.add(d));
            heads.taken = tokens;
        } else if d == 0 {
            heads.taken += tokens;
        } else {
            // Both ways: only the difference counts.
            let taken = heads.taken;
            heads.taken = taken.wrapping_sub(tokens);
            if tokens >= taken {
                *lowering = before as u16;
            }
            if tokens > taken {
                link(lowering.add(1));
            }
        }
    }
}

/// Keeps what the cut keeps; of a plan with caps, the capped output places and all that changes a capped place too.
#[inline(never)]
unsafe fn keep<const SAFETY: bool, const CAPS: bool>(h: &Header, rows: Rows, q: &[u16], kept: Kept) {
    let (arcs_at, arcs, caps_at) = (h.arcs_at, h.arcs, h.markings_at.add(4));
    let capped = |p: usize| CAPS && get32(caps_at.add(8 * p)) != 0;
    // The bits of an arc that are its transition's: with caps its outputs are gone through too.
    let same = if CAPS { 0xFFFF } else { 0x1_FFFF };
    let mut count = 0;
    let follow = |head: u16, mut count: usize| {
        let mut j = usize::from(head);
        while j != 0 {
            let link = *rows.links.add(j);
            j = (link & 0xFFFF) as usize;
            let t = link >> 16 & 0xFFFF;
            let known = kept.transitions.add(t as usize);
            if *known != 0 {
                continue;
            }
            *known = 1;
            // The input places, new ones pending.
            let mut i = (link >> 32 & 0xFFFF) as usize;
            while i < arcs {
                let arc = get64(arcs_at.add(8 * i));
                if arc & same != t {
                    break;
                }
                i += 1;
                let p = place(arc);
                if CAPS && direction(arc) == 1 && !capped(p) {
                    continue;
                }
                let known = kept.places.add(p);
                *kept.pending.add(count) = p as u16;
                count += usize::from(*known == 0);
                *known = 1;
            }
        }
        count
    };
    for &p in q {
        *kept.places.add(usize::from(p)) = 1;
    }
    for &p in q {
        // In the safety cut what raises a place of Q changes it too, so Q need not be pending.
        let [lowering, raising] = (*rows.heads.add(usize::from(p))).arcs;
        count = follow(lowering, count);
        count = follow(raising, count);
    }
    while count > 0 {
        count -= 1;
        let p = usize::from(*kept.pending.add(count));
        let [lowering, raising] = (*rows.heads.add(p)).arcs;
        if !SAFETY || capped(p) {
            count = follow(lowering, count);
        }
        count = follow(raising, count);
    }
}

/// The kept numbers, rising, and each one's own number; returns their count.
#[inline(always)]
unsafe fn renumber(kept: *const u8, count: usize, origins: *mut u16, own: *mut u16) -> usize {
    let mut k = 0;
    for n in 0..count {
        let stays = *kept.add(n) != 0;
        *origins.add(k) = n as u16;
        *own.add(n) = if stays { k as u16 } else { LEFT_OUT };
        k += usize::from(stays);
    }
    k
}

/// Writes the slice of the kept sets, or refuses with 13.
#[inline(always)]
pub unsafe fn write(h: &Header, kept: Kept, slice: &mut [u8], results: [&mut u32; 3]) -> u32 {
    let mut place_origins = raw::<u16, { PLACES + 1 }>();
    let mut transition_origins = raw::<u16, { TRANSITIONS + 1 }>();
    let mut own_places = raw::<u16, PLACES>();
    let mut own_transitions = raw::<u16, TRANSITIONS>();
    let place_origins = place_origins.as_mut_ptr().cast::<u16>();
    let transition_origins = transition_origins.as_mut_ptr().cast::<u16>();
    let own_places = own_places.as_mut_ptr().cast::<u16>();
    let own_transitions = own_transitions.as_mut_ptr().cast::<u16>();
    let p_count = renumber(kept.places, h.places, place_origins, own_places);
    let t_count = renumber(kept.transitions, h.transitions, transition_origins, own_transitions);

    // An exact count is needed only where the buffer could be too short.
    let each = if h.wide { 8 } else { 4 };
    let rest = (each + 2) * p_count + 2 * t_count + 16;
    if slice.len() < rest + 8 * h.arcs {
        let mut count = 0;
        for j in 0..h.arcs {
            let arc = h.arc(j);
            count += usize::from(*kept.places.add(place(arc)) & *kept.transitions.add(transition(arc)));
        }
        if slice.len() < rest + 8 * count {
            return 13;
        }
    }

    let to = slice.as_mut_ptr();
    if h.wide {
        for i in 0..p_count {
            put64(to.add(8 * i), h.wide_place(usize::from(*place_origins.add(i))));
        }
    } else {
        for i in 0..p_count {
            put32(to.add(4 * i), h.marking(usize::from(*place_origins.add(i))));
        }
    }
    let first = to.add(each * p_count);
    let mut at = write_arcs(h.arcs_at, h.arcs, own_places, own_transitions, first);
    let arcs = (at as usize - first as usize) / 8;
    at.copy_from_nonoverlapping(place_origins.cast(), 2 * p_count);
    at = at.add(2 * p_count);
    at.copy_from_nonoverlapping(transition_origins.cast(), 2 * t_count);
    at = at.add(2 * t_count);
    let body = (each + 2) * p_count + 2 * t_count + 8 * arcs;
    put64(at, body as u64 | (p_count as u64) << 32 | (t_count as u64) << 48);
    let edition = 1 + u64::from(h.wide);
    put64(at.add(8), arcs as u64 | 1 << 16 | edition << 24 | 0x4C4C_4542 << 32);
    let [length, places, transitions] = results;
    *length = body as u32 + 16;
    *places = p_count as u32;
    *transitions = t_count as u32;
    0
}

/// Writes the kept arcs; returns where they end. Each arc is written: one that is left out is written over by the next
/// one or by what follows the arcs, 16 bytes at least.
#[inline(never)]
unsafe fn write_arcs(
    from: *const u8,
    count: usize,
    places: *const u16,
    transitions: *const u16,
    to: *mut u8,
) -> *mut u8 {
    let mut at = to;
    for j in 0..count {
        let arc = get64(from.add(8 * j));
        let (p, t) = (*places.add(place(arc)), *transitions.add(transition(arc)));
        put64(at, arc & 0xFFFF_0000_FFFF_0000 | u64::from(t) | u64::from(p) << 32);
        at = at.add(8 * usize::from((p != LEFT_OUT) & (t != LEFT_OUT)));
    }
    at
}
