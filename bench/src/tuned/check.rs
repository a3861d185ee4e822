//! The checker: the ten rules, in order.

use super::bytes::*;
use super::criterion;
use super::read::*;

/// The C check: the criterion as bytes, one number back.
#[inline(always)]
pub fn check(plan: &[u8], slice: &[u8], q_bytes: &[u8]) -> u32 {
    let odd = q_bytes.len() % 2 == 1;
    // SAFETY: the criterion has as many entries as told.
    unsafe { judge(plan, slice, q_bytes.as_ptr(), q_bytes.len() / 2, odd, &mut 0) }
}

#[inline(always)]
pub fn verdict(plan: &[u8], slice: &[u8], q: &[u16], number: &mut u32) -> u32 {
    *number = 0;
    // SAFETY: the criterion has as many entries as told.
    unsafe { judge(plan, slice, q.as_ptr().cast(), q.len(), false, number) }
}

/// The plan's places and transitions as the slice has them, as words that change a plan's arc into the slice's by
/// exclusive or. An arc's bits 17 to 31 are 0; there they say what is left out, what is in Q and what has a cap.
#[derive(Clone, Copy)]
struct Own {
    places: *mut u64,
    transitions: *mut u32,
}

const PLACE_LEFT_OUT: u64 = 1 << 17;
const TRANSITION_LEFT_OUT: u64 = 1 << 18;
const IN_Q: u64 = 1 << 19;
const CAPPED: u64 = 1 << 20;

impl Own {
    #[inline(always)]
    unsafe fn change(self, arc: u64) -> u64 {
        *self.places.add(place(arc)) ^ u64::from(*self.transitions.add(transition(arc)))
    }
}

/// Whether both ends of an arc are kept.
#[inline(always)]
fn stays(change: u64) -> bool {
    change & (PLACE_LEFT_OUT | TRANSITION_LEFT_OUT) == 0
}

/// Whether such an arc can break a rule, by its direction (bit 0), place and transition left out (1, 2), Q (3) and a cap (4): from
/// a place left out to a kept transition; of a transition left out, to a kept place or from one of Q. Where the place has a
/// cap, also from a kept transition to a place left out, and from a kept place to a transition left out.
const ODD: u32 = {
    let plain = 1 << 0b0010 | 1 << 0b0101 | 1 << 0b1101 | 1 << 0b1100;
    plain | (plain | 1 << 0b0011 | 1 << 0b0100) << 16
};

#[inline(always)]
fn odd(changed: u64) -> u32 {
    ODD >> (changed >> 16 & 31)
}

#[inline(always)]
unsafe fn judge(plan: &[u8], slice: &[u8], q: *const u8, q_count: usize, odd: bool, number: &mut u32) -> u32 {
    let p = match read(plan, PLAN) {
        Ok(h) => h,
        Err(refusal) => return refusal,
    };
    let s = match trailer(slice, SLICE) {
        Ok(h) => h,
        Err(refusal) => return refusal,
    };
    let mut broken = |rule: u32, by: usize| {
        *number = by as u32;
        100 + rule
    };
    let refusal = if odd { 9 } else { criterion::refusal(q, q_count, p.places) };
    let rise = origins_rise(&s);
    // Origins rise, so the last one decides.
    let places_fit = s.places == 0 || s.place_origin(s.places - 1) < p.places;
    let transitions_fit = s.transitions == 0 || s.transition_origin(s.transitions - 1) < p.transitions;
    if !(refusal == 0 && rise && places_fit && transitions_fit) {
        let of_arcs = arcs(s.arcs_at, s.arcs, room(&s));
        if of_arcs != 0 {
            return of_arcs;
        }
        if !rise {
            return 8;
        }
        if refusal != 0 {
            return refusal;
        }
        // 1, 2.
        if !places_fit {
            return broken(1, (0..s.places).find(|&i| s.place_origin(i) >= p.places).unwrap_unchecked());
        }
        return broken(2, (0..s.transitions).find(|&i| s.transition_origin(i) >= p.transitions).unwrap_unchecked());
    }

    let mut own_places = raw::<u64, PLACES>();
    let mut own_transitions = raw::<u32, TRANSITIONS>();
    let own = Own { places: own_places.as_mut_ptr().cast(), transitions: own_transitions.as_mut_ptr().cast() };
    for i in 0..p.places {
        *own.places.add(i) = PLACE_LEFT_OUT;
    }
    for i in 0..p.transitions {
        *own.transitions.add(i) = TRANSITION_LEFT_OUT as u32;
    }
    let mut marked = true;
    for i in 0..s.places {
        let origin = s.place_origin(i);
        *own.places.add(origin) = ((i ^ origin) as u64) << 32;
        marked &= s.place(i) == p.place(origin);
    }
    if p.capped {
        for i in 0..p.places {
            *own.places.add(i) |= if p.wide_place(i) >> 32 != 0 { CAPPED } else { 0 };
        }
    }
    for i in 0..s.transitions {
        let origin = s.transition_origin(i);
        *own.transitions.add(origin) = (i ^ origin) as u32;
    }
    let mut q_kept = true;
    for i in 0..q_count {
        let entry = own.places.add(get16(q.add(2 * i)));
        q_kept &= *entry & PLACE_LEFT_OUT == 0;
        *entry |= IN_Q;
    }

    let (same, odd) = compare(&p, &s, own);
    // Arcs that are those due are in range and in order.
    if !same {
        let of_arcs = arcs(s.arcs_at, s.arcs, room(&s));
        if of_arcs != 0 {
            return of_arcs;
        }
    }
    // 3, 4, 5.
    if !marked {
        let differs = |&i: &usize| s.place(i) != p.place(s.place_origin(i));
        return broken(3, s.place_origin((0..s.places).find(differs).unwrap_unchecked()));
    }
    if !same {
        return broken(4, s.transition_origin(first_other(&p, &s, own)));
    }
    if !q_kept {
        // A place of Q that is left out still has its mark.
        let left_out = |&i: &usize| *own.places.add(get16(q.add(2 * i))) & PLACE_LEFT_OUT != 0;
        return broken(5, get16(q.add(2 * (0..q_count).find(left_out).unwrap_unchecked())));
    }
    if !odd {
        return 0;
    }
    // 6 to 10.
    let found = look(&p, own);
    let rules = [found.changes, found.unfed, found.raises, found.unheld, found.changes_capped];
    for (rule, by) in (6..).zip(rules) {
        if by != NONE {
            return broken(rule, by);
        }
    }
    0
}

const NONE: usize = usize::MAX;

/// Whether the slice's arcs are those due, and whether an arc of the plan wants a closer look. If not the first, the
/// second is not said. One pass over the plan's arcs.
#[inline(never)]
unsafe fn compare(p: &Header, s: &Header, own: Own) -> (bool, bool) {
    let (arcs_at, count, end) = (p.arcs_at, p.arcs, s.origins_at);
    let mut at = s.arcs_at;
    let (mut differs, mut oddity) = (0, 0);
    for j in 0..count {
        let arc = get64(arcs_at.add(8 * j));
        let change = own.change(arc);
        let changed = arc ^ change;
        oddity |= odd(changed);
        // Behind the arcs the trailer stands, so the word can be read.
        let other = (get64(at) ^ changed) & !(IN_Q | CAPPED);
        differs |= if stays(change) { other } else { 0 };
        at = at.add(8 * usize::from(stays(change)));
        if at > end {
            return (false, false);
        }
    }
    (differs == 0 && at == end, oddity & 1 != 0)
}

/// The slice's first transition whose arcs are not those due; there is one.
#[cold]
unsafe fn first_other(p: &Header, s: &Header, own: Own) -> usize {
    let mut k = 0;
    for j in 0..p.arcs {
        let arc = p.arc(j);
        let change = own.change(arc);
        if stays(change) {
            let due = (arc ^ change) & !(IN_Q | CAPPED);
            let wanted = transition(due);
            if k == s.arcs {
                return wanted;
            }
            if s.arc(k) != due {
                // An earlier transition may have an arc too many.
                return wanted.min(transition(s.arc(k)));
            }
            k += 1;
        }
    }
    transition(s.arc(k))
}

/// The first transition left out that changes a place of Q, the first kept one with an input left out, the first left out
/// that raises a kept place, the first kept one with a capped output left out, and the first left out that changes a kept
/// capped place.
struct Found {
    changes: usize,
    unfed: usize,
    raises: usize,
    unheld: usize,
    changes_capped: usize,
}

/// Goes through the arcs that want a closer look.
#[inline(never)]
unsafe fn look(p: &Header, own: Own) -> Found {
    let mut found = Found { changes: NONE, unfed: NONE, raises: NONE, unheld: NONE, changes_capped: NONE };
    let mut j = 0;
    while j < p.arcs {
        let arc = p.arc(j);
        let change = own.change(arc);
        if odd(arc ^ change) & 1 == 0 {
            j += 1;
            continue;
        }
        let t = transition(arc);
        if change & TRANSITION_LEFT_OUT == 0 {
            let first = if direction(arc) == 0 { &mut found.unfed } else { &mut found.unheld };
            *first = t.min(*first);
            j += 1;
            continue;
        }
        // An arc may be balanced by its counterpart: the whole transition is looked at.
        let mut from = j;
        while from > 0 && transition(p.arc(from - 1)) == t {
            from -= 1;
        }
        let (effects, to) = effects(p, from, own);
        if effects.changes {
            found.changes = t;
            return found;
        }
        if effects.raises {
            found.raises = found.raises.min(t);
        }
        if effects.changes_capped {
            found.changes_capped = found.changes_capped.min(t);
        }
        j = to;
    }
    found
}

/// Whether a transition changes a place of Q, raises a kept place, changes a kept capped place.
struct Effects {
    changes: bool,
    raises: bool,
    changes_capped: bool,
}

/// Of the transition whose arcs start there, and where its arcs end.
#[inline(never)]
unsafe fn effects(p: &Header, from: usize, own: Own) -> (Effects, usize) {
    let t = transition(p.arc(from));
    let mut middle = from;
    while middle < p.arcs && p.arc(middle) & 0x1_FFFF == t as u64 {
        middle += 1;
    }
    let mut to = middle;
    while to < p.arcs && transition(p.arc(to)) == t {
        to += 1;
    }
    let (mut i, mut o) = (from, middle);
    let mut effects = Effects { changes: false, raises: false, changes_capped: false };
    while i < middle || o < to {
        let input = if i < middle { place(p.arc(i)) } else { NONE };
        let output = if o < to { place(p.arc(o)) } else { NONE };
        let here = input.min(output);
        let (mut taken, mut given) = (0, 0);
        while i < middle && place(p.arc(i)) == here {
            taken += weight(p.arc(i));
            i += 1;
        }
        while o < to && place(p.arc(o)) == here {
            given += weight(p.arc(o));
            o += 1;
        }
        let at = *own.places.add(here);
        effects.changes |= given != taken && at & IN_Q != 0;
        effects.raises |= given > taken && at & PLACE_LEFT_OUT == 0;
        effects.changes_capped |= given != taken && at & (CAPPED | PLACE_LEFT_OUT) == CAPPED;
    }
    (effects, to)
}
