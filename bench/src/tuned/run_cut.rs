//! The cut for one recorded run: a replay, one pass back over the list, and the slice and the positions written.

use super::bytes::*;
use super::criterion;
use super::cut::{self, Kept, Link, Rows};
use super::list;
use super::read::*;
use super::replay::{Moves, Tables};

/// The length and the counts of places, transitions and positions go to `written`; where the list sticks, the index, the
/// place that is short and the tokens missing there to `stuck`.
#[inline(always)]
pub fn run_cut(
    plan: &[u8],
    q: &[u16],
    numbers: &[u16],
    slice: &mut [u8],
    positions: &mut [u16],
    written: [&mut u32; 4],
    stuck: [&mut u32; 3],
) -> u32 {
    let ([length, places, transitions, count], [index, short, amount]) = (written, stuck);
    (*length, *places, *transitions, *count) = (0, 0, 0, 0);
    (*index, *short, *amount) = (0, 0, 0);
    let (mut tables, mut heads, mut links) = (Tables::new(), raw(), raw());
    // SAFETY: numbers are below the limits once read; tables are cleared as far as the net goes.
    unsafe {
        let (moves, rows) = (Moves::in_room(&mut tables), Rows::in_room(&mut heads, &mut links));
        let read = read_by(plan, PLAN, |h| {
            moves.clear(h);
            rows.clear(h);
            moves_and_rows(h.arcs_at, h.arcs, room(h), moves, rows)
        });
        let h = match read {
            Ok(h) => h,
            Err(refusal) => return refusal,
        };
        if h.capped {
            return 17;
        }
        let refusal = criterion::refusal(q.as_ptr().cast(), q.len(), h.places);
        if refusal != 0 {
            return refusal;
        }
        let refusal = list::refusal(numbers, h.transitions);
        if refusal != 0 {
            return refusal;
        }
        let mut tokens = raw::<i64, PLACES>();
        let tokens = tokens.as_mut_ptr().cast::<i64>();
        moves.begin(&h, tokens);
        if let Some(stuck) = moves.run_plain(numbers, tokens) {
            stuck.tell(index, short, amount);
            return 14;
        }

        let mut kept_places = raw::<u8, PLACES>();
        let mut kept_transitions = raw::<u8, TRANSITIONS>();
        let mut pending = raw::<u16, { PLACES + 1 }>();
        let mut marks = raw::<u8, TRANSITIONS>();
        let mut ends = raw::<u16, TRANSITIONS>();
        let kept = Kept {
            places: kept_places.as_mut_ptr().cast(),
            transitions: kept_transitions.as_mut_ptr().cast(),
            pending: pending.as_mut_ptr().cast(),
        };
        let (marks, ends) = (marks.as_mut_ptr().cast::<u8>(), ends.as_mut_ptr().cast::<u16>());
        kept.places.write_bytes(0, h.places);
        kept.transitions.write_bytes(0, h.transitions);
        marks.write_bytes(0, h.transitions);
        ends.write_bytes(0, h.transitions);
        let end = go_back(moves, rows, q, numbers, kept, marks, ends);

        // A firing is chosen where it stands before its transition's end; the last one of all is.
        let numbers = numbers.get_unchecked(..end);
        let chosen = |i: usize, t: &u16| i < usize::from(*ends.add(usize::from(*t)));
        if positions.len() < end {
            let needed = numbers.iter().enumerate().filter(|&(i, t)| chosen(i, t)).count();
            if positions.len() < needed {
                return 13;
            }
        }
        let refusal = cut::write(&h, kept, slice, [length, places, transitions]);
        if refusal != 0 {
            return refusal;
        }
        let to = positions.as_mut_ptr();
        let mut k = 0;
        for (i, t) in numbers.iter().enumerate() {
            *to.add(k) = i as u16;
            k += usize::from(chosen(i, t));
        }
        *count = k as u32;
        0
    }
}

/// Checks the arcs, makes the moves and links the rows.
#[inline(never)]
unsafe fn moves_and_rows(at: *const u8, count: usize, room: u64, moves: Moves, rows: Rows) -> u32 {
    let mut link = Link::new();
    each_arc(at, count, room, |j, arc| {
        moves.note(j, arc);
        link.see(rows, j, arc);
    })
}

/// Goes back over the list: keeps the final W and the chosen transitions, and leaves one past its last chosen position for
/// each transition. Returns that of the last chosen position of all. A transition that raises a place of W is marked, and
/// chosen where it is met first; the pass ends where none that is marked is left to be met.
#[inline(never)]
unsafe fn go_back(
    moves: Moves,
    rows: Rows,
    q: &[u16],
    numbers: &[u16],
    kept: Kept,
    marks: *mut u8,
    ends: *mut u16,
) -> usize {
    const MARKED: u8 = 1;
    const MET: u8 = 2;
    let mut waiting = 0;
    let enter = |p: usize, mut waiting: usize| {
        let mut j = rows.raising(p);
        while j != 0 {
            let link = rows.link(j);
            j = (link & 0xFFFF) as usize;
            let mark = marks.add((link >> 16 & 0xFFFF) as usize);
            waiting += usize::from(*mark == 0);
            *mark = u8::max(*mark, MARKED);
        }
        waiting
    };
    for &p in q {
        *kept.places.add(usize::from(p)) = 1;
    }
    for &p in q {
        waiting = enter(usize::from(p), waiting);
    }
    if waiting == 0 {
        return 0;
    }
    let mut end = 0;
    for (i, &t) in numbers.iter().enumerate().rev() {
        let t = usize::from(t);
        if *marks.add(t) != MARKED {
            continue;
        }
        *marks.add(t) = MET;
        *kept.transitions.add(t) = 1;
        *ends.add(t) = i as u16 + 1;
        end = usize::max(end, i + 1);
        for p in moves.inputs(t) {
            let known = kept.places.add(p);
            if *known == 0 {
                *known = 1;
                waiting = enter(p, waiting);
            }
        }
        waiting -= 1;
        if waiting == 0 {
            break;
        }
    }
    end
}
