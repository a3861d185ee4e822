//! A run and its shadow: the replay of a plan, and what fired projected to a slice.

use super::bytes::raw;
use super::list;
use super::read::*;
use super::replay::{Moves, Tables};

const LEFT_OUT: u16 = 0xFFFF;

/// The index, the place that is short or full, the tokens and the count go to `results`.
#[inline(always)]
pub fn shadow(
    plan: &[u8],
    slice: &[u8],
    numbers: &[u16],
    marking: &mut [u64],
    out: &mut [u16],
    results: [&mut u32; 4],
) -> u32 {
    let [index, short, amount, count] = results;
    (*index, *short, *amount, *count) = (0, 0, 0, 0);
    let mut tables = Tables::new();
    // SAFETY: numbers are below the limits once read; listed ones are below the plan's transitions, as far as the table of
    // own numbers is set.
    unsafe {
        let moves = Moves::in_room(&mut tables);
        let p = match moves.read(plan, PLAN) {
            Ok(h) => h,
            Err(refusal) => return refusal,
        };
        let s = match read(slice, SLICE) {
            Ok(h) => h,
            Err(refusal) => return refusal,
        };
        let refusal = list::refusal(numbers, p.transitions);
        if refusal != 0 {
            return refusal;
        }
        if marking.len() < p.places {
            return 13;
        }
        let mut own = raw::<u16, TRANSITIONS>();
        let own = own.as_mut_ptr().cast::<u16>();
        own.write_bytes(0xFF, p.transitions);
        for i in 0..s.transitions {
            let origin = s.transition_origin(i);
            if origin >= p.transitions {
                break;
            }
            *own.add(origin) = i as u16;
        }
        let number_of = |t: &u16| *own.add(usize::from(*t));
        let needed = |part: &[u16]| part.iter().filter(|t| number_of(t) != LEFT_OUT).count();

        // Where the whole list's projection fits, nothing is refused any more, and the replay works in the lent marking.
        let fits = out.len() >= numbers.len() || out.len() >= needed(numbers);
        let mut room = raw::<i64, PLACES>();
        let tokens = if fits { marking.as_mut_ptr().cast::<i64>() } else { room.as_mut_ptr().cast() };
        moves.begin(&p, tokens);
        let stuck = moves.run(&p, numbers, tokens);
        let fired = stuck.as_ref().map_or(numbers, |stuck| numbers.get_unchecked(..stuck.index));
        if !fits {
            if out.len() < needed(fired) {
                return 13;
            }
            marking.as_mut_ptr().cast::<i64>().copy_from_nonoverlapping(tokens, p.places);
        }

        // Up to the last one that stays every entry can be written: what is dropped is written over.
        let mut k = 0;
        if let Some(last) = fired.iter().rposition(|t| number_of(t) != LEFT_OUT) {
            let to = out.as_mut_ptr();
            for t in fired.get_unchecked(..=last) {
                let n = number_of(t);
                *to.add(k) = n;
                k += usize::from(n != LEFT_OUT);
            }
        }
        *count = k as u32;
        match stuck {
            None => 0,
            Some(stuck) => stuck.tell(index, short, amount),
        }
    }
}
