//! Replay of a list of firings.

use super::bytes::*;
use super::list;
use super::read::*;
use super::starts;
use std::hint::unreachable_unchecked;

/// Where a list sticks: the index, the place that is short or full, and the tokens that are missing there or above its cap.
pub struct Stuck {
    pub index: usize,
    full: bool,
    place: u32,
    amount: u32,
}

impl Stuck {
    /// 100 short, 101 full; and the three numbers.
    #[inline(always)]
    pub fn tell(&self, index: &mut u32, place: &mut u32, amount: &mut u32) -> u32 {
        (*index, *place, *amount) = (self.index as u32, self.place, self.amount);
        100 + u32::from(self.full)
    }
}

/// The index, the place and the tokens go to `stuck`.
#[inline(always)]
pub fn replay(file: &[u8], numbers: &[u16], marking: &mut [u64], stuck: [&mut u32; 3]) -> u32 {
    let [index, short, amount] = stuck;
    (*index, *short, *amount) = (0, 0, 0);
    let mut tables = Tables::new();
    // SAFETY: numbers are below the limits once read.
    unsafe {
        let moves = Moves::in_room(&mut tables);
        let h = match moves.read(file, EITHER) {
            Ok(h) => h,
            Err(refusal) => return refusal,
        };
        let refusal = list::refusal(numbers, h.transitions);
        if refusal != 0 {
            return refusal;
        }
        if marking.len() < h.places {
            return 13;
        }
        let tokens = marking.as_mut_ptr().cast::<i64>();
        moves.begin(&h, tokens);
        match moves.run(&h, numbers, tokens) {
            None => 0,
            Some(stuck) => stuck.tell(index, short, amount),
        }
    }
}

/// Room for the moves of a net.
pub struct Tables {
    starts: Raw<u16, { TRANSITIONS + 1 }>,
    moves: Raw<i32, ARCS>,
}

impl Tables {
    #[inline(always)]
    pub fn new() -> Tables {
        Tables { starts: raw(), moves: raw() }
    }
}

/// The moves of a net: of each arc its place and above it the tokens that it adds; and each transition's first.
#[derive(Clone, Copy)]
pub struct Moves {
    starts: *mut u16,
    moves: *mut i32,
}

impl Moves {
    #[inline(always)]
    pub fn in_room(tables: &mut Tables) -> Moves {
        Moves { starts: tables.starts.as_mut_ptr().cast(), moves: tables.moves.as_mut_ptr().cast() }
    }

    /// Reads a file of the kind due; the starts are ends as yet.
    ///
    /// # Safety
    /// The tables last.
    #[inline(always)]
    pub unsafe fn read(self, file: &[u8], due: u64) -> Result<Header, u32> {
        read_by(file, due, |h| {
            self.clear(h);
            moves_of(h.arcs_at, h.arcs, room(h), self)
        })
    }

    /// # Safety
    /// The tables last.
    #[inline(always)]
    pub unsafe fn clear(self, h: &Header) {
        self.starts.write_bytes(0, h.transitions + 1);
    }

    /// Notes an arc: its move, and one past it as its transition's end so far.
    ///
    /// # Safety
    /// Arcs come in order, each within the limits; the starts were cleared.
    #[inline(always)]
    pub unsafe fn note(self, j: usize, arc: u64) {
        *self.starts.add(transition(arc) + 1) = j as u16 + 1;
        let tokens = weight(arc) as i32;
        let adds = if direction(arc) == 1 { tokens } else { -tokens };
        *self.moves.add(j) = adds << 10 | place(arc) as i32;
    }

    /// The input places of a transition; moves that take come first, and are below 0.
    ///
    /// # Safety
    /// The starts are made, and the transition is one of the net's.
    #[inline(always)]
    pub unsafe fn inputs(self, transition: usize) -> impl Iterator<Item = usize> {
        let (from, to) = (*self.starts.add(transition), *self.starts.add(transition + 1));
        let moves = (from..to).map(move |j| *self.moves.add(usize::from(j)));
        moves.take_while(|&m| m < 0).map(|m| (m & 1023) as usize)
    }

    /// Makes the starts, and loads the initial marking.
    ///
    /// # Safety
    /// The header is of the file that was read; there are as many entries as places.
    #[inline(always)]
    pub unsafe fn begin(self, h: &Header, tokens: *mut i64) {
        starts::fill(self.starts, h.transitions + 1);
        if h.wide {
            for p in 0..h.places {
                *tokens.add(p) = (h.wide_place(p) & 0xFFFF_FFFF) as i64;
            }
        } else {
            for p in 0..h.places {
                *tokens.add(p) = i64::from(h.marking(p));
            }
        }
    }

    /// What a list needs, from its last firing back: in one loop over the moves of a transition from its last to its first, those that
    /// give come first. What is given beyond the need shows in the sign, and is 0.
    ///
    /// # Safety
    /// As for `begin` and `run`; no place has a cap.
    #[inline(always)]
    pub unsafe fn needed(self, h: &Header, numbers: &[u16], needed: *mut i64) {
        let Moves { starts, moves } = self;
        starts::fill(starts, h.transitions + 1);
        needed.write_bytes(0, h.places);
        for &t in numbers.iter().rev() {
            let from = usize::from(*starts.add(usize::from(t)));
            let mut j = usize::from(*starts.add(usize::from(t) + 1));
            while j > from {
                j -= 1;
                let m = *moves.add(j);
                let at = needed.add((m & 1023) as usize);
                let before = *at - i64::from(m >> 10);
                *at = before & !(before >> 63);
            }
        }
    }

    /// Fires a list of the file that was read.
    ///
    /// # Safety
    /// The numbers are transitions of the file; there are as many tokens as places.
    #[inline(always)]
    pub unsafe fn run(self, h: &Header, numbers: &[u16], tokens: *mut i64) -> Option<Stuck> {
        if h.capped {
            self.run_capped(h, numbers, tokens)
        } else {
            self.run_plain(numbers, tokens)
        }
    }

    /// The same with caps. A place without one has a limit that nothing reaches. Within one firing a place is highest once all
    /// is added, so what is above a limit on the way is above it then.
    #[inline(never)]
    unsafe fn run_capped(self, h: &Header, numbers: &[u16], tokens: *mut i64) -> Option<Stuck> {
        let Moves { starts, moves } = self;
        let mut limits = raw::<i64, PLACES>();
        let limits = limits.as_mut_ptr().cast::<i64>();
        for p in 0..h.places {
            let cap = (h.wide_place(p) >> 32) as i64;
            *limits.add(p) = if cap == 0 { i64::MAX } else { cap };
        }
        for (index, &t) in numbers.iter().enumerate() {
            let from = usize::from(*starts.add(usize::from(t)));
            let to = usize::from(*starts.add(usize::from(t) + 1));
            let mut signs = 0;
            for j in from..to {
                let m = *moves.add(j);
                let p = (m & 1023) as usize;
                let now = *tokens.add(p) + i64::from(m >> 10);
                *tokens.add(p) = now;
                // A place that goes below 0, or above its limit, shows in the sign.
                signs |= now | (*limits.add(p)).wrapping_sub(now);
            }
            if signs < 0 {
                return Some(hindrance(index, moves.add(from), to - from, tokens, limits));
            }
        }
        None
    }

    /// The same of a file without caps.
    ///
    /// # Safety
    /// As for `run`.
    #[inline(always)]
    pub unsafe fn run_plain(self, numbers: &[u16], tokens: *mut i64) -> Option<Stuck> {
        let Moves { starts, moves } = self;
        for (i, &t) in numbers.iter().enumerate() {
            let from = usize::from(*starts.add(usize::from(t)));
            let to = usize::from(*starts.add(usize::from(t) + 1));
            // Takes come first; a place that goes below 0 shows in the sign.
            let mut signs = 0;
            for j in from..to {
                let m = *moves.add(j);
                let at = tokens.add((m & 1023) as usize);
                let now = *at + i64::from(m >> 10);
                *at = now;
                signs |= now;
            }
            if signs < 0 {
                for j in from..to {
                    let m = *moves.add(j);
                    *tokens.add((m & 1023) as usize) -= i64::from(m >> 10);
                }
                let (place, amount) = lowest_short(moves.add(from), to - from, tokens).unwrap_unchecked();
                return Some(Stuck { index: i, full: false, place, amount });
            }
        }
        None
    }
}

/// Checks the arcs; makes a move of each, and the table of ends.
#[inline(never)]
unsafe fn moves_of(at: *const u8, count: usize, room: u64, moves: Moves) -> u32 {
    each_arc(at, count, room, |j, arc| moves.note(j, arc))
}

/// Why the moves were not to be made, which stand in the tokens: a place is short, or else full. The tokens are as before them
/// afterwards.
#[cold]
unsafe fn hindrance(index: usize, moves: *const i32, count: usize, tokens: *mut i64, limits: *const i64) -> Stuck {
    let moves = std::slice::from_raw_parts(moves, count);
    let place = |m: &i32| (m & 1023) as usize;
    // Those that give come last, in order by place.
    let over = |m: &&i32| **m >= 0 && *tokens.add(place(m)) > *limits.add(place(m));
    let full = moves.iter().find(over).map(|m| (place(m) as u32, *tokens.add(place(m)) - *limits.add(place(m))));
    for m in moves {
        *tokens.add(place(m)) -= i64::from(m >> 10);
    }
    match (lowest_short(moves.as_ptr(), count, tokens), full) {
        (Some((place, amount)), _) => Stuck { index, full: false, place, amount },
        (None, Some((place, excess))) => Stuck { index, full: true, place, amount: excess as u32 },
        (None, None) => unreachable_unchecked(),
    }
}

/// The lowest place from which the moves take more than there is, parallel ones together, and the tokens missing there.
/// Moves that take come first, and are below 0.
#[cold]
unsafe fn lowest_short(moves: *const i32, count: usize, tokens: *const i64) -> Option<(u32, u32)> {
    let mut j = 0;
    while j < count && *moves.add(j) < 0 {
        let p = *moves.add(j) & 1023;
        let mut left = *tokens.add(p as usize);
        while j < count && *moves.add(j) < 0 && *moves.add(j) & 1023 == p {
            left += i64::from(*moves.add(j) >> 10);
            j += 1;
        }
        if left < 0 {
            return Some((p as u32, -left as u32));
        }
    }
    None
}
