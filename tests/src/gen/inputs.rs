//! What goes with the files: criteria, lists, numbers, and how memory is lent.

use crate::cases::Lent;
use crate::net::{Net, MAX_LIST};
use crate::replay::{fire, hindrance, initial};
use crate::rng::Rng;

/// A good criterion, empty where there is no place, and now and then else.
pub fn good_criterion(rng: &mut Rng, places: usize) -> Vec<u16> {
    if places == 0 || rng.percent(6) {
        return Vec::new();
    }
    match rng.below(10) {
        0..=6 => vec![rng.below(places) as u16],
        7..=8 => {
            let mut q: Vec<u16> = (0..rng.range(1, 4)).map(|_| rng.below(places) as u16).collect();
            q.sort();
            q.dedup();
            q
        }
        _ => {
            let share = *rng.pick(&[10, 50, 100]);
            let q: Vec<u16> = (0..places as u16).filter(|_| rng.percent(share)).collect();
            if q.is_empty() {
                vec![0]
            } else {
                q
            }
        }
    }
}

/// A place that some firing of the list raises, now and then with other places; any criterion where there is none.
pub fn raised_criterion(rng: &mut Rng, net: &Net, list: &[u16]) -> Vec<u16> {
    let mut listed: Vec<usize> = list.iter().map(|&t| usize::from(t)).filter(|&t| t < net.transitions()).collect();
    listed.sort();
    listed.dedup();
    let mut raised = Vec::new();
    for t in listed {
        net.each_effect(t, |p, effect| {
            if effect > 0 {
                raised.push(p as u16);
            }
        });
    }
    let mut q = good_criterion(rng, net.places());
    if !raised.is_empty() {
        if rng.percent(80) {
            q.clear();
        }
        q.push(*rng.pick(&raised));
        q.sort();
        q.dedup();
    }
    q
}

/// A criterion with an unknown place, or one that does not rise.
pub fn bad_criterion(rng: &mut Rng, places: usize) -> Vec<u16> {
    let mut q = good_criterion(rng, places);
    if q.is_empty() {
        q.push(0);
    }
    let at = rng.below(q.len());
    match rng.below(5) {
        0 => q[at] = places as u16,
        1 => q.push(rng.range(places, 65_535) as u16),
        2 => q.insert(at, q[at]),
        3 => {
            q.push(q[0]);
        }
        _ => {
            q.reverse();
            q.push(rng.below(places + 1) as u16);
        }
    }
    q
}

pub fn to_bytes(q: &[u16]) -> Vec<u8> {
    q.iter().flat_map(|p| p.to_le_bytes()).collect()
}

/// A list that fires, of up to so many firings.
pub fn firing_list(rng: &mut Rng, net: &Net, most: usize) -> Vec<u16> {
    fire_on(rng, net, most).0
}

/// A list that fires and the marking it ends with.
fn fire_on(rng: &mut Rng, net: &Net, most: usize) -> (Vec<u16>, Vec<u64>) {
    let mut marking = initial(net);
    let mut list = Vec::new();
    let transitions = net.transitions();
    let mut misses = 0;
    while transitions > 0 && list.len() < most && misses < 12 {
        let t = rng.below(transitions);
        if fire(net, t, &mut marking).is_ok() {
            list.push(t as u16);
            misses = 0;
        } else {
            misses += 1;
        }
    }
    (list, marking)
}

/// A list whose last number finds a place full, where that comes soon, after other firings if there can be any.
fn filling_list(rng: &mut Rng, net: &Net, most: usize) -> Vec<u16> {
    let mut marking = initial(net);
    let mut list = Vec::new();
    let mut first = None;
    for _ in 0..8 * most {
        let t = rng.below(net.transitions());
        match fire(net, t, &mut marking) {
            Ok(()) => list.push(t as u16),
            Err(why) if why.full && !list.is_empty() => {
                list.push(t as u16);
                return list;
            }
            Err(why) if why.full => first = Some(t as u16),
            Err(_) => (),
        }
    }
    list.extend(first.filter(|_| list.is_empty()));
    list
}

/// A list for replay: none, any numbers, one that fires, or one that sticks after some firings.
pub fn list_for(rng: &mut Rng, net: &Net) -> Vec<u16> {
    let transitions = net.transitions();
    if transitions == 0 || rng.percent(4) {
        return Vec::new();
    }
    let most = match rng.below(1_000) {
        0 => *rng.pick(&[MAX_LIST, MAX_LIST, 20_000]),
        1..=10 => 1_000,
        11..=90 => rng.range(65, 200),
        _ => 24,
    };
    match rng.below(10) {
        0..=1 => (0..rng.range(1, 12)).map(|_| rng.below(transitions) as u16).collect(),
        2..=5 if net.has_caps() && rng.percent(60) => {
            let mut list = filling_list(rng, net, 12);
            let rest = if rng.percent(15) { rng.range(60, 80) } else { 0 };
            list.extend((0..rest).map(|_| rng.below(transitions) as u16));
            list
        }
        2..=5 => {
            let count = if most > 24 { most } else { rng.range(1, most) };
            firing_list(rng, net, count)
        }
        _ => {
            let count = rng.range(0, most - 1);
            let (mut list, marking) = fire_on(rng, net, count);
            let hindered = (0..transitions.min(64)).filter_map(|t| Some((t, hindrance(net, t, &marking)?)));
            let (full, short): (Vec<_>, Vec<_>) = hindered.partition(|(_, why)| why.full);
            // Full rather than short, where there is both.
            let stuck = if short.is_empty() || !full.is_empty() && rng.percent(70) { full } else { short };
            if !stuck.is_empty() {
                list.push(rng.pick(&stuck).0 as u16);
            }
            // Lists of 64 entries and more are fired through by another way than shorter ones.
            let rest = if rng.percent(5) { rng.range(60, 80) } else { rng.below(4) };
            for _ in 0..rest {
                list.push(rng.below(transitions) as u16);
            }
            list.truncate(MAX_LIST);
            list
        }
    }
}

/// A list with an unknown number somewhere.
pub fn unknown_list(rng: &mut Rng, net: &Net) -> Vec<u16> {
    let mut list = list_for(rng, net);
    list.truncate(MAX_LIST - 1);
    let at = rng.range(0, list.len());
    let transitions = net.transitions();
    let far = rng.range(transitions, 65_535);
    list.insert(at, *rng.pick(&[transitions, far, 65_535]) as u16);
    list
}

/// A list of 65,536 entries or more, known or not.
pub fn long_list(rng: &mut Rng, net: &Net) -> Vec<u16> {
    let len = *rng.pick(&[MAX_LIST + 1, MAX_LIST + 1, MAX_LIST + 1, MAX_LIST + 2, 131_072]);
    let number = rng.below(net.transitions() + 1);
    vec![number as u16; len]
}

/// A marking for taking the inputs of a transition: any 64-bit numbers, about a number of takings, or the largest.
pub fn marking_for(rng: &mut Rng, net: &Net, transition: usize) -> Vec<u64> {
    let taken = net.inputs(transition);
    let most = taken.iter().max().map_or(u64::MAX, |&n| u64::MAX / n.max(1));
    let times = match rng.below(10) {
        0..=1 => 0,
        2..=3 => 1,
        4..=6 => rng.range(2, 9) as u64,
        7 => rng.next() >> 32,
        8 => most - rng.below(2) as u64,
        _ => extreme(rng),
    };
    match rng.below(20) {
        0 => vec![u64::MAX; net.places()],
        1 => vec![0; net.places()],
        2..=4 => taken.iter().map(|_| extreme(rng)).collect(),
        // So many takings at one place, as many or more at the others, and a part of one besides.
        _ => {
            let tight = rng.below(net.places().max(1));
            let above = *rng.pick(&[1, 2, 4, u64::MAX]);
            let held = |(p, &taken): (usize, &u64)| {
                if taken == 0 {
                    return extreme(rng);
                }
                let more = if p == tight { 0 } else { rng.next() % above };
                times.saturating_add(more).saturating_mul(taken).saturating_add(rng.next() % taken)
            };
            taken.iter().enumerate().map(held).collect()
        }
    }
}

/// A 64-bit number, often at an edge.
fn extreme(rng: &mut Rng) -> u64 {
    let any = rng.next();
    *rng.pick(&[0, 1, any, any, any >> 32, 1 << 63, u64::MAX - 1, u64::MAX])
}

/// A number that is not below the count: at it, far beyond, or above 16 bits, then often with a known number in the low half.
pub fn unknown_number(rng: &mut Rng, count: usize) -> u32 {
    let (far, wide) = (rng.range(count, 65_535), rng.range(65_536, u32::MAX as usize));
    let known = rng.range(1, 65_535) << 16 | rng.below(count.max(1));
    *rng.pick(&[count, count, far, 65_535, 65_536 + count, known, known, wide, u32::MAX as usize]) as u32
}

/// Entries to be read, at any alignment, with other entries before and after.
pub fn lend<T: Copy + From<u8>>(rng: &mut Rng, part: &[T]) -> Lent<T> {
    let start = rng.below(8);
    let after = rng.below(5);
    let guard = T::from(rng.next() as u8);
    let mut cells = Vec::with_capacity(start + part.len() + after);
    cells.resize(start, guard);
    cells.extend_from_slice(part);
    cells.resize(start + part.len() + after, guard);
    Lent { cells, start, len: part.len(), null: part.is_empty() && rng.percent(50) }
}

/// Entries to be written, filled with a pattern, and a guard zone of the same on both sides.
pub fn lend_out<T: Copy + From<u8>>(rng: &mut Rng, len: usize) -> Lent<T> {
    let guard = 8;
    let start = guard + rng.below(8);
    let first = rng.next() as u8;
    let cells = (0..start + len + guard).map(|i| T::from(first.wrapping_add(37u8.wrapping_mul(i as u8)))).collect();
    Lent { cells, start, len, null: len == 0 && rng.percent(50) }
}

/// A length for a buffer that needs so many entries: exact, longer, or shorter where wanted.
pub fn buffer_length(rng: &mut Rng, needed: usize, short: bool) -> usize {
    if short && needed > 0 {
        return match rng.below(4) {
            0..=1 => needed - 1,
            2 => 0,
            _ => rng.below(needed),
        };
    }
    match rng.below(3) {
        0 => needed,
        1 => needed + 1,
        _ => needed + rng.below(20),
    }
}
