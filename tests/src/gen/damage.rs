//! Damaged files: aimed at one refusal, or at random.

use super::draft::{Draft, DraftArc};
use crate::net::{MAX_ARCS, MAX_FILE, MAX_PLACES, MAX_TRANSITIONS};
use crate::rng::Rng;

/// The refusals of a file, in the order of checking.
const ORDER: [u32; 9] = [1, 2, 3, 4, 5, 16, 6, 7, 8];

/// One of them, or 0.
pub fn any_refusal(rng: &mut Rng) -> u32 {
    match rng.below(10) as u32 {
        9 => 16,
        refusal => refusal,
    }
}

/// Damages a good file so that this refusal is likely the first; 0 is damage at random.
pub fn damage(rng: &mut Rng, draft: &Draft, refusal: u32) -> Vec<u8> {
    let mut draft = draft.clone();
    // Now and then a later fault stands there too.
    if rng.percent(20) && refusal > 0 {
        let at = ORDER.iter().position(|&r| r == refusal).expect("a refusal of a file");
        let later = *rng.pick(&ORDER[at..]);
        spoil_field(rng, &mut draft, later);
    }
    spoil_field(rng, &mut draft, refusal);
    let mut file = draft.bytes();
    match refusal {
        0 => spoil_bytes(rng, &mut file),
        1 => wrong_length(rng, &mut file),
        5 if rng.percent(25) => {
            // Right counts, but the front of the body is not there.
            let body_at = file.len() - 16 - (draft.body_length as usize).min(file.len() - 16);
            let lost = rng.range(1, (file.len() - 16 - body_at).max(1));
            file.drain(..(body_at + lost).min(file.len() - 16));
        }
        _ => (),
    }
    file
}

fn spoil_field(rng: &mut Rng, draft: &mut Draft, refusal: u32) {
    match refusal {
        2 => {
            if rng.percent(50) {
                draft.edition = *rng.pick(&[0, 3, 4, 129, 255]);
            } else {
                draft.letters[rng.below(4)] ^= 1 << rng.below(8);
            }
        }
        3 => {
            // The other kind is a wrong kind only where one is due.
            draft.kind = if rng.percent(40) { draft.kind ^ 1 } else { *rng.pick(&[2, 3, 128, 255]) };
            if rng.percent(50) {
                draft.measure();
            }
        }
        4 => wrong_counts(rng, draft),
        5 => wrong_body_length(rng, draft),
        6 => wrong_arc(rng, draft),
        7 => wrong_order(rng, draft),
        8 => wrong_origins(rng, draft),
        16 => wrong_cap(rng, draft),
        _ => (),
    }
}

/// A place with more tokens than its cap, in edition 2.
fn wrong_cap(rng: &mut Rng, draft: &mut Draft) {
    let places = draft.marking.len();
    if places == 0 {
        return;
    }
    draft.caps.resize(places, 0);
    if !draft.wide {
        draft.note.drain(..draft.note.len().min(4 * places));
        draft.set_edition(2);
    }
    let any = rng.below(places);
    let p = *rng.pick(&[0, places - 1, any]);
    let any = rng.range(1, u32::MAX as usize) as u32;
    let cap = match draft.cap(p) {
        0 | u32::MAX => *rng.pick(&[1, 2, 255, 256, u32::MAX - 1, any - any / 2]),
        cap => cap,
    };
    let above = cap + 1 + rng.below((u32::MAX - cap) as usize) as u32;
    draft.caps[p] = cap;
    draft.marking[p] = *rng.pick(&[cap + 1, above, u32::MAX]);
}

fn wrong_counts(rng: &mut Rng, draft: &mut Draft) {
    let beyond = |rng: &mut Rng, limit: usize| {
        let high = rng.range(limit + 1, 65_535);
        *rng.pick(&[limit + 1, limit + 1, high, 65_535]) as u16
    };
    match rng.below(4) {
        0 => draft.places = beyond(rng, MAX_PLACES),
        1 => draft.transitions = beyond(rng, MAX_TRANSITIONS),
        2 => draft.arc_count = beyond(rng, MAX_ARCS),
        _ => {
            draft.places = 0;
            draft.transitions = 0;
        }
    }
    if rng.percent(60) {
        draft.measure();
    }
}

/// The length off, or a count off by one or at its limit, so that the length is not as computed.
fn wrong_body_length(rng: &mut Rng, draft: &mut Draft) {
    let off = |rng: &mut Rng, n: u16, limit: usize| {
        let n = usize::from(n);
        *rng.pick(&[n + 1, n + 1, n.saturating_sub(1), limit]) as u16
    };
    match rng.below(9) {
        // The other edition, the body as it was.
        8 => draft.edition = 3 - draft.edition.clamp(1, 2),
        0 => draft.body_length = draft.body_length.wrapping_add(1),
        1 => draft.body_length = draft.body_length.wrapping_sub(1),
        2 => draft.body_length ^= 1 << rng.below(32),
        3 => draft.body_length = draft.body_length.wrapping_add(*rng.pick(&[2, 4, 8, 65_536, 1 << 31])),
        4 => draft.places = off(rng, draft.places, MAX_PLACES),
        5 => draft.transitions = off(rng, draft.transitions, MAX_TRANSITIONS),
        6 => draft.arc_count = off(rng, draft.arc_count, MAX_ARCS),
        _ => {
            // A larger body, computed right, that does not stand in the file.
            draft.note.clear();
            draft.arc_count = (usize::from(draft.arc_count) + rng.range(1, 9)).min(MAX_ARCS) as u16;
            draft.measure();
        }
    }
}

/// Puts an arc there if there is none, so that it can be spoilt.
fn some_arc(rng: &mut Rng, draft: &mut Draft) -> usize {
    if draft.arcs.is_empty() {
        draft.arcs.push(DraftArc::new(0, 0, 0, 1));
        draft.count();
    }
    rng.below(draft.arcs.len())
}

fn wrong_arc(rng: &mut Rng, draft: &mut Draft) {
    let places = draft.marking.len();
    let transitions = usize::from(draft.transitions);
    let i = some_arc(rng, draft);
    let arc = &mut draft.arcs[i];
    match rng.below(6) {
        0 => arc.zero = *rng.pick(&[1, 2, 128, 255]),
        1 => arc.direction = *rng.pick(&[2, 3, 128, 255]),
        2 => arc.place = *rng.pick(&[places, places, places + 1, 65_535]) as u16,
        3 => arc.transition = *rng.pick(&[transitions, transitions, transitions + 1, 65_535]) as u16,
        _ => arc.weight = 0,
    }
}

fn wrong_order(rng: &mut Rng, draft: &mut Draft) {
    let i = some_arc(rng, draft);
    let n = draft.arcs.len();
    match rng.below(4) {
        0 if n > 1 => draft.arcs.swap(i, (i + 1) % n),
        1 if n > 1 => {
            let j = rng.below(n);
            draft.arcs.swap(i, j);
        }
        2 => {
            // Equal but for the weight, or wholly equal: no fault.
            let mut copy = draft.arcs[i];
            copy.weight = if rng.percent(50) { copy.weight } else { rng.range(1, 65_535) as u16 };
            if n < MAX_ARCS {
                draft.arcs.insert(i, copy);
                draft.count();
            }
        }
        _ => {
            // A copy further on, below the arcs between.
            let j = rng.below(n);
            let copy = draft.arcs[i.min(j)];
            draft.arcs[i.max(j)] = copy;
        }
    }
}

fn wrong_origins(rng: &mut Rng, draft: &mut Draft) {
    let second = rng.percent(50);
    let (first_table, second_table) = (&mut draft.place_origins, &mut draft.transition_origins);
    let table = if second && second_table.len() > 1 || first_table.len() < 2 { second_table } else { first_table };
    if table.len() < 2 {
        return;
    }
    let i = rng.below(table.len() - 1);
    match rng.below(3) {
        0 => table[i + 1] = table[i],
        1 => table.swap(i, i + 1),
        _ => {
            table[i] = table[i + 1].saturating_add(1);
        }
    }
}

fn wrong_length(rng: &mut Rng, file: &mut Vec<u8>) {
    if rng.percent(96) {
        let len = *rng.pick(&[0, 1, 8, 14, 15, 15, 15]);
        if rng.percent(50) {
            file.truncate(len);
        } else {
            file.drain(..file.len() - len);
        }
    } else {
        let len = *rng.pick(&[MAX_FILE + 1, MAX_FILE + 1, MAX_FILE + 2, 2 * MAX_FILE, 2 * MAX_FILE + 100]);
        let mut longer = vec![0; len.saturating_sub(file.len())];
        longer.append(file);
        *file = longer;
    }
}

/// Damage without an aim.
fn spoil_bytes(rng: &mut Rng, file: &mut Vec<u8>) {
    let len = file.len();
    match rng.below(12) {
        0..=3 => {
            for _ in 0..rng.range(1, 4) {
                let at = rng.below(len);
                file[at] ^= 1 << rng.below(8);
            }
        }
        4 => file.truncate(rng.below(len)),
        5 => {
            file.drain(..rng.below(len));
        }
        6 => {
            let at = rng.range(0, len);
            let n = rng.range(1, 9);
            let more = rng.bytes(n);
            file.splice(at..at, more);
        }
        7 => {
            let at = rng.below(len);
            file[at] = *rng.pick(&[0, 1, 2, 4, 127, 128, 255]);
        }
        8 => {
            let n = rng.below(21);
            *file = rng.bytes(n);
        }
        9 => {
            // Random bytes before a good end of a trailer.
            let n = rng.below(60);
            *file = rng.bytes(n);
            file.extend([0, rng.range(1, 2) as u8]);
            file.extend(b"BELL");
        }
        10 if rng.percent(5) => {
            // 65,535 to 65,537 bytes.
            let longer = rng.range(MAX_FILE - 1, MAX_FILE + 1).saturating_sub(len);
            let mut more = vec![rng.next() as u8; longer];
            more.append(file);
            *file = more;
        }
        _ => {
            let at = rng.below(len);
            let n = rng.range(1, 12).min(len - at);
            file.drain(at..at + n);
        }
    }
}
