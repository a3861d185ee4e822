//! Good plans of many shapes: mostly tiny, some larger, a few at the limits; or, with NESFOAL_SIZES in the environment, every other one
//! of a size at which the library's tables change, or near it.

use super::draft::{Draft, DraftArc};
use crate::net::{MAX_ARCS, MAX_FILE, MAX_PLACES, MAX_TRANSITIONS, TRAILER};
use crate::rng::Rng;
use std::sync::OnceLock;

/// Any good plan, with or without a note.
pub fn plan(rng: &mut Rng) -> Draft {
    static SIZES: OnceLock<bool> = OnceLock::new();
    let sizes = *SIZES.get_or_init(|| std::env::var_os("NESFOAL_SIZES").is_some());
    let mut draft = match rng.below(1_000) {
        0..=499 if sizes => of_a_size(rng),
        0..=2 => limit_plan(rng),
        3..=9 => large(rng),
        10..=69 => {
            let (places, transitions) = (rng.range(1, 40), rng.range(1, 40));
            sparse(rng, places, transitions, 4)
        }
        _ => tiny(rng),
    };
    if draft.note.is_empty() && rng.percent(40) {
        add_parallels(rng, &mut draft);
    }
    if rng.percent(35) {
        let share = *rng.pick(&[0, 20, 50, 100]);
        add_caps(rng, &mut draft, share);
    }
    add_note(rng, &mut draft);
    draft
}

/// A plan of edition 2 with an arc and a cap.
pub fn capped_plan(rng: &mut Rng) -> Draft {
    loop {
        let mut draft = plan(rng);
        if draft.arcs.is_empty() {
            continue;
        }
        let share = *rng.pick(&[30, 60, 100]);
        add_caps(rng, &mut draft, share);
        if draft.has_caps() {
            return draft;
        }
    }
}

/// Makes it edition 2, with caps on so many of a hundred places: the marking itself, a little more, the largest cap, or any.
fn add_caps(rng: &mut Rng, draft: &mut Draft, share: usize) {
    let style = rng.below(6);
    let cap = |rng: &mut Rng, held: u32| {
        let soon = held.saturating_add(rng.range(1, 4) as u32);
        let any = held.max(rng.next() as u32);
        let cap = match style {
            0 => held,
            1 => soon,
            2 => u32::MAX,
            _ => *rng.pick(&[held, held, soon, soon, soon, any, u32::MAX - 1, u32::MAX]),
        };
        cap.max(held).max(1)
    };
    draft.caps = draft.marking.iter().map(|&held| if rng.percent(share) { cap(rng, held) } else { 0 }).collect();
    draft.set_edition(2);
    // A note that fills the file gives way.
    let length = draft.note.len() + draft.body_length as usize + TRAILER;
    draft.note.drain(..length.saturating_sub(MAX_FILE));
}

/// Some arcs several times, in any order of their weights: a few, or now and then one arc as often as there is room.
fn add_parallels(rng: &mut Rng, draft: &mut Draft) {
    let room = MAX_ARCS - draft.arcs.len();
    if draft.arcs.is_empty() || room == 0 {
        return;
    }
    let way = rng.below(200);
    if way < 4 {
        let times = if way == 0 { room } else { rng.range(1, room.min(300)) };
        let i = rng.below(draft.arcs.len());
        let heavy = rng.percent(50);
        let weight = |rng: &mut Rng| if heavy { 65_535 } else { rng.range(1, 65_535) as u16 };
        let more: Vec<DraftArc> = (0..times).map(|_| DraftArc { weight: weight(rng), ..draft.arcs[i] }).collect();
        draft.arcs.splice(i..i, more);
    } else {
        for _ in 0..rng.range(1, room.min(6)) {
            add_parallel(rng, draft);
        }
    }
    draft.count();
}

/// One more arc beside one that joins the same two: the record again, another weight, or a part of its weight.
fn add_parallel(rng: &mut Rng, draft: &mut Draft) {
    let i = rng.below(draft.arcs.len());
    let mut arc = draft.arcs[i];
    match rng.below(5) {
        0 => (),
        1 => arc.weight = rng.range(1, 3) as u16,
        2 => arc.weight = *rng.pick(&[1, 2, 65_534, 65_535]),
        // The sum stays, so that readers stay readers.
        _ if arc.weight > 1 => {
            let part = rng.range(1, usize::from(arc.weight) - 1) as u16;
            draft.arcs[i].weight -= part;
            arc.weight = part;
        }
        _ => (),
    }
    draft.arcs.insert(i + rng.below(2), arc);
}

/// How heavy the arcs of a net are, and how full its places.
struct Style {
    weights: usize,
    tokens: usize,
}

impl Style {
    fn any(rng: &mut Rng) -> Style {
        Style { weights: rng.below(10), tokens: rng.below(10) }
    }

    fn weight(&self, rng: &mut Rng) -> u16 {
        match self.weights {
            0..=3 => 1,
            4..=7 => rng.range(1, 3) as u16,
            8 => *rng.pick(&[1, 2, 255, 256, 257, 65_534, 65_535]),
            _ => rng.range(1, 65_535) as u16,
        }
    }

    fn marking(&self, rng: &mut Rng) -> u32 {
        match self.tokens {
            0..=3 => rng.below(3) as u32,
            4..=6 => rng.below(12) as u32,
            7 => *rng.pick(&[0, 1, 65_534, 65_535, 65_536]),
            8 => *rng.pick(&[0, 1, u32::MAX - 1, u32::MAX]),
            _ => rng.next() as u32,
        }
    }

    /// The arcs between a transition and a place: in, out, both and equal, both and any.
    fn arcs(&self, rng: &mut Rng, t: usize, p: usize, ins: &mut Vec<DraftArc>, outs: &mut Vec<DraftArc>) {
        let (a, b) = (self.weight(rng), self.weight(rng));
        match rng.below(20) {
            0..=7 => ins.push(DraftArc::new(t, 0, p, a)),
            8..=14 => outs.push(DraftArc::new(t, 1, p, a)),
            15..=16 => {
                ins.push(DraftArc::new(t, 0, p, a));
                outs.push(DraftArc::new(t, 1, p, a));
            }
            _ => {
                ins.push(DraftArc::new(t, 0, p, a));
                outs.push(DraftArc::new(t, 1, p, b));
            }
        }
    }

    fn markings(&self, rng: &mut Rng, places: usize) -> Vec<u32> {
        (0..places).map(|_| self.marking(rng)).collect()
    }
}

/// 0 to 6 places and transitions, not both 0, any pairs joined.
fn tiny(rng: &mut Rng) -> Draft {
    let (places, transitions) = loop {
        // 1 and more is the rule, so that most nets have arcs.
        let low = if rng.percent(4) { 0 } else { 1 };
        let counts = (rng.range(low, 6), rng.range(low, 6));
        if counts != (0, 0) {
            break counts;
        }
    };
    let style = Style::any(rng);
    let joined = rng.range(15, 60);
    let mut arcs = Vec::new();
    for t in 0..transitions {
        let (mut ins, mut outs) = (Vec::new(), Vec::new());
        for p in 0..places {
            if rng.percent(joined) {
                style.arcs(rng, t, p, &mut ins, &mut outs);
            }
        }
        arcs.extend(ins);
        arcs.extend(outs);
    }
    Draft::plan(style.markings(rng, places), transitions, arcs)
}

/// So many places and transitions, each transition joined with a few places.
fn sparse(rng: &mut Rng, places: usize, transitions: usize, most: usize) -> Draft {
    let style = Style::any(rng);
    let mut arcs = Vec::new();
    for t in 0..transitions {
        let (mut ins, mut outs) = (Vec::new(), Vec::new());
        for p in some_places(rng, places, most) {
            style.arcs(rng, t, p, &mut ins, &mut outs);
        }
        if arcs.len() + ins.len() + outs.len() > MAX_ARCS {
            break;
        }
        arcs.extend(ins);
        arcs.extend(outs);
    }
    Draft::plan(style.markings(rng, places), transitions, arcs)
}

/// Up to so many different places, rising.
fn some_places(rng: &mut Rng, places: usize, most: usize) -> Vec<usize> {
    let count = rng.range(0, most);
    let mut some: Vec<usize> = (0..count).map(|_| rng.below(places)).collect();
    some.sort();
    some.dedup();
    some
}

fn large(rng: &mut Rng) -> Draft {
    let (places, transitions) = (rng.range(1, MAX_PLACES), rng.range(1, MAX_TRANSITIONS));
    match rng.below(4) {
        0 => chain(rng, places.max(2), false),
        1 => chain(rng, places.max(2), true),
        2 => sparse(rng, places, transitions, 3),
        _ => {
            // Blocks that have nothing to do with each other, so that cuts keep a part.
            let places = places.max(8);
            let mut arcs = Vec::new();
            let block = rng.range(2, 8);
            for t in 0..transitions {
                let first = (t * block) % (places - block + 1);
                let (p, r) = (first + rng.below(block), first + rng.below(block));
                arcs.push(DraftArc::new(t, 0, p, 1));
                arcs.push(DraftArc::new(t, 1, r, rng.range(1, 2) as u16));
            }
            let style = Style::any(rng);
            Draft::plan(style.markings(rng, places), transitions, arcs)
        }
    }
}

/// As many places, transitions and arcs as the small, middle or large tables have, one more or less, or anything between.
fn of_a_size(rng: &mut Rng) -> Draft {
    fn near(rng: &mut Rng, most: usize) -> usize {
        let size = most >> *rng.pick(&[0, 3, 6]);
        match rng.below(4) {
            0 => size,
            1 => (size + 1).min(most),
            2 => size - 1,
            _ => rng.range(1, size),
        }
    }
    let (places, transitions, arcs) = (near(rng, MAX_PLACES), near(rng, MAX_TRANSITIONS), near(rng, MAX_ARCS));
    let style = Style::any(rng);
    // Within a block of places and transitions, so that cuts keep a part; or all over.
    let blocks = *rng.pick(&[1, 1, 4, 16]);
    let mut keys: Vec<(usize, u8, usize)> = (0..arcs)
        .map(|_| {
            let block = rng.below(blocks);
            let one_of = |rng: &mut Rng, n: usize| (rng.below(n.div_ceil(blocks)) * blocks + block).min(n - 1);
            (one_of(rng, transitions), rng.below(2) as u8, one_of(rng, places))
        })
        .collect();
    keys.sort();
    let arcs = keys.iter().map(|&(t, d, p)| DraftArc::new(t, d, p, style.weight(rng))).collect();
    Draft::plan(style.markings(rng, places), transitions, arcs)
}

/// Transition t moves a token along a chain of places, numbered forwards or backwards.
fn chain(rng: &mut Rng, places: usize, backwards: bool) -> Draft {
    let transitions = places - 1;
    let mut arcs = Vec::new();
    for t in 0..transitions {
        let (from, to) = if backwards { (t + 1, t) } else { (t, t + 1) };
        arcs.push(DraftArc::new(t, 0, from, 1));
        arcs.push(DraftArc::new(t, 1, to, 1));
    }
    let mut marking = vec![0; places];
    marking[if backwards { places - 1 } else { 0 }] = rng.below(4) as u32;
    Draft::plan(marking, transitions, arcs)
}

/// Nets at the limits of the format.
pub fn limit_plan(rng: &mut Rng) -> Draft {
    let mut draft = match rng.below(10) {
        0 | 1 => full(rng, false),
        2 => full(rng, true),
        3 => one_wide_transition(rng),
        4 => chain(rng, MAX_PLACES, true),
        5 => chain(rng, MAX_PLACES, false),
        6 => Draft::plan(vec![u32::MAX; rng.range(MAX_PLACES - 1, MAX_PLACES)], 0, Vec::new()),
        7 => Draft::plan(Vec::new(), rng.range(MAX_TRANSITIONS - 1, MAX_TRANSITIONS), Vec::new()),
        8 => one_pair(rng),
        _ => one_wide_place(),
    };
    if rng.percent(50) {
        fill_with_note(rng, &mut draft);
    }
    draft
}

/// All counts at their limits: four arcs a transition; heavy ones weigh and hold as much as can be.
fn full(rng: &mut Rng, heavy: bool) -> Draft {
    let mut arcs = Vec::new();
    for t in 0..MAX_TRANSITIONS {
        for direction in 0..2 {
            let first = rng.below(MAX_PLACES);
            let second = (first + rng.range(1, MAX_PLACES - 1)) % MAX_PLACES;
            for p in [first.min(second), first.max(second)] {
                let weight = if heavy { 65_535 } else { rng.range(1, 3) as u16 };
                arcs.push(DraftArc::new(t, direction, p, weight));
            }
        }
    }
    let marking = (0..MAX_PLACES).map(|_| if heavy { u32::MAX } else { rng.below(4) as u32 }).collect();
    Draft::plan(marking, MAX_TRANSITIONS, arcs)
}

/// One transition with 2,048 arcs among others with none or one.
fn one_wide_transition(rng: &mut Rng) -> Draft {
    let transitions = rng.range(1, 4);
    let wide = rng.below(transitions);
    let mut arcs = Vec::new();
    for t in 0..transitions {
        if t == wide {
            for direction in 0..2 {
                for p in 0..MAX_PLACES {
                    arcs.push(DraftArc::new(t, direction, p, rng.range(1, 2) as u16));
                }
            }
        } else if rng.percent(50) {
            arcs.push(DraftArc::new(t, 1, rng.below(MAX_PLACES), 1));
        }
    }
    let low = rng.below(3);
    let marking = (0..MAX_PLACES).map(|_| (low + rng.below(200)) as u32).collect();
    Draft::plan(marking, transitions, arcs)
}

/// Every transition takes from and gives to the last place.
fn one_wide_place() -> Draft {
    let mut arcs = Vec::new();
    for t in 0..MAX_TRANSITIONS {
        arcs.push(DraftArc::new(t, 0, MAX_PLACES - 1, 1));
        arcs.push(DraftArc::new(t, 1, t, 1));
        if t != MAX_PLACES - 1 {
            arcs.push(DraftArc::new(t, 1, MAX_PLACES - 1, 2));
        }
    }
    Draft::plan(vec![1; MAX_PLACES], MAX_TRANSITIONS, arcs)
}

/// One place and one transition joined by 4,096 arcs of the largest weight, one way or both.
fn one_pair(rng: &mut Rng) -> Draft {
    let any = rng.range(0, MAX_ARCS);
    let inputs = *rng.pick(&[0, MAX_ARCS, MAX_ARCS / 2, any]);
    let arc = |i| DraftArc::new(0, u8::from(i >= inputs), 0, 65_535);
    let marking = *rng.pick(&[0, 65_535 * inputs as u32, u32::MAX]);
    Draft::plan(vec![marking], 1, (0..MAX_ARCS).map(arc).collect())
}

fn add_note(rng: &mut Rng, draft: &mut Draft) {
    match rng.below(20) {
        _ if !draft.note.is_empty() => (),
        0..=4 => {
            let n = rng.range(1, 20);
            draft.note = rng.bytes(n);
        }
        // A whole file as a note, trailer and all.
        5 if draft.body_length < 1_000 => draft.note = draft.bytes(),
        _ => (),
    }
}

/// A note that makes the file 65,536 bytes, or a little less.
pub fn fill_with_note(rng: &mut Rng, draft: &mut Draft) {
    let room = MAX_FILE - draft.bytes().len() + draft.note.len();
    let less = *rng.pick(&[0, 0, 0, 1, 2]);
    let fill = rng.next() as u8;
    draft.note = vec![fill; room.saturating_sub(less)];
}
