//! Slices: by our cuts, larger honest ones, tampered ones, and any good slice file at all.

use super::draft::{Draft, DraftArc};
use super::plan::plan;
use crate::cut::{self, Cut, Kept};
use crate::net::{changes, raises, Kind, Net};
use crate::read::read;
use crate::rng::Rng;
use crate::write::slice_bytes;

pub fn net_of(draft: &Draft) -> Net {
    read(&draft.bytes(), None).expect("a good file")
}

/// Any good slice file, with rising origins that need not fit any plan; now and then the empty one.
pub fn any_slice(rng: &mut Rng) -> Draft {
    if rng.percent(10) {
        return empty_slice(rng);
    }
    let draft = plan(rng);
    let places = rising(rng, draft.marking.len());
    let transitions = rising(rng, usize::from(draft.transitions));
    let mut slice = draft.into_slice(places, transitions);
    slice.note.truncate(100);
    slice
}

/// The slice with no places and no transitions, some with a note.
pub fn empty_slice(rng: &mut Rng) -> Draft {
    let mut slice = Draft::plan(Vec::new(), 0, Vec::new()).into_slice(Vec::new(), Vec::new());
    let n = rng.below(40).saturating_sub(30);
    slice.note = rng.bytes(n);
    if rng.percent(35) {
        slice.set_edition(2);
    }
    slice
}

/// So many strictly rising numbers.
fn rising(rng: &mut Rng, count: usize) -> Vec<u16> {
    let mut next = if rng.percent(10) { 65_536 - count } else { rng.below(4) };
    let mut numbers = Vec::new();
    for left in (0..count).rev() {
        numbers.push(next as u16);
        let room = 65_535 - next - left;
        next += 1 + if rng.percent(30) { rng.below(room.min(5) + 1) } else { 0 };
    }
    numbers
}

/// Sets with which a slice is accepted for Q: our safety cut or a larger one.
pub fn honest_sets(rng: &mut Rng, plan: &Net, q: &[u16]) -> Kept {
    match rng.below(10) {
        0..=2 => cut::kept(plan, Cut::Safety, q),
        3 => cut::kept(plan, Cut::Branching, q),
        4 => Kept { places: vec![true; plan.places()], transitions: vec![true; plan.transitions()] },
        _ => {
            // Anything besides, then closed.
            let mut kept = cut::kept(plan, Cut::Safety, q);
            let share = *rng.pick(&[5, 20, 50]);
            for p in &mut kept.places {
                *p |= rng.percent(share);
            }
            for t in &mut kept.transitions {
                *t |= rng.percent(share);
            }
            let wanted = if rng.percent(80) { raises } else { changes };
            cut::grow(plan, &mut kept, wanted);
            kept
        }
    }
}

/// The slice file of sets, as a draft.
pub fn slice_of(plan: &Net, kept: &Kept) -> Draft {
    Draft::of(&read(&slice_bytes(plan, kept), Some(Kind::Slice)).expect("a good slice"))
}

/// An accepted slice, now and then with a note, or in the other edition where that loses no cap.
pub fn honest_slice(rng: &mut Rng, plan: &Net, q: &[u16]) -> Draft {
    let kept = honest_sets(rng, plan, q);
    let mut slice = slice_of(plan, &kept);
    if rng.percent(10) {
        let n = rng.range(1, 9);
        slice.note = rng.bytes(n);
    }
    if !slice.has_caps() && rng.percent(25) {
        slice.set_edition(3 - slice.edition);
    }
    slice
}

/// Any rule of the checker.
pub fn any_rule(rng: &mut Rng, from: usize) -> u32 {
    rng.range(from, 10) as u32
}

/// A slice meant to break this rule first; where the net has no room for that, it breaks another or none.
pub fn slice_against(rng: &mut Rng, plan: &Net, q: &[u16], rule: u32) -> Draft {
    let mut kept = honest_sets(rng, plan, q);
    match rule {
        5..=10 => {
            leave_out(rng, plan, q, rule, &mut kept);
            // Rules 9 and 10 together, now and then.
            if rule == 9 && rng.percent(15) {
                leave_out(rng, plan, q, 10, &mut kept);
            }
            slice_of(plan, &kept)
        }
        _ => {
            let mut slice = slice_of(plan, &kept);
            tamper(rng, plan, &mut slice, rule);
            // Now and then a later rule is broken as well.
            if rng.percent(15) {
                let other = rng.range(1, 4) as u32;
                tamper(rng, plan, &mut slice, other);
            }
            slice
        }
    }
}

/// Leaves places or transitions out of closed sets so that a rule from 5 to 10 is broken; of 9 and 10 that one alone.
fn leave_out(rng: &mut Rng, plan: &Net, q: &[u16], rule: u32, kept: &mut Kept) {
    let mut in_q = vec![false; plan.places()];
    q.iter().for_each(|&p| in_q[usize::from(p)] = true);
    let kept_places = |kept: &Kept| (0..plan.places()).filter(|&p| kept.places[p]).collect::<Vec<_>>();
    let kept_transitions = |kept: &Kept| (0..plan.transitions()).filter(|&t| kept.transitions[t]).collect::<Vec<_>>();
    let drops = if rng.percent(70) { 1 } else { rng.range(1, 3) };
    for _ in 0..drops {
        match rule {
            5 if !q.is_empty() => kept.places[usize::from(*rng.pick(q))] = false,
            5 => (),
            6 => {
                let those: Vec<usize> =
                    kept_transitions(kept).into_iter().filter(|&t| plan.has_effect(t, &in_q, changes)).collect();
                if !those.is_empty() {
                    kept.transitions[*rng.pick(&those)] = false;
                }
            }
            7 => {
                let mut inputs = vec![false; plan.places()];
                for t in kept_transitions(kept) {
                    plan.in_and_out(t).0.iter().for_each(|a| inputs[usize::from(a.place)] = true);
                }
                let those: Vec<usize> = kept_places(kept).into_iter().filter(|&p| inputs[p] && !in_q[p]).collect();
                if !those.is_empty() {
                    kept.places[*rng.pick(&those)] = false;
                } else if let Some(t) = (0..plan.transitions()).find(|&t| !kept.transitions[t]) {
                    kept.transitions[t] = true;
                }
            }
            9 => {
                let (mut inputs, mut outputs) = (in_q.clone(), vec![false; plan.places()]);
                for t in kept_transitions(kept) {
                    plan.in_and_out(t).0.iter().for_each(|a| inputs[usize::from(a.place)] = true);
                    plan.capped_outputs(t).for_each(|p| outputs[p] = true);
                }
                let those: Vec<usize> = kept_places(kept).into_iter().filter(|&p| outputs[p] && !inputs[p]).collect();
                if !those.is_empty() {
                    kept.places[*rng.pick(&those)] = false;
                }
            }
            10 => {
                let capped = plan.capped_of(&kept.places);
                let alone = |t: &usize| {
                    plan.has_effect(*t, &capped, changes)
                        && !plan.has_effect(*t, &in_q, changes)
                        && !plan.has_effect(*t, &kept.places, raises)
                };
                let those: Vec<usize> = kept_transitions(kept).into_iter().filter(alone).collect();
                if !those.is_empty() {
                    kept.transitions[*rng.pick(&those)] = false;
                }
            }
            _ => {
                let those: Vec<usize> = kept_transitions(kept)
                    .into_iter()
                    .filter(|&t| !plan.has_effect(t, &in_q, changes) && plan.has_effect(t, &kept.places, raises))
                    .collect();
                if !those.is_empty() {
                    kept.transitions[*rng.pick(&those)] = false;
                } else if let Some(p) = (0..plan.places()).find(|&p| !kept.places[p]) {
                    kept.places[p] = true;
                }
            }
        }
    }
}

/// Spoils a slice so that rule 1, 2, 3 or 4 is broken, and its file stays good.
fn tamper(rng: &mut Rng, plan: &Net, slice: &mut Draft, rule: u32) {
    match rule {
        1 => raise_origins(rng, &mut slice.place_origins, plan.places()),
        2 if slice.transition_origins.is_empty() => {
            let beyond = rng.range(plan.transitions(), 65_535) as u16;
            slice.transition_origins.push(beyond);
        }
        2 => raise_origins(rng, &mut slice.transition_origins, plan.transitions()),
        3 if slice.marking.is_empty() => (),
        3 if rng.percent(40) => tamper_caps(rng, slice),
        3 => {
            let p = rng.below(slice.marking.len());
            let bit = if rng.percent(50) { 0 } else { rng.below(32) };
            let (held, cap) = (slice.marking[p], slice.cap(p));
            slice.marking[p] ^= 1 << bit;
            // Above its cap the file would be refused.
            if cap > 0 && slice.marking[p] > cap {
                slice.marking[p] = if held > 0 { held - 1 } else { cap };
            }
        }
        _ => tamper_arcs(rng, plan, slice),
    }
    slice.count();
}

/// Another cap for a place: none, one token more or less, the largest, or one that just holds its tokens. Or all caps lost, by
/// edition 1.
fn tamper_caps(rng: &mut Rng, slice: &mut Draft) {
    if slice.has_caps() && rng.percent(20) {
        slice.set_edition(1);
        return;
    }
    slice.caps.resize(slice.marking.len(), 0);
    slice.set_edition(2);
    let p = rng.below(slice.marking.len());
    let (held, cap) = (slice.marking[p], slice.caps[p]);
    let fit = |other: &u32| *other != cap && (*other == 0 || *other >= held);
    let others = [0, held, held.saturating_add(1), cap.saturating_sub(1), cap.saturating_add(1), u32::MAX];
    let others: Vec<u32> = others.into_iter().filter(fit).collect();
    slice.caps[p] = *rng.pick(&others);
}

/// Moves the last few origins out of the plan's range.
fn raise_origins(rng: &mut Rng, origins: &mut [u16], count: usize) {
    if origins.is_empty() {
        return;
    }
    let moved = rng.range(1, origins.len().min(3));
    let from = if rng.percent(60) { count } else { rng.range(count, 65_000) };
    let first = origins.len() - moved;
    // Still rising, also where the entries before are beyond the plan already.
    let from = if first > 0 { from.max(usize::from(origins[first - 1]) + 1) } else { from };
    for i in first..origins.len() {
        origins[i] = (from + i - first) as u16;
    }
}

/// A weight changed, an arc lost, added, turned or moved, a transition's origin moved, or parallel arcs permuted or joined.
fn tamper_arcs(rng: &mut Rng, plan: &Net, slice: &mut Draft) {
    let places = slice.marking.len();
    let transitions = slice.transition_origins.len();
    let arcs = slice.arcs.len();
    let change = if rng.percent(50) { permute_parallels } else { join_parallels };
    if rng.percent(40) && change(rng, slice) {
        return;
    }
    let way = if arcs == 0 { rng.range(4, 5) } else { rng.below(6) };
    match way {
        0 => {
            let i = rng.below(arcs);
            let weight = slice.arcs[i].weight;
            slice.arcs[i].weight =
                if weight == 65_535 || (weight > 1 && rng.percent(50)) { weight - 1 } else { weight + 1 };
        }
        1 => {
            slice.arcs.remove(rng.below(arcs));
        }
        2 => {
            let i = rng.below(arcs);
            slice.arcs[i].direction ^= 1;
        }
        3 => {
            let i = rng.below(arcs);
            slice.arcs[i].place = rng.below(places) as u16;
        }
        4 => {
            if places > 0 && transitions > 0 {
                let (t, p) = (rng.below(transitions), rng.below(places));
                let arc = DraftArc::new(t, rng.below(2) as u8, p, rng.range(1, 3) as u16);
                slice.arcs.push(arc);
            }
        }
        _ => {
            // Another number between the neighbours.
            if transitions > 0 {
                let i = rng.below(transitions);
                let low = if i == 0 { 0 } else { usize::from(slice.transition_origins[i - 1]) + 1 };
                let high = slice.transition_origins.get(i + 1).map_or(plan.transitions(), |&o| usize::from(o));
                if low < high {
                    slice.transition_origins[i] = rng.range(low, high - 1) as u16;
                }
            }
        }
    }
    // The file must stay readable.
    slice.arcs.sort_by_key(|a| (a.transition, a.direction, a.place));
    slice.arcs.truncate(crate::net::MAX_ARCS);
}

/// An arc with a parallel one after it, for which the two weights pass.
fn parallel(rng: &mut Rng, slice: &Draft, wanted: impl Fn(u16, u16) -> bool) -> Option<usize> {
    let key = |a: &DraftArc| (a.transition, a.direction, a.place);
    let pairs = slice.arcs.windows(2).enumerate();
    let those: Vec<usize> = pairs
        .filter(|(_, two)| key(&two[0]) == key(&two[1]) && wanted(two[0].weight, two[1].weight))
        .map(|(i, _)| i)
        .collect();
    if those.is_empty() {
        return None;
    }
    Some(*rng.pick(&those))
}

/// Two parallel arcs of other weights the other way round: the same sums.
fn permute_parallels(rng: &mut Rng, slice: &mut Draft) -> bool {
    let found = parallel(rng, slice, |a, b| a != b);
    if let Some(i) = found {
        slice.arcs.swap(i, i + 1);
    }
    found.is_some()
}

/// Two parallel arcs as one of both weights: the same sums.
fn join_parallels(rng: &mut Rng, slice: &mut Draft) -> bool {
    let found = parallel(rng, slice, |a, b| u32::from(a) + u32::from(b) <= 65_535);
    if let Some(i) = found {
        let joined = slice.arcs.remove(i + 1);
        slice.arcs[i].weight += joined.weight;
    }
    found.is_some()
}

#[cfg(test)]
mod tests {
    use super::*;
    use crate::check::{judge, Verdict};
    use crate::gen::{capped_plan, good_criterion};

    /// Slices against rule 9 or 10 break that one and no rule before; against 9, now and then 10 besides.
    #[test]
    fn rules_9_and_10_are_broken_alone() {
        let (mut ninth, mut tenth) = (0, 0);
        for seed in 0..20_000 {
            let mut rng = Rng::new(seed);
            let plan = net_of(&capped_plan(&mut rng));
            let q = good_criterion(&mut rng, plan.places());
            let mut against = |rule| judge(&plan, &net_of(&slice_against(&mut rng, &plan, &q, rule)), &q);
            match against(9) {
                Verdict::Accepted => (),
                Verdict::Broken { rule: 9, .. } => ninth += 1,
                Verdict::Broken { rule, .. } => assert_eq!(rule, 10, "seed {seed}"),
            }
            match against(10) {
                Verdict::Accepted => (),
                Verdict::Broken { rule, .. } => {
                    assert_eq!(rule, 10, "seed {seed}");
                    tenth += 1;
                }
            }
        }
        assert!(ninth > 1_000 && tenth > 1_000, "{ninth} against 9, {tenth} against 10");
    }

    /// Another cap, or none, breaks rule 3; the file stays good.
    #[test]
    fn other_caps_break_rule_3() {
        let mut broken = 0;
        for seed in 0..5_000 {
            let mut rng = Rng::new(seed);
            let plan = net_of(&capped_plan(&mut rng));
            let q = good_criterion(&mut rng, plan.places());
            let mut slice = honest_slice(&mut rng, &plan, &q);
            if slice.marking.is_empty() {
                continue;
            }
            tamper_caps(&mut rng, &mut slice);
            let verdict = judge(&plan, &net_of(&slice), &q);
            assert!(matches!(verdict, Verdict::Broken { rule: 3, .. }), "seed {seed}: {verdict:?}");
            broken += 1;
        }
        assert!(broken > 1_000, "{broken}");
    }

    /// Rule 4 compares arcs with their repeats, in order.
    #[test]
    fn permuted_and_joined_parallels_break_rule_4() {
        let (mut permuted, mut joined) = (0, 0);
        for seed in 0..20_000 {
            let mut rng = Rng::new(seed);
            let plan = net_of(&plan(&mut rng));
            if plan.places() == 0 {
                continue;
            }
            let q = good_criterion(&mut rng, plan.places());
            let honest = honest_slice(&mut rng, &plan, &q);
            for (change, count) in
                [(permute_parallels as fn(&mut Rng, &mut Draft) -> bool, &mut permuted), (join_parallels, &mut joined)]
            {
                let mut slice = honest.clone();
                if change(&mut rng, &mut slice) {
                    slice.count();
                    let verdict = judge(&plan, &net_of(&slice), &q);
                    assert!(matches!(verdict, Verdict::Broken { rule: 4, .. }), "seed {seed}: {verdict:?}");
                    *count += 1;
                }
            }
        }
        assert!(permuted > 500 && joined > 500, "{permuted} permuted, {joined} joined");
    }
}
