//! Whole cases of each call, aimed so that each outcome gets its share.

use super::*;
use crate::cases::*;
use crate::cut::{self, Cut};
use crate::net::{Kind, Net, MAX_ARCS, MAX_FILE, MAX_LIST, MAX_PLACES, MAX_TRANSITIONS};
use crate::normal::sums;
use crate::range::least_marking;
use crate::read::read;
use crate::replay::{fire_list, Replayed};
use crate::rng::Rng;
use crate::run_cut::go_back;
use crate::shadow::strike_out;
use crate::write::slice_bytes;

/// A plan with something in it: a place, a transition and an arc, where that much is wanted.
fn plan_with_arcs(rng: &mut Rng) -> Draft {
    for _ in 0..20 {
        let draft = plan(rng);
        if !draft.arcs.is_empty() {
            return draft;
        }
    }
    plan(rng)
}

/// A plan with two arcs and a place at least, for faults in their order.
fn rich_plan(rng: &mut Rng) -> Draft {
    for _ in 0..20 {
        let draft = plan(rng);
        if draft.arcs.len() > 1 {
            return draft;
        }
    }
    plan(rng)
}

/// A slice with tables of two entries, for faults in their order.
fn rich_slice(rng: &mut Rng) -> Draft {
    for _ in 0..20 {
        let draft = any_slice(rng);
        if draft.arcs.len() > 1 && (draft.place_origins.len() > 1 || draft.transition_origins.len() > 1) {
            return draft;
        }
    }
    any_slice(rng)
}

/// A damaged file of the kind, or of either.
pub(super) fn bad_file(rng: &mut Rng, kind: Option<Kind>) -> Vec<u8> {
    let refusal = any_refusal(rng);
    let slice = match kind {
        Some(kind) => kind == Kind::Slice,
        None => refusal == 8 || rng.percent(50),
    };
    let draft = if slice { rich_slice(rng) } else { rich_plan(rng) };
    damage(rng, &draft, refusal)
}

/// A good file of either kind.
pub(super) fn good_file(rng: &mut Rng) -> Draft {
    match rng.below(100) {
        0..=3 => empty_slice(rng),
        4..=61 => plan_with_arcs(rng),
        _ => any_slice(rng),
    }
}

pub fn effect_case(rng: &mut Rng) -> EffectCase {
    let aim = rng.below(100);
    if aim < 36 {
        let file = bad_file(rng, None);
        let file = lend(rng, &file);
        return EffectCase { file, place: rng.below(6) as u32, transition: rng.below(6) as u32 };
    }
    let draft = good_file(rng);
    let (places, transitions) = (draft.marking.len(), usize::from(draft.transitions));
    let mut place = if places == 0 { 0 } else { rng.below(places) as u32 };
    let mut transition = if transitions == 0 { 0 } else { rng.below(transitions) as u32 };
    if !draft.arcs.is_empty() && rng.percent(70) {
        let arc = rng.pick(&draft.arcs);
        (place, transition) = (arc.place.into(), arc.transition.into());
    }
    if aim < 44 || aim >= 98 {
        place = unknown_number(rng, places);
    }
    if (44..54).contains(&aim) || aim >= 98 {
        transition = unknown_number(rng, transitions);
    }
    let file = lend(rng, &draft.bytes());
    EffectCase { file, place, transition }
}

/// A slice for a plan: honest, against a rule, or any slice file.
fn some_slice(rng: &mut Rng, plan: &Net) -> Draft {
    if rng.percent(20) {
        return any_slice(rng);
    }
    let q = good_criterion(rng, plan.places());
    if rng.percent(80) {
        honest_slice(rng, plan, &q)
    } else {
        let rule = any_rule(rng, 1);
        slice_against(rng, plan, &q, rule)
    }
}

pub fn arcs_case(rng: &mut Rng) -> ArcsCase {
    let aim = rng.below(100);
    let draft = plan_with_arcs(rng);
    let plan_net = net_of(&draft);
    let of_slice = rng.percent(50);
    let slice_draft = some_slice(rng, &plan_net);
    let named = if of_slice { &slice_draft } else { &draft };
    let transitions = usize::from(named.transitions);
    let mut transition = if transitions == 0 { 0 } else { rng.below(transitions) as u32 };
    if !named.arcs.is_empty() && rng.percent(70) {
        transition = rng.pick(&named.arcs).transition.into();
    }
    if (34..44).contains(&aim) {
        transition = unknown_number(rng, transitions);
    }
    let (mut plan_file, mut slice_file) = (draft.bytes(), slice_draft.bytes());
    if aim < 17 || aim == 33 {
        plan_file = bad_file(rng, Some(Kind::Plan));
    }
    if (17..34).contains(&aim) {
        slice_file = bad_file(rng, Some(Kind::Slice));
    }
    let plan = lend(rng, &plan_file);
    let slice = lend(rng, &slice_file);
    ArcsCase { plan, slice, of_slice, transition }
}

pub fn replay_case(rng: &mut Rng) -> ReplayCase {
    let aim = rng.below(100);
    let draft = good_file(rng);
    let net = net_of(&draft);
    let mut file = draft.bytes();
    let list = match aim {
        28 | 29 => long_list(rng, &net),
        30..=36 => unknown_list(rng, &net),
        _ => list_for(rng, &net),
    };
    if aim < 28 {
        file = bad_file(rng, None);
    }
    // Faults met later stand there too, now and then.
    let short = (37..44).contains(&aim) || aim < 37 && rng.percent(20);
    let len = buffer_length(rng, net.places(), short);
    ReplayCase { file: lend(rng, &file), list: lend(rng, &list), marking: lend_out(rng, len) }
}

pub fn cut_case(rng: &mut Rng, which: Cut) -> CutCase {
    let aim = rng.below(100);
    let draft = if rng.percent(97) { plan_with_arcs(rng) } else { plan(rng) };
    let net = net_of(&draft);
    let mut file = draft.bytes();
    if aim < 30 {
        file = bad_file(rng, Some(Kind::Plan));
    }
    let q = match aim {
        34..=43 => bad_criterion(rng, net.places()),
        _ => good_criterion(rng, net.places()),
    };
    let needed = match crate::criterion::check(&q, net.places()) {
        Ok(()) => slice_bytes(&net, &cut::kept(&net, which, &q)).len(),
        Err(_) => 22,
    };
    let short = (44..54).contains(&aim) || aim < 44 && rng.percent(20);
    let len = buffer_length(rng, needed, short);
    CutCase { which, plan: lend(rng, &file), q: lend(rng, &q), slice: lend_out(rng, len) }
}

pub fn shadow_case(rng: &mut Rng) -> ShadowCase {
    let aim = rng.below(100);
    let draft = if rng.percent(15) { capped_plan(rng) } else { plan_with_arcs(rng) };
    let net = net_of(&draft);
    let slice_draft = some_slice(rng, &net);
    let (mut plan_file, mut slice_file) = (draft.bytes(), slice_draft.bytes());
    if aim < 14 || aim == 31 {
        plan_file = bad_file(rng, Some(Kind::Plan));
    }
    if (14..32).contains(&aim) {
        slice_file = bad_file(rng, Some(Kind::Slice));
    }
    let list = match aim {
        32 | 33 => long_list(rng, &net),
        34..=40 => unknown_list(rng, &net),
        _ => list_for(rng, &net),
    };
    // The room due is that of the fired part's projection.
    let known = list.iter().all(|&t| usize::from(t) < net.transitions());
    let fired = match fire_list(&net, if known { &list } else { &[] }).0 {
        Replayed::Fired => &list[..],
        Replayed::Stuck { index, .. } => &list[..index],
    };
    let needed = strike_out(&slice_draft.transition_origins, fired).len();
    let short = (41..47).contains(&aim) || aim < 41 && rng.percent(20);
    let entries = buffer_length(rng, net.places(), short);
    let short = (47..58).contains(&aim) || aim < 47 && rng.percent(20);
    let len = buffer_length(rng, needed, short);
    ShadowCase {
        plan: lend(rng, &plan_file),
        slice: lend(rng, &slice_file),
        list: lend(rng, &list),
        marking: lend_out(rng, entries),
        out: lend_out(rng, len),
    }
}

/// A plan in which three transitions can fire, where one is found soon.
fn lively_plan(rng: &mut Rng) -> Draft {
    for _ in 0..6 {
        let draft = plan_with_arcs(rng);
        if firing_list(rng, &net_of(&draft), 3).len() == 3 {
            return draft;
        }
    }
    plan_with_arcs(rng)
}

pub fn run_cut_case(rng: &mut Rng) -> RunCutCase {
    let aim = rng.below(100);
    let mut draft = if rng.percent(90) { lively_plan(rng) } else { plan(rng) };
    // Caps are refused: mostly there are none.
    if draft.has_caps() && rng.percent(80) {
        draft.caps.clear();
    }
    let net = net_of(&draft);
    let mut file = draft.bytes();
    if aim < 24 {
        file = bad_file(rng, Some(Kind::Plan));
    }
    let list = match aim {
        30 | 31 => long_list(rng, &net),
        32..=37 => unknown_list(rng, &net),
        38..=49 => list_for(rng, &net),
        _ => {
            let most = *rng.pick(&[3, 8, 8, 24, 24, 24, 100]);
            let most = if rng.below(1_000) == 0 { 20_000 } else { most };
            firing_list(rng, &net, most)
        }
    };
    let q = match aim {
        24..=29 => bad_criterion(rng, net.places()),
        _ if rng.percent(3) => Vec::new(),
        _ if rng.percent(65) => raised_criterion(rng, &net, &list),
        _ => good_criterion(rng, net.places()),
    };
    // The room due, where the list fires.
    let known = list.len() <= MAX_LIST && list.iter().all(|&t| usize::from(t) < net.transitions());
    let (mut length, mut count) = (22, list.len());
    if known && crate::criterion::check(&q, net.places()).is_ok() {
        if let (Replayed::Fired, end) = fire_list(&net, &list) {
            let (kept, chosen) = go_back(&net, &q, &list, end);
            (length, count) = (slice_bytes(&net, &kept).len(), chosen.len());
        }
    }
    let short = (50..58).contains(&aim) || aim < 50 && rng.percent(20);
    let length = buffer_length(rng, length, short);
    let short = (58..68).contains(&aim) || aim < 58 && rng.percent(20);
    let count = buffer_length(rng, count, short);
    RunCutCase {
        plan: lend(rng, &file),
        q: lend(rng, &q),
        list: lend(rng, &list),
        slice: lend_out(rng, length),
        positions: lend_out(rng, count),
    }
}

pub fn together_case(rng: &mut Rng) -> TogetherCase {
    let aim = rng.below(100);
    let draft = if rng.percent(97) { plan_with_arcs(rng) } else { plan(rng) };
    let net = net_of(&draft);
    let mut file = draft.bytes();
    if aim < 28 {
        file = bad_file(rng, Some(Kind::Plan));
    }
    // Mostly a transition with inputs; now and then one without.
    let takes = |t: &usize| !net.in_and_out(*t).0.is_empty();
    let (with, without): (Vec<usize>, Vec<usize>) = (0..net.transitions()).partition(takes);
    let those = if without.is_empty() || !with.is_empty() && rng.percent(85) { with } else { without };
    let (mut transition, mut marking) = (0, vec![0; net.places()]);
    if !those.is_empty() {
        let t = *rng.pick(&those);
        (transition, marking) = (t as u32, marking_for(rng, &net, t));
    }
    // Faults met later stand there too, now and then.
    if (28..36).contains(&aim) || aim < 28 && rng.percent(10) {
        transition = unknown_number(rng, net.transitions());
    }
    if (36..45).contains(&aim) || aim < 36 && rng.percent(20) {
        change_length(rng, &mut marking);
    }
    let short = (45..54).contains(&aim) || aim < 45 && rng.percent(20);
    let len = buffer_length(rng, net.places(), short);
    TogetherCase { plan: lend(rng, &file), transition, marking: lend(rng, &marking), rest: lend_out(rng, len) }
}

/// Another number of entries: one more or less, none, or far more.
pub(super) fn change_length<T: Copy + From<u8>>(rng: &mut Rng, entries: &mut Vec<T>) {
    let length = entries.len();
    let far = length + rng.range(2, 2_000);
    let other = *rng.pick(&[length + 1, length + 1, length.saturating_sub(1), length.saturating_sub(1), 0, far]);
    entries.resize(if other == length { length + 1 } else { other }, T::from(7));
}

/// The most tokens of each place: those of the plan, a few more, one short of what the list needs, just that, or far above.
fn upper_for(rng: &mut Rng, net: &Net, list: &[u16]) -> Vec<u32> {
    let known = list.len() <= MAX_LIST && list.iter().all(|&t| usize::from(t) < net.transitions());
    let uncapped = Net { caps: vec![0; net.places()], ..net.clone() };
    let need = least_marking(&uncapped, if known { list } else { &[] });
    let need: Vec<u32> = need.iter().map(|&n| u32::try_from(n).unwrap_or(u32::MAX)).collect();
    let scarce: Vec<usize> = (0..net.places()).filter(|&p| need[p] > net.marking[p]).collect();
    let style = rng.below(8);
    let mut upper: Vec<u32> = (0..net.places())
        .map(|p| {
            let (held, needed) = (net.marking[p], need[p].max(net.marking[p]));
            let any = held.max(rng.next() as u32);
            match style {
                0 => held,
                1 => u32::MAX,
                2..=4 => needed.saturating_add(rng.below(2) as u32),
                5 => held.saturating_add(rng.below(3) as u32),
                _ => *rng.pick(&[held, needed, needed, needed.saturating_add(1), any, u32::MAX]),
            }
        })
        .collect();
    // One token short at one place.
    if !scarce.is_empty() && rng.percent(30) {
        let p = *rng.pick(&scarce);
        upper[p] = need[p] - 1;
    }
    upper
}

/// An upper list with an entry below the plan's, where a place has tokens; else of another length.
fn spoil_upper(rng: &mut Rng, net: &Net, upper: &mut Vec<u32>) {
    let marked: Vec<usize> = (0..net.places()).filter(|&p| net.marking[p] > 0).collect();
    if marked.is_empty() || rng.percent(40) {
        return change_length(rng, upper);
    }
    let p = *rng.pick(&marked);
    upper[p] = *rng.pick(&[net.marking[p] - 1, 0]);
    if rng.percent(20) {
        change_length(rng, upper);
    }
}

pub fn range_case(rng: &mut Rng) -> RangeCase {
    let aim = rng.below(100);
    let mut draft = if rng.percent(97) { plan_with_arcs(rng) } else { plan(rng) };
    // Caps are refused: mostly there are none.
    if draft.has_caps() && rng.percent(80) {
        draft.caps.clear();
    }
    let net = net_of(&draft);
    let mut file = draft.bytes();
    if aim < 24 {
        file = bad_file(rng, Some(Kind::Plan));
    }
    // Lists that stick from the plan's marking, more often than not.
    let list = match aim {
        24 | 25 => long_list(rng, &net),
        26..=31 => unknown_list(rng, &net),
        32..=65 if net.transitions() > 0 => (0..rng.range(1, 9)).map(|_| rng.below(net.transitions()) as u16).collect(),
        _ => list_for(rng, &net),
    };
    let mut upper = upper_for(rng, &net, &list);
    // Faults met later stand there too, now and then.
    if (32..40).contains(&aim) || aim < 32 && rng.percent(20) {
        spoil_upper(rng, &net, &mut upper);
    }
    let short = (40..47).contains(&aim) || aim < 40 && rng.percent(20);
    let len = buffer_length(rng, net.places(), short);
    RangeCase { plan: lend(rng, &file), list: lend(rng, &list), upper: lend(rng, &upper), need: lend_out(rng, len) }
}

/// The same net drawn anew: arcs parted, parallel ones permuted or joined, the other edition, another note.
pub fn redraw(rng: &mut Rng, draft: &Draft) -> Draft {
    let mut other = draft.clone();
    for _ in 0..rng.range(0, 4) {
        if other.arcs.is_empty() {
            break;
        }
        let i = rng.below(other.arcs.len());
        let arc = other.arcs[i];
        let twin = other.arcs.get(i + 1).copied().filter(|next| same_ends(&arc, next));
        match (rng.below(3), twin) {
            (0, Some(twin)) if u32::from(arc.weight) + u32::from(twin.weight) <= 65_535 => {
                other.arcs[i].weight += twin.weight;
                other.arcs.remove(i + 1);
            }
            (1, Some(_)) => other.arcs.swap(i, i + 1),
            _ if arc.weight > 1 && other.arcs.len() < MAX_ARCS => {
                let part = rng.range(1, usize::from(arc.weight) - 1) as u16;
                other.arcs[i].weight -= part;
                other.arcs.insert(i + rng.below(2), DraftArc { weight: part, ..arc });
            }
            _ => (),
        }
    }
    other.count();
    other.note.clear();
    if !other.has_caps() && rng.percent(50) {
        other.set_edition(3 - other.edition);
    }
    if rng.percent(30) && other.bytes().len() < MAX_FILE - 9 {
        let n = rng.range(1, 9);
        other.note = rng.bytes(n);
    }
    other
}

fn same_ends(a: &DraftArc, b: &DraftArc) -> bool {
    (a.transition, a.direction, a.place) == (b.transition, b.direction, b.place)
}

/// One thing of the net is another: a weight, an arc, a marking, a cap, a transition or a place.
fn another_net(rng: &mut Rng, draft: &mut Draft) {
    let (places, arcs) = (draft.marking.len(), draft.arcs.len());
    match rng.below(8) {
        0..=1 if arcs > 0 => {
            let arc = &mut draft.arcs[rng.below(arcs)];
            arc.weight = if arc.weight == 65_535 { 1 } else { arc.weight + 1 };
        }
        2 if arcs > 0 => {
            draft.arcs.remove(rng.below(arcs));
        }
        3 if arcs > 0 => {
            let i = rng.below(arcs);
            draft.arcs[i].direction ^= 1;
            draft.arcs.sort_by_key(|a| (a.transition, a.direction, a.place));
        }
        4 if places > 0 => {
            let p = rng.below(places);
            draft.marking[p] ^= 1;
            if draft.cap(p) > 0 {
                draft.marking[p] = draft.marking[p].min(draft.cap(p));
            }
        }
        5 if places > 0 && draft.wide => {
            let p = rng.below(places);
            draft.caps.resize(places, 0);
            draft.caps[p] = if draft.caps[p] == 0 { u32::MAX } else { 0 };
        }
        6 if usize::from(draft.transitions) < MAX_TRANSITIONS => draft.transitions += 1,
        _ if places < MAX_PLACES => {
            draft.marking.push(0);
            draft.caps.truncate(places);
        }
        _ => (),
    }
    draft.count();
}

/// Two drawings: of one net, or of two that differ in one thing.
pub fn drawn_twice(rng: &mut Rng) -> (Draft, Draft) {
    let first = plan_with_arcs(rng);
    let mut second = redraw(rng, &first);
    if rng.percent(35) {
        another_net(rng, &mut second);
        second.note.clear();
    }
    (first, second)
}

/// Parallel arcs between one pair whose weights sum to this.
fn joined_to(rng: &mut Rng, draft: &mut Draft, sum: u32) {
    if draft.arcs.is_empty() || draft.arcs.len() + 12 > MAX_ARCS {
        return;
    }
    let i = rng.below(draft.arcs.len());
    let arc = draft.arcs[i];
    draft.arcs.retain(|a| !same_ends(a, &arc));
    let (mut left, mut weights) = (sum, Vec::new());
    for more in (0..rng.range(2, 6)).rev() {
        let most = left.saturating_sub(more as u32).min(65_535);
        let part = if more == 0 { most } else { rng.range(1, most as usize) as u32 };
        weights.push(part);
        left -= part;
    }
    // What the last one could not take.
    if left > 0 {
        weights.push(left);
    }
    draft.arcs.extend(weights.into_iter().map(|weight| DraftArc { weight: weight as u16, ..arc }));
    draft.arcs.sort_by_key(|a| (a.transition, a.direction, a.place));
    draft.count();
}

pub fn normal_case(rng: &mut Rng) -> NormalCase {
    let aim = rng.below(100);
    let mut draft = if rng.percent(97) { plan_with_arcs(rng) } else { plan(rng) };
    if (28..60).contains(&aim) {
        draft.note.clear();
        let sum = *rng.pick(&[65_534, 65_535, 65_535, 65_536, 65_537, 131_070, 131_072]);
        joined_to(rng, &mut draft, sum);
    }
    let net = net_of(&draft);
    let mut file = draft.bytes();
    if aim < 28 {
        file = bad_file(rng, Some(Kind::Plan));
    }
    let needed = 8 * net.places() + 8 * sums(&net).len() + 16;
    let short = (60..70).contains(&aim) || aim < 60 && rng.percent(10);
    let len = buffer_length(rng, needed, short);
    NormalCase { plan: lend(rng, &file), normal: lend_out(rng, len) }
}

/// Plan, slice and criterion for the checker.
pub(super) fn check_parts(rng: &mut Rng) -> (Vec<u8>, Vec<u8>, Vec<u16>) {
    let aim = rng.below(100);
    // Rules 1 to 10, the ones that need room in the net more often.
    let rules = [1, 2, 3, 4, 4, 5, 6, 6, 7, 7, 8, 8, 8, 9, 9, 9, 9, 10, 10, 10, 10];
    let rule = *rng.pick(&rules);
    let against = (36..=75).contains(&aim);
    let mut draft = if against && rule > 8 { capped_plan(rng) } else { plan_with_arcs(rng) };
    if draft.marking.is_empty() {
        draft = rich_plan(rng);
    }
    let net = net_of(&draft);
    let mut q = good_criterion(rng, net.places());
    let slice_draft = match aim {
        _ if against => slice_against(rng, &net, &q, rule),
        76..=77 => any_slice(rng),
        78..=79 => empty_slice(rng),
        _ => honest_slice(rng, &net, &q),
    };
    let (mut plan_file, mut slice_file) = (draft.bytes(), slice_draft.bytes());
    match aim {
        0..=11 => plan_file = bad_file(rng, Some(Kind::Plan)),
        12..=25 => slice_file = bad_file(rng, Some(Kind::Slice)),
        // Rules 5 and 6 are about Q alone: without them most of these are accepted still.
        26..=28 => q.clear(),
        29..=34 => q = bad_criterion(rng, net.places()),
        35 => {
            // The right files the wrong way round.
            std::mem::swap(&mut plan_file, &mut slice_file);
        }
        _ => (),
    }
    (plan_file, slice_file, q)
}

pub fn check_case(rng: &mut Rng) -> CheckCase {
    let (plan, slice, q) = check_parts(rng);
    let mut q = to_bytes(&q);
    if rng.percent(3) {
        q.push(rng.below(3) as u8);
    }
    CheckCase { plan: lend(rng, &plan), slice: lend(rng, &slice), q: lend(rng, &q) }
}

pub fn verdict_case(rng: &mut Rng) -> VerdictCase {
    let (plan, slice, q) = check_parts(rng);
    VerdictCase { plan: lend(rng, &plan), slice: lend(rng, &slice), q: lend(rng, &q) }
}

/// A plan, an accepted slice of it, the criterion, and a list for each.
pub struct GuaranteeCase {
    pub plan: Vec<u8>,
    pub slice: Vec<u8>,
    pub q: Vec<u16>,
    /// Plan numbers; fires in the plan, or sticks there after some firings.
    pub plan_list: Vec<u16>,
    /// The slice's numbers, fires in the slice.
    pub slice_list: Vec<u16>,
}

pub fn guarantee_case(rng: &mut Rng) -> GuaranteeCase {
    let plan = if rng.percent(20) { capped_plan(rng) } else { plan_with_arcs(rng) }.bytes();
    let net = read(&plan, Some(Kind::Plan)).expect("a good plan");
    let q = good_criterion(rng, net.places());
    // Mostly honest; some tampered ones that the checker has to tell apart.
    let draft = if rng.percent(85) {
        honest_slice(rng, &net, &q)
    } else {
        let rule = any_rule(rng, 3);
        slice_against(rng, &net, &q, rule)
    };
    let slice_net = net_of(&draft);
    let most = if rng.below(500) == 0 { 2_000 } else { 30 };
    let plan_list = if rng.percent(40) { firing_list(rng, &net, most) } else { list_for(rng, &net) };
    let slice_list = firing_list(rng, &slice_net, most);
    GuaranteeCase { plan, slice: draft.bytes(), q, plan_list, slice_list }
}

#[cfg(test)]
mod tests {
    use super::*;
    use std::collections::BTreeMap;

    const CASES: u64 = 20_000;

    /// Each of these numbers is the answer of one case in a hundred at least, and no other comes.
    fn share<C: Case>(call: &str, make: impl Fn(&mut Rng) -> C, due: &[u32]) {
        let mut counts = BTreeMap::new();
        for number in 0..CASES {
            let mut rng = Rng::for_case(1, call, number);
            *counts.entry(make(&mut rng).second().number).or_insert(0) += 1;
        }
        for number in due {
            let count = counts.get(number).copied().unwrap_or(0);
            assert!(100 * count >= CASES, "{call}: {number} came {count} times in {CASES}");
        }
        let other = counts.keys().find(|number| !due.contains(number));
        assert_eq!(other, None, "{call}: no answer of this call");
    }

    #[test]
    fn every_outcome_has_its_share() {
        share("effect", effect_case, &[0, 1, 2, 3, 4, 5, 6, 7, 8, 10, 12, 16]);
        share("replay", replay_case, &[0, 100, 101, 1, 2, 3, 4, 5, 6, 7, 8, 11, 12, 13, 16]);
        share("safety", |rng| cut_case(rng, Cut::Safety), &[0, 1, 2, 3, 4, 5, 6, 7, 10, 13, 16]);
        share("branching", |rng| cut_case(rng, Cut::Branching), &[0, 1, 2, 3, 4, 5, 6, 7, 10, 13, 16]);
        share("shadow", shadow_case, &[0, 100, 101, 1, 2, 3, 4, 5, 6, 7, 8, 11, 12, 13, 16]);
        share("run_cut", run_cut_case, &[0, 14, 1, 2, 3, 4, 5, 6, 7, 10, 11, 12, 13, 16, 17]);
        share("together", together_case, &[0, 100, 1, 2, 3, 4, 5, 6, 7, 12, 13, 15, 16]);
        share("range", range_case, &[0, 100, 101, 1, 2, 3, 4, 5, 6, 7, 11, 12, 13, 16, 17, 21]);
        share("normal", normal_case, &[0, 1, 2, 3, 4, 5, 6, 7, 13, 16, 25]);
        let mut checker = vec![0, 1, 2, 3, 4, 5, 6, 7, 8, 10, 16];
        checker.extend(101..=110);
        share("verdict", verdict_case, &checker);
        share("transfer", transfer_case, &[0, 1, 2, 3, 4, 5, 6, 7, 13, 16, 22, 23, 24]);
        share("replay_from", replay_from_case, &[0, 100, 101, 1, 2, 3, 4, 5, 6, 7, 8, 11, 12, 13, 16, 22, 24]);
        for which in [Cut::Safety, Cut::Branching] {
            share("cut_from", |rng| cut_from_case(rng, which), &[0, 1, 2, 3, 4, 5, 6, 7, 10, 13, 16, 22, 24]);
        }
        share("verdict_from", verdict_from_case, &[&checker[..], &[22, 24]].concat());
        share("pnml", pnml_case, &[0, 1, 13, 18, 19, 20]);
        // An odd number of bytes.
        checker.push(9);
        share("check", check_case, &checker);
    }

    /// Both refusals by 13 come, and lists that stick with less room than the whole list's projection takes.
    #[test]
    fn shadows_of_every_sort_have_their_share() {
        let mut counts = BTreeMap::new();
        for number in 0..CASES {
            let case = shadow_case(&mut Rng::for_case(9, "shadow", number));
            let answer = case.second();
            let outcome = case.outcome(&answer);
            if outcome.starts_with("short") || outcome.starts_with("full") {
                let slice = read(case.slice.part(), Some(Kind::Slice)).unwrap();
                if strike_out(&slice.transition_origins, case.list.part()).len() > case.out.len {
                    *counts.entry("stuck with less room".to_string()).or_insert(0) += 1;
                }
            }
            *counts.entry(outcome).or_insert(0) += 1;
        }
        let stuck = ["short", "short-none", "full", "full-none", "stuck with less room"];
        for outcome in ["fired", "fired-none", "13-marking", "13-out"].into_iter().chain(stuck) {
            let count = counts.get(outcome).copied().unwrap_or(0);
            assert!(100 * count >= CASES, "{outcome} came {count} times in {CASES}");
        }
    }

    /// Replays that are full at once, later, and in lists that are long enough for another way of firing.
    #[test]
    fn full_places_of_every_sort_have_their_share() {
        let mut counts = BTreeMap::new();
        for number in 0..CASES {
            let case = replay_case(&mut Rng::for_case(13, "replay", number));
            *counts.entry(case.outcome(&case.second())).or_insert(0) += 1;
        }
        for outcome in ["full-first", "full-later", "full-of-64-or-more"] {
            let count = counts.get(outcome).copied().unwrap_or(0);
            assert!(500 * count >= CASES, "{outcome} came {count} times in {CASES}");
        }
    }

    /// Runs of which nothing, all or a part is chosen come, kept transitions that fire again unchosen, and refusals by 13 for
    /// each of the two buffers alone.
    #[test]
    fn run_cuts_of_every_sort_have_their_share() {
        let mut counts = BTreeMap::new();
        for number in 0..CASES {
            let case = run_cut_case(&mut Rng::for_case(10, "run_cut", number));
            let answer = case.second();
            let mut outcomes = vec![case.outcome(&answer)];
            if answer.number == 0 || answer.number == 13 {
                let net = read(case.plan.part(), Some(Kind::Plan)).unwrap();
                let (q, list) = (case.q.part(), case.list.part());
                let (kept, chosen) = go_back(&net, q, list, fire_list(&net, list).1);
                let of_kept = list.iter().filter(|&&t| kept.transitions[usize::from(t)]).count();
                match (slice_bytes(&net, &kept).len() > case.slice.len, chosen.len() > case.positions.len) {
                    (true, false) => outcomes.push("the slice alone is short".into()),
                    (false, true) => outcomes.push("the positions alone are short".into()),
                    _ if of_kept > chosen.len() => outcomes.push("fires again unchosen".into()),
                    _ => (),
                }
            }
            for outcome in outcomes {
                *counts.entry(outcome).or_insert(0) += 1;
            }
        }
        let short = ["the slice alone is short", "the positions alone are short"];
        let chosen = ["chosen-none", "chosen-some", "chosen-all", "fires again unchosen"];
        for outcome in short.into_iter().chain(chosen) {
            let count = counts.get(outcome).copied().unwrap_or(0);
            assert!(100 * count >= CASES, "{outcome} came {count} times in {CASES}");
        }
    }

    /// Of the lists whose shadow has to fire, a good part sticks in the plan, some after firings; some find a place full.
    #[test]
    fn lists_that_stick_have_their_share() {
        let stuck = |case: &GuaranteeCase| {
            let plan = read(&case.plan, Some(Kind::Plan)).expect("a good plan");
            match fire_list(&plan, &case.plan_list).0 {
                Replayed::Fired => None,
                Replayed::Stuck { index, why } => Some((index, why.full)),
            }
        };
        let share =
            |test: fn((usize, bool)) -> bool| percent("guarantee", guarantee_case, |c| stuck(c).is_some_and(test));
        let (at_all, later, full) = (share(|_| true), share(|(index, _)| index > 0), share(|(_, full)| full));
        let full_later = share(|(index, full)| full && index > 0);
        assert!(at_all > 15.0 && later > 5.0, "{at_all} of a hundred stick, {later} after firings");
        assert!(full > 4.0 && full_later > 2.0, "{full} of a hundred are full, {full_later} after firings");
    }

    /// The largest numbers come: a marking of 2^64 - 1, so many takings, and the last place that decides.
    #[test]
    fn takings_of_every_size_have_their_share() {
        let (mut markings, mut takings, mut never, mut last, mut parallel) = (0, 0, 0, 0, 0);
        for number in 0..CASES {
            let case = together_case(&mut Rng::for_case(8, "together", number));
            let answer = case.second();
            if answer.number != 0 {
                continue;
            }
            let net = read(case.plan.part(), Some(Kind::Plan)).unwrap();
            let (ins, taken) = (net.in_and_out(case.transition as usize).0, net.inputs(case.transition as usize));
            let [Cells::Longs(cells)] = &answer.cells[..] else { panic!("one buffer") };
            let decides = |place: u16| cells[case.rest.start + usize::from(place)] < taken[usize::from(place)];
            let (first, end) = (ins[0].place, ins[ins.len() - 1].place);
            markings += u64::from(case.marking.part().contains(&u64::MAX));
            takings += u64::from(answer.outs[0] == i128::from(u64::MAX));
            never += u64::from(answer.outs[0] == 0);
            last += u64::from(first != end && decides(end) && !decides(first));
            parallel += u64::from(ins.windows(2).any(|two| two[0].place == two[1].place) && answer.outs[0] > 0);
        }
        let all = [markings, takings, never, last, parallel];
        assert!(all.iter().all(|&count| 100 * count >= CASES), "{all:?}");
    }

    /// A file of either kind that is the empty slice, some with a note.
    fn is_empty(file: &Lent<u8>) -> bool {
        read(file.part(), Some(Kind::Slice)).is_ok_and(|net| net.places() == 0 && net.transitions() == 0)
    }

    /// How many of a hundred cases pass the test.
    fn percent<C>(call: &str, make: impl Fn(&mut Rng) -> C, test: impl Fn(&C) -> bool) -> f64 {
        let count = (0..CASES).filter(|&number| test(&make(&mut Rng::for_case(7, call, number)))).count();
        100.0 * count as f64 / CASES as f64
    }

    /// Empty criteria and empty slices come in some 5 of a hundred cases, in each call that takes them.
    #[test]
    fn empty_criteria_and_slices_have_their_share() {
        let near_5 = |what: &str, share: f64| assert!((3.0..9.0).contains(&share), "{what}: {share}");
        for which in [Cut::Safety, Cut::Branching] {
            let make = |rng: &mut Rng| cut_case(rng, which);
            near_5("cuts", percent("cut", make, |c| c.q.part().is_empty()));
            let written = percent("cut", make, |c| c.q.part().is_empty() && c.second().number == 0);
            near_5("16 bytes written", written);
        }
        near_5("run cut", percent("run_cut", run_cut_case, |c| c.q.part().is_empty()));
        near_5("check, no bytes", percent("check", check_case, |c| c.q.part().is_empty()));
        near_5("verdict, no place", percent("verdict", verdict_case, |c| c.q.part().is_empty()));
        near_5("check, empty slice", percent("check", check_case, |c| is_empty(&c.slice)));
        near_5("shadow, empty slice", percent("shadow", shadow_case, |c| is_empty(&c.slice)));
        near_5("arcs, empty slice", percent("arcs", arcs_case, |c| is_empty(&c.slice)));
        near_5("effect, empty slice", percent("effect", effect_case, |c| is_empty(&c.file)));
        near_5("replay, empty slice", percent("replay", replay_case, |c| is_empty(&c.file)));
        // With no place asked for, both verdicts come.
        let for_none = |wanted: fn(u32) -> bool| {
            percent("verdict", verdict_case, |c| c.q.part().is_empty() && wanted(c.second().number))
        };
        assert!(for_none(|n| n == 0) > 1.0, "accepted for no place");
        assert!(for_none(|n| n > 100) > 1.0, "a rule broken for no place");
    }

    /// Weights that join to just 65,535 and to one more come, both of several arcs.
    #[test]
    fn joined_weights_have_their_share() {
        let (mut most, mut one_more) = (0, 0);
        for number in 0..CASES {
            let case = normal_case(&mut Rng::for_case(14, "normal", number));
            let Ok(net) = read(case.plan.part(), Some(Kind::Plan)) else { continue };
            let joined: Vec<u64> = sums(&net).into_values().collect();
            let parallel = joined.len() < net.arcs.len();
            most += u64::from(parallel && joined.contains(&65_535) && case.second().number == 0);
            one_more += u64::from(parallel && joined.contains(&65_536) && case.second().number == 25);
        }
        assert!(100 * most >= CASES && 100 * one_more >= CASES, "{most} to 65,535, {one_more} to 65,536");
    }

    #[test]
    fn a_case_is_made_the_same_again() {
        let make = || check_case(&mut Rng::for_case(5, "check", 77)).show();
        assert_eq!(make(), make());
    }

    #[test]
    fn good_files_are_good() {
        for number in 0..CASES {
            let mut rng = Rng::for_case(2, "files", number);
            assert!(read(&plan(&mut rng).bytes(), Some(Kind::Plan)).is_ok(), "plan {number}");
            assert!(read(&any_slice(&mut rng).bytes(), Some(Kind::Slice)).is_ok(), "slice {number}");
        }
        for number in 0..200 {
            let mut rng = Rng::for_case(3, "limits", number);
            assert!(read(&limit_plan(&mut rng).bytes(), Some(Kind::Plan)).is_ok(), "limit plan {number}");
        }
    }

    /// Of the plans a third has parallel arcs; equal records, other weights and 4,096 of the largest weight come too.
    #[test]
    fn parallel_arcs_have_their_share() {
        let key = |a: &DraftArc| (a.transition, a.direction, a.place);
        let (mut parallel, mut equal, mut falling, mut heaviest) = (0, 0, 0, 0);
        for number in 0..CASES {
            let arcs = plan(&mut Rng::for_case(6, "parallel", number)).arcs;
            let twins: Vec<_> = arcs.windows(2).filter(|two| key(&two[0]) == key(&two[1])).collect();
            parallel += u64::from(!twins.is_empty());
            equal += u64::from(twins.iter().any(|two| two[0] == two[1]));
            falling += u64::from(twins.iter().any(|two| two[0].weight > two[1].weight));
            heaviest += u64::from(twins.len() == 4_095 && arcs.iter().all(|a| a.weight == 65_535));
        }
        assert!(3 * parallel >= CASES, "{parallel} plans with parallel arcs");
        assert!(
            equal >= 500 && falling >= 500 && heaviest >= 1,
            "{equal} equal, {falling} falling, {heaviest} heaviest"
        );
    }

    /// Of the plans a third is of edition 2. Of these some have no cap, some have places that are at their caps, some that are
    /// soon, and some have the largest cap.
    #[test]
    fn caps_have_their_share() {
        let (mut second, mut none, mut tight, mut soon, mut largest) = (0, 0, 0, 0, 0);
        for number in 0..CASES {
            let draft = plan(&mut Rng::for_case(11, "caps", number));
            if draft.edition == 1 {
                assert!(draft.caps.is_empty());
                continue;
            }
            second += 1;
            let left = |p: usize| draft.cap(p).checked_sub(draft.marking[p]);
            let some =
                |test: &dyn Fn(usize) -> bool| u64::from((0..draft.marking.len()).any(|p| draft.cap(p) > 0 && test(p)));
            none += u64::from(!draft.has_caps());
            tight += some(&|p| left(p) == Some(0));
            soon += some(&|p| (1..5).contains(&left(p).unwrap()));
            largest += some(&|p| draft.cap(p) == u32::MAX);
        }
        assert!((30 * CASES..40 * CASES).contains(&(100 * second)), "{second} of edition 2");
        let sorts = [none, tight, soon, largest];
        assert!(sorts.iter().all(|&count| 20 * count > CASES), "{sorts:?}");
    }

    /// Plan and slice of an accepted pair are of each edition; where they differ no kept place has a cap.
    #[test]
    fn editions_are_mixed() {
        let mut pairs = BTreeMap::new();
        for number in 0..CASES {
            let case = verdict_case(&mut Rng::for_case(12, "editions", number));
            if case.second().number == 0 {
                let [plan, slice] = [&case.plan, &case.slice].map(|file| read(file.part(), None).unwrap());
                assert!(plan.edition == slice.edition || !slice.has_caps());
                *pairs.entry((plan.edition, slice.edition)).or_insert(0) += 1;
            }
        }
        let counts: Vec<u64> = [(1, 1), (1, 2), (2, 1), (2, 2)].map(|pair| pairs[&pair]).to_vec();
        assert!(counts.iter().all(|&count| 100 * count >= CASES), "{counts:?}");
    }

    #[test]
    fn honest_slices_are_accepted() {
        for number in 0..CASES {
            let mut rng = Rng::for_case(4, "honest", number);
            let plan = plan(&mut rng).bytes();
            let net = read(&plan, Some(Kind::Plan)).unwrap();
            let q = good_criterion(&mut rng, net.places());
            let slice = honest_slice(&mut rng, &net, &q).bytes();
            assert_eq!(crate::check::verdict(&plan, &slice, &q), Ok(crate::check::Verdict::Accepted), "{number}");
        }
    }
}
