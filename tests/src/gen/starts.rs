//! Cases of a transfer, and of calls that start from a lent marking.

use super::calls::{bad_file, change_length, check_parts, good_file};
use super::*;
use crate::cases::*;
use crate::cut::Cut;
use crate::net::{Kind, Net};
use crate::read::read;
use crate::rng::Rng;
use crate::start::{from, most};
use crate::transfer::NO_PLACE;

/// A marking that a net can start from: its own, none, at the caps or the limit, a few tokens, or any.
pub fn start_for(rng: &mut Rng, net: &Net) -> Vec<u64> {
    let style = rng.below(8);
    let tokens = |p: usize| {
        let (own, most) = (u64::from(net.marking[p]), most(net, p));
        let few = rng.below(6) as u64;
        let any = rng.next() >> 32;
        let tokens = match style {
            0 => own,
            1 => 0,
            2 => most,
            3 => most - rng.below(2).min(most as usize) as u64,
            4..=5 => few,
            _ => *rng.pick(&[own, own, few, few, 0, most, any]),
        };
        tokens.min(most)
    };
    (0..net.places()).map(tokens).collect()
}

/// A marking that no such net can start from: one place has more than its cap or than a file can say.
fn high_start(rng: &mut Rng, net: &Net, start: &mut Vec<u64>) {
    if start.is_empty() {
        return change_length(rng, start);
    }
    let capped: Vec<usize> = (0..net.places()).filter(|&p| net.cap(p).is_some()).collect();
    let p = if capped.is_empty() || rng.percent(40) { rng.below(start.len()) } else { *rng.pick(&capped) };
    let above = most(net, p) + 1;
    let more = above + rng.below(9) as u64;
    start[p] = *rng.pick(&[above, above, more, 1 << 32, 1 << 63, u64::MAX]);
    // Another one besides, now and then.
    if rng.percent(10) {
        let p = rng.below(start.len());
        start[p] = u64::MAX;
    }
}

/// A start for the net, spoilt where the aim says so: 22 in the first part, 24 in the second; where the file is bad, now and then too.
fn start_by(rng: &mut Rng, net: &Net, aim: usize, entries: usize, tokens: usize, end: usize) -> Vec<u64> {
    let mut start = start_for(rng, net);
    let before = aim < entries;
    if (tokens..end).contains(&aim) || before && rng.percent(10) {
        high_start(rng, net, &mut start);
    }
    if (entries..tokens).contains(&aim) || before && rng.percent(10) {
        change_length(rng, &mut start);
    }
    start
}

pub fn replay_from_case(rng: &mut Rng) -> ReplayFromCase {
    let aim = rng.below(100);
    let draft = good_file(rng);
    let net = net_of(&draft);
    let mut file = draft.bytes();
    if aim < 26 {
        file = bad_file(rng, None);
    }
    let start = start_by(rng, &net, aim, 26, 32, 40);
    let started = from(net.clone(), &start).unwrap_or(net);
    let list = match aim {
        40 | 41 => long_list(rng, &started),
        42..=48 => unknown_list(rng, &started),
        26..=39 if rng.percent(20) => unknown_list(rng, &started),
        _ => list_for(rng, &started),
    };
    let short = (49..55).contains(&aim) || aim < 49 && rng.percent(20);
    let len = buffer_length(rng, started.places(), short);
    let plain = ReplayCase { file: lend(rng, &file), list: lend(rng, &list), marking: lend_out(rng, len) };
    ReplayFromCase { start: lend(rng, &start), plain }
}

pub fn cut_from_case(rng: &mut Rng, which: Cut) -> CutFromCase {
    let aim = rng.below(100);
    let mut plain = cut_case(rng, which);
    // A bad plan, or one that is good.
    if aim < 26 {
        let file = bad_file(rng, Some(Kind::Plan));
        plain.plan = lend(rng, &file);
    }
    for _ in 0..4 {
        if aim < 26 || read(plain.plan.part(), Some(Kind::Plan)).is_ok() {
            break;
        }
        plain = cut_case(rng, which);
    }
    let start = match read(plain.plan.part(), Some(Kind::Plan)) {
        Ok(net) => start_by(rng, &net, aim, 26, 36, 46),
        Err(_) => vec![0; rng.below(4)],
    };
    CutFromCase { start: lend(rng, &start), plain }
}

/// The file with other tokens on its places.
fn with_marking(file: &[u8], net: &Net, marking: &[u64]) -> Vec<u8> {
    let mut file = file.to_vec();
    let each = if net.edition == 2 { 8 } else { 4 };
    let first = net.arcs_at - each * net.places();
    for (p, &tokens) in marking.iter().enumerate() {
        file[first + each * p..][..4].copy_from_slice(&(tokens as u32).to_le_bytes());
    }
    file
}

/// A plan's own marking; then the plan gets another one, so that what was made for the plan is from a start.
fn moved(rng: &mut Rng, file: &mut Vec<u8>) -> Option<(Net, Vec<u64>)> {
    let net = read(file, Some(Kind::Plan)).ok()?;
    let own = net.marking.iter().map(|&m| u64::from(m)).collect();
    if rng.percent(85) {
        let other = start_for(rng, &net);
        *file = with_marking(file, &net, &other);
    }
    Some((net, own))
}

pub fn verdict_from_case(rng: &mut Rng) -> VerdictFromCase {
    let aim = rng.below(100);
    let (mut plan, slice, q) = check_parts(rng);
    let start = match moved(rng, &mut plan) {
        None => vec![0; rng.below(4)],
        Some((net, mut start)) => {
            // The slice was cut from another start.
            if aim >= 93 {
                start = start_for(rng, &net);
            }
            if (0..6).contains(&aim) {
                high_start(rng, &net, &mut start);
            }
            if (5..10).contains(&aim) {
                change_length(rng, &mut start);
            }
            start
        }
    };
    let plain = VerdictCase { plan: lend(rng, &plan), slice: lend(rng, &slice), q: lend(rng, &q) };
    VerdictFromCase { start: lend(rng, &start), plain }
}

/// A guarantee's case whose slice is of a start, which is not the plan's own marking.
pub fn started_guarantee_case(rng: &mut Rng) -> (GuaranteeCase, Vec<u64>) {
    let mut case = guarantee_case(rng);
    let (_, start) = moved(rng, &mut case.plan).expect("the generator's plan");
    (case, start)
}

/// For each old place a new one or none: the same numbers, all to one, onto, or any.
fn table_for(rng: &mut Rng, old: usize, new: usize) -> Vec<u16> {
    let one = if new > 0 { rng.below(new) } else { 0 };
    let style = rng.below(6);
    let share = *rng.pick(&[0, 0, 10, 50]);
    let to = |p: usize| {
        if new == 0 || rng.percent(share) {
            return NO_PLACE;
        }
        let to = match style {
            0 => p.min(new - 1),
            1 => one,
            2 => p % new,
            3 => new - 1 - p % new,
            _ => rng.below(new),
        };
        to as u16
    };
    (0..old).map(to).collect()
}

/// Tokens of the old places that just fit: each new place gets nothing, a few, or up to all that it can have.
fn running_for(rng: &mut Rng, new: &Net, table: &[u16]) -> Vec<u64> {
    let full = *rng.pick(&[0, 30, 100]);
    let mut left: Vec<u64> = (0..new.places())
        .map(
            |p| if rng.percent(full) { most(new, p) - rng.below(2) as u64 % most(new, p) } else { rng.below(9) as u64 },
        )
        .collect();
    (0..new.places()).for_each(|p| left[p] = left[p].min(most(new, p)));
    let mut last = vec![None; new.places()];
    table.iter().enumerate().filter(|(_, &to)| to != NO_PLACE).for_each(|(p, &to)| last[usize::from(to)] = Some(p));
    let mut running = vec![0; table.len()];
    for (p, &to) in table.iter().enumerate().filter(|(_, &to)| to != NO_PLACE) {
        let to = usize::from(to);
        // The last one takes what is left, and a part else.
        running[p] = if last[to] == Some(p) { left[to] } else { rng.next() % (left[to] + 1) };
        left[to] -= running[p];
    }
    running
}

pub fn transfer_case(rng: &mut Rng) -> TransferCase {
    let aim = rng.below(100);
    let old = plan(rng);
    let new = match rng.below(4) {
        0 => redraw(rng, &old),
        1 => capped_plan(rng),
        _ => plan(rng),
    };
    let (old_net, new_net) = (net_of(&old), net_of(&new));
    let (mut old_file, mut new_file) = (old.bytes(), new.bytes());
    if aim < 14 || aim == 27 {
        old_file = bad_file(rng, Some(Kind::Plan));
    }
    if (14..28).contains(&aim) {
        new_file = bad_file(rng, Some(Kind::Plan));
    }
    let (places, new_places) = (old_net.places(), new_net.places());
    let mut table = table_for(rng, places, new_places);
    let mut running = running_for(rng, &new_net, &table);
    // Faults met later stand there too, now and then.
    if (44..56).contains(&aim) || aim < 44 && rng.percent(15) {
        one_too_many(rng, &new_net, &table, &mut running);
    }
    if (36..44).contains(&aim) || aim < 36 && rng.percent(15) {
        strand(rng, &mut table, &mut running);
    }
    if (28..36).contains(&aim) || aim < 28 && rng.percent(15) {
        match rng.below(3) {
            0 => change_length(rng, &mut table),
            1 => change_length(rng, &mut running),
            _ if places > 0 => {
                let p = rng.below(places);
                let far = rng.range(new_places, 65_534);
                table[p] = *rng.pick(&[new_places, new_places, far, 65_534]) as u16;
            }
            _ => change_length(rng, &mut table),
        }
    }
    let short = (56..64).contains(&aim) || aim < 56 && rng.percent(15);
    let len = buffer_length(rng, new_places, short);
    TransferCase {
        old: lend(rng, &old_file),
        new: lend(rng, &new_file),
        running: lend(rng, &running),
        table: lend(rng, &table),
        marking: lend_out(rng, len),
    }
}

/// A new place gets one token too many, or so many that a sum of 64 bits would wrap.
fn one_too_many(rng: &mut Rng, new: &Net, table: &[u16], running: &mut [u64]) {
    let sent: Vec<usize> = (0..table.len()).filter(|&p| table[p] != NO_PLACE).collect();
    if sent.is_empty() {
        return;
    }
    let p = *rng.pick(&sent);
    let others: Vec<usize> = sent.iter().copied().filter(|&o| o != p && table[o] == table[p]).collect();
    match rng.below(4) {
        0 if !others.is_empty() => {
            // The sum is 2 to the 64, or a little more.
            let other = *rng.pick(&others);
            running[other] = running[other].max(1);
            running[p] = (u64::MAX - running[other]).wrapping_add(1 + rng.below(3) as u64);
            if running[p] < 1 << 33 {
                running[p] = u64::MAX;
            }
        }
        1 => running[p] = u64::MAX,
        _ => {
            let sum: u64 = others.iter().map(|&o| running[o]).fold(0, u64::saturating_add);
            running[p] = (most(new, usize::from(table[p])) + 1).saturating_sub(sum);
        }
    }
}

/// A place with tokens has no new place.
fn strand(rng: &mut Rng, table: &mut [u16], running: &mut [u64]) {
    if table.is_empty() {
        return;
    }
    let p = rng.below(table.len());
    table[p] = NO_PLACE;
    running[p] = *rng.pick(&[1, 1, running[p].max(1), u64::MAX]);
}
