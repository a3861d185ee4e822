//! The two cuts: the kept places and transitions, and the call that writes the slice.

use crate::criterion;
use crate::net::{changes, raises, Kind, Net, Refusal};
use crate::read::read;
use crate::start;
use crate::write::slice_bytes;

#[derive(Clone, Copy, PartialEq, Eq, Debug)]
pub enum Cut {
    Safety,
    Branching,
}

/// The kept sets: one yes or no for each place and each transition of the plan.
#[derive(Clone, PartialEq, Eq, Debug)]
pub struct Kept {
    pub places: Vec<bool>,
    pub transitions: Vec<bool>,
}

impl Kept {
    pub fn nothing(net: &Net) -> Kept {
        Kept { places: vec![false; net.places()], transitions: vec![false; net.transitions()] }
    }

    pub fn place_count(&self) -> usize {
        self.places.iter().filter(|&&k| k).count()
    }

    pub fn transition_count(&self) -> usize {
        self.transitions.iter().filter(|&&k| k).count()
    }
}

/// What a cut answers: the length of the slice file, and how many places and transitions it kept.
#[derive(Clone, Copy, PartialEq, Eq, Debug)]
pub struct Written {
    pub length: usize,
    pub places: usize,
    pub transitions: usize,
}

/// Cuts a plan for a criterion and writes the slice at the start of the lent bytes.
pub fn cut(which: Cut, plan: &[u8], q: &[u16], lent: &mut [u8]) -> Result<Written, Refusal> {
    cut_net(&read(plan, Some(Kind::Plan))?, which, q, lent)
}

/// The same from a lent marking, which the slice then has.
pub fn cut_from(which: Cut, plan: &[u8], start: &[u64], q: &[u16], lent: &mut [u8]) -> Result<Written, Refusal> {
    cut_net(&start::from(read(plan, Some(Kind::Plan))?, start)?, which, q, lent)
}

fn cut_net(net: &Net, which: Cut, q: &[u16], lent: &mut [u8]) -> Result<Written, Refusal> {
    criterion::check(q, net.places())?;
    let kept = kept(net, which, q);
    let slice = slice_bytes(net, &kept);
    if lent.len() < slice.len() {
        return Err(13);
    }
    lent[..slice.len()].copy_from_slice(&slice);
    Ok(Written { length: slice.len(), places: kept.place_count(), transitions: kept.transition_count() })
}

/// The sets that a cut keeps.
pub fn kept(net: &Net, which: Cut, q: &[u16]) -> Kept {
    let mut kept = Kept::nothing(net);
    for &p in q {
        kept.places[usize::from(p)] = true;
    }
    match which {
        Cut::Safety => {
            for t in 0..net.transitions() {
                kept.transitions[t] = net.has_effect(t, &kept.places, changes);
            }
            grow(net, &mut kept, raises);
        }
        Cut::Branching => grow(net, &mut kept, changes),
    }
    kept
}

/// Until nothing is added: keeps the input places of kept transitions and the capped places with out above 0 from one, and
/// every transition with a wanted effect on a kept place, or with any on a kept capped one. Each place and transition is gone
/// through once.
pub fn grow(net: &Net, kept: &mut Kept, wanted: fn(i32) -> bool) {
    let mut wanting: Vec<Vec<u16>> = vec![Vec::new(); net.places()];
    for t in 0..net.transitions() {
        net.each_effect(t, |p, effect| {
            if wanted(effect) || net.cap(p).is_some() && changes(effect) {
                wanting[p].push(t as u16);
            }
        });
    }
    let mut pending: Vec<usize> = (0..net.places()).filter(|&p| kept.places[p]).collect();
    for t in 0..net.transitions() {
        if kept.transitions[t] {
            keep_places(net, t, kept, &mut pending);
        }
    }
    while let Some(p) = pending.pop() {
        for &t in &wanting[p] {
            let t = usize::from(t);
            if !kept.transitions[t] {
                kept.transitions[t] = true;
                keep_places(net, t, kept, &mut pending);
            }
        }
    }
}

/// Keeps the input places of a transition and its capped output places; the new ones become pending.
fn keep_places(net: &Net, transition: usize, kept: &mut Kept, pending: &mut Vec<usize>) {
    let inputs = net.in_and_out(transition).0.iter().map(|arc| usize::from(arc.place));
    for p in inputs.chain(net.capped_outputs(transition)) {
        if !kept.places[p] {
            kept.places[p] = true;
            pending.push(p);
        }
    }
}

#[cfg(test)]
mod tests {
    use super::*;
    use crate::gen;
    use crate::rng::Rng;

    /// The words taken literally: rounds over everything until a round adds nothing. "Both cuts also keep capped places with
    /// out above 0 from a kept transition, and every transition that changes a kept capped place."
    fn by_the_words(net: &Net, which: Cut, q: &[u16]) -> Kept {
        let mut kept = Kept::nothing(net);
        q.iter().for_each(|&p| kept.places[usize::from(p)] = true);
        let wanted = match which {
            Cut::Safety => {
                for t in 0..net.transitions() {
                    kept.transitions[t] = net.has_effect(t, &kept.places, changes);
                }
                raises
            }
            Cut::Branching => changes,
        };
        loop {
            let before = kept.clone();
            for t in 0..net.transitions() {
                if kept.transitions[t] {
                    let (ins, outs) = net.in_and_out(t);
                    ins.iter().for_each(|a| kept.places[usize::from(a.place)] = true);
                    let capped = outs.iter().filter(|a| net.caps[usize::from(a.place)] > 0);
                    capped.for_each(|a| kept.places[usize::from(a.place)] = true);
                }
            }
            let kept_and_capped: Vec<bool> = (0..net.places()).map(|p| kept.places[p] && net.caps[p] > 0).collect();
            for t in 0..net.transitions() {
                kept.transitions[t] |= net.has_effect(t, &kept.places, wanted);
                kept.transitions[t] |= net.has_effect(t, &kept_and_capped, changes);
            }
            if kept == before {
                return kept;
            }
        }
    }

    /// In a good part of the cases the caps make a cut larger.
    #[test]
    fn the_cuts_keep_what_the_words_say() {
        let mut larger = [0; 2];
        for seed in 0..20_000 {
            let mut rng = Rng::new(seed);
            let net = read(&gen::plan(&mut rng).bytes(), Some(Kind::Plan)).unwrap();
            if net.places() == 0 {
                continue;
            }
            let q = gen::good_criterion(&mut rng, net.places());
            for which in [Cut::Safety, Cut::Branching] {
                let found = kept(&net, which, &q);
                assert_eq!(found, by_the_words(&net, which, &q), "seed {seed}");
                let uncapped = Net { caps: vec![0; net.places()], ..net.clone() };
                larger[which as usize] += u64::from(found != kept(&uncapped, which, &q));
            }
        }
        assert!(larger[0] > 500 && larger[1] > 100, "{larger:?} larger by the caps");
    }
}
