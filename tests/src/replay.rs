//! Firing and replay.

use crate::list;
use crate::net::{Net, Refusal};
use crate::read::read;
use crate::start;

/// Why a transition is not enabled: the lowest place that is short, and the tokens missing there; or, where none is short, the
/// lowest that would be full, and the tokens above its cap.
#[derive(Clone, Copy, PartialEq, Eq, Debug)]
pub struct Hindrance {
    pub full: bool,
    pub place: u16,
    pub amount: u64,
}

#[derive(Clone, Copy, PartialEq, Eq, Debug)]
pub enum Replayed {
    Fired,
    /// The first firing that is not enabled, and why.
    Stuck {
        index: usize,
        why: Hindrance,
    },
}

/// Replays a list from the file's initial marking and leaves the marking reached in the first P entries.
pub fn replay(file: &[u8], numbers: &[u16], marking: &mut [u64]) -> Result<Replayed, Refusal> {
    replay_net(&read(file, None)?, numbers, marking)
}

/// The same from a lent marking.
pub fn replay_from(file: &[u8], start: &[u64], numbers: &[u16], marking: &mut [u64]) -> Result<Replayed, Refusal> {
    replay_net(&start::from(read(file, None)?, start)?, numbers, marking)
}

fn replay_net(net: &Net, numbers: &[u16], marking: &mut [u64]) -> Result<Replayed, Refusal> {
    list::check(numbers, net.transitions())?;
    if marking.len() < net.places() {
        return Err(13);
    }
    let (answer, reached) = fire_list(net, numbers);
    marking[..reached.len()].copy_from_slice(&reached);
    Ok(answer)
}

/// Fires a list as far as it goes; the marking is the one after all firings or before the stuck one.
pub fn fire_list(net: &Net, numbers: &[u16]) -> (Replayed, Vec<u64>) {
    let mut marking = initial(net);
    for (index, &t) in numbers.iter().enumerate() {
        if let Err(why) = fire(net, usize::from(t), &mut marking) {
            return (Replayed::Stuck { index, why }, marking);
        }
    }
    (Replayed::Fired, marking)
}

pub fn initial(net: &Net) -> Vec<u64> {
    net.marking.iter().map(|&m| u64::from(m)).collect()
}

/// Why the transition is not enabled, if it is not: first the inputs, then the caps.
pub fn hindrance(net: &Net, transition: usize, marking: &[u64]) -> Option<Hindrance> {
    if let Some((place, amount)) = short_place(net, transition, marking) {
        return Some(Hindrance { full: false, place, amount });
    }
    full_place(net, transition, marking).map(|(place, amount)| Hindrance { full: true, place, amount })
}

/// The lowest place that is short of tokens for the transition, and how many are missing there.
fn short_place(net: &Net, transition: usize, marking: &[u64]) -> Option<(u16, u64)> {
    let (ins, _) = net.in_and_out(transition);
    ins.chunk_by(|a, b| a.place == b.place).find_map(|run| {
        let need = run.iter().map(|a| u64::from(a.weight)).sum::<u64>();
        let held = marking[usize::from(run[0].place)];
        (held < need).then(|| (run[0].place, need - held))
    })
}

/// The lowest place whose tokens plus the effect are above its cap, and by how many; no place is short.
fn full_place(net: &Net, transition: usize, marking: &[u64]) -> Option<(u16, u64)> {
    let mut lowest = None;
    net.each_effect(transition, |place, effect| {
        if let (None, Some(cap)) = (lowest, net.cap(place)) {
            let held = marking[place].checked_add_signed(effect.into()).expect("no place is short");
            lowest = (held > cap).then(|| (place as u16, held - cap));
        }
    });
    lowest
}

/// Fires one transition, or says why it is not enabled, and changes nothing.
pub fn fire(net: &Net, transition: usize, marking: &mut [u64]) -> Result<(), Hindrance> {
    if let Some(why) = hindrance(net, transition, marking) {
        return Err(why);
    }
    let (ins, outs) = net.in_and_out(transition);
    for a in ins {
        marking[usize::from(a.place)] -= u64::from(a.weight);
    }
    for a in outs {
        marking[usize::from(a.place)] += u64::from(a.weight);
    }
    Ok(())
}

#[cfg(test)]
mod tests {
    use super::*;
    use crate::gen;
    use crate::rng::Rng;

    /// The words taken literally, over every place: in(p,t) at most M(p); then M(p) plus effect at most the cap, where there
    /// is one; the lowest place that fails.
    fn by_the_words(net: &Net, t: usize, marking: &[u64]) -> Option<Hindrance> {
        let sum = |arcs: &[crate::net::Arc], p: usize| -> i128 {
            arcs.iter().filter(|a| usize::from(a.place) == p).map(|a| i128::from(a.weight)).sum()
        };
        let (ins, outs) = net.in_and_out(t);
        for p in 0..net.places() {
            let missing = sum(ins, p) - i128::from(marking[p]);
            if missing > 0 {
                return Some(Hindrance { full: false, place: p as u16, amount: missing as u64 });
            }
        }
        for p in 0..net.places() {
            let excess = i128::from(marking[p]) + sum(outs, p) - sum(ins, p) - i128::from(net.caps[p]);
            if net.caps[p] > 0 && excess > 0 {
                return Some(Hindrance { full: true, place: p as u16, amount: excess as u64 });
            }
        }
        None
    }

    /// Along lists that fire, each transition is tested at each marking; a marking never leaves the caps.
    #[test]
    fn a_firing_is_tested_as_the_words_say() {
        let (mut short, mut full, mut both) = (0, 0, 0);
        for seed in 0..6_000 {
            let mut rng = Rng::new(seed);
            let net = gen::net_of(&gen::capped_plan(&mut rng));
            if net.places() > 40 || net.arcs.len() > 400 {
                continue;
            }
            let mut marking = initial(&net);
            for t in gen::firing_list(&mut rng, &net, 8) {
                for t in 0..net.transitions() {
                    let why = hindrance(&net, t, &marking);
                    assert_eq!(why, by_the_words(&net, t, &marking), "seed {seed}, transition {t}");
                    short += u64::from(why.is_some_and(|w| !w.full));
                    full += u64::from(why.is_some_and(|w| w.full));
                    let over = |a: &crate::net::Arc| {
                        let p = usize::from(a.place);
                        net.cap(p).is_some_and(|cap| marking[p] + u64::from(a.weight) > cap)
                    };
                    both += u64::from(why.is_some_and(|w| !w.full) && net.in_and_out(t).1.iter().any(over));
                }
                fire(&net, usize::from(t), &mut marking).expect("a list that fires");
                let within = |p: usize| net.cap(p).is_none_or(|cap| marking[p] <= cap);
                assert!((0..net.places()).all(within), "seed {seed}");
            }
        }
        assert!(short > 1_000 && full > 1_000 && both > 500, "{short} short, {full} full, {both} short and full too");
    }
}
