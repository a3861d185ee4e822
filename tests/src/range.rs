//! Attendance known within a range: from which of its markings a list fires, and the least marking that the list needs.

use crate::list;
use crate::net::{Kind, Net, Refusal};
use crate::read::read;
use crate::replay::{fire, initial};

#[derive(Clone, Copy, PartialEq, Eq, Debug)]
pub enum Extent {
    Every,
    SomeNotAll,
    Never,
}

/// From which markings between the plan's and the upper list a list fires; what it needs goes to the first P entries.
pub fn range(plan: &[u8], numbers: &[u16], upper: &[u32], need: &mut [u64]) -> Result<Extent, Refusal> {
    let net = read(plan, Some(Kind::Plan))?;
    if net.has_caps() {
        return Err(17);
    }
    list::check(numbers, net.transitions())?;
    if upper.len() != net.places() || upper.iter().zip(&net.marking).any(|(most, least)| most < least) {
        return Err(21);
    }
    if need.len() < net.places() {
        return Err(13);
    }
    need[..net.places()].copy_from_slice(&least_marking(&net, numbers));
    Ok(extent(&net, numbers, upper))
}

/// Markings of a range that are tried one by one, where it has no more, and firings of all these tries.
const TRIED: u64 = 64;
const FIRINGS: u64 = 2_000;

/// Tries the markings of the range: all where they are few, else its two ends. More tokens never block a firing: no place has a cap.
fn extent(net: &Net, numbers: &[u16], upper: &[u32]) -> Extent {
    let lower = initial(net);
    let upper: Vec<u64> = upper.iter().map(|&most| u64::from(most)).collect();
    let count = lower.iter().zip(&upper).try_fold(1u64, |n, (l, u)| n.checked_mul(u - l + 1));
    let few = count.is_some_and(|n| n <= TRIED && n * numbers.len() as u64 <= FIRINGS);
    let fires: Vec<bool> = if few {
        all_between(&lower, &upper).into_iter().map(|marking| fires_from(net, numbers, marking)).collect()
    } else {
        vec![fires_from(net, numbers, lower), fires_from(net, numbers, upper)]
    };
    match (fires.iter().all(|&f| f), fires.iter().any(|&f| f)) {
        (true, _) => Extent::Every,
        (false, true) => Extent::SomeNotAll,
        (false, false) => Extent::Never,
    }
}

/// Every marking with at least the one's tokens and at most the other's on each place.
fn all_between(lower: &[u64], upper: &[u64]) -> Vec<Vec<u64>> {
    let mut all = vec![Vec::new()];
    for (&least, &most) in lower.iter().zip(upper) {
        all = all.iter().flat_map(|head| (least..=most).map(move |held| [head.as_slice(), &[held]].concat())).collect();
    }
    all
}

pub fn fires_from(net: &Net, numbers: &[u16], mut marking: Vec<u64>) -> bool {
    numbers.iter().all(|&t| fire(net, usize::from(t), &mut marking).is_ok())
}

/// For a net without caps. Searches forward from no tokens at all: where a firing is short, so many more are needed at that place from the start. What fired
/// before fires with them too, so the search goes on there.
pub fn least_marking(net: &Net, numbers: &[u16]) -> Vec<u64> {
    let (mut need, mut marking) = (vec![0; net.places()], vec![0; net.places()]);
    for &t in numbers {
        while let Err(why) = fire(net, usize::from(t), &mut marking) {
            need[usize::from(why.place)] += why.amount;
            marking[usize::from(why.place)] += why.amount;
        }
    }
    need
}

#[cfg(test)]
mod tests {
    use super::*;
    use crate::cases::Case;
    use crate::gen;
    use crate::rng::Rng;

    /// "The list fires from a marking exactly when that covers the need": from the need, from anything above it, and not with one
    /// token less on any place.
    #[test]
    fn the_need_is_the_least() {
        let (mut tight, mut above) = (0, 0);
        for seed in 0..20_000 {
            let mut rng = Rng::new(seed);
            let mut draft = gen::plan(&mut rng);
            draft.caps.clear();
            let net = gen::net_of(&draft);
            let numbers = gen::list_for(&mut rng, &net);
            if net.places() > 40 || numbers.len() > 200 {
                continue;
            }
            let need = least_marking(&net, &numbers);
            assert!(fires_from(&net, &numbers, need.clone()), "seed {seed}");
            for p in 0..net.places() {
                let more: Vec<u64> = need.iter().map(|&n| n + rng.below(3) as u64).collect();
                above += u64::from(more != need);
                assert!(fires_from(&net, &numbers, more.clone()), "seed {seed}");
                if need[p] > 0 {
                    let mut less = more;
                    less[p] = rng.below(need[p].min(1 << 30) as usize) as u64;
                    assert!(!fires_from(&net, &numbers, less), "seed {seed}, place {p}");
                    let mut one_less = need.clone();
                    one_less[p] -= 1;
                    assert!(!fires_from(&net, &numbers, one_less), "seed {seed}, place {p}");
                    tight += 1;
                }
            }
        }
        assert!(tight > 5_000 && above > 5_000, "{tight} places with a need, {above} markings above");
    }

    /// The three words by the need: the lower end covers it, the upper end alone, neither. Small ranges are tried whole.
    #[test]
    fn the_extent_is_that_of_the_need() {
        let mut whole = 0;
        for seed in 0..20_000 {
            let case = gen::range_case(&mut Rng::new(seed));
            let number = case.second().number;
            let due = match number {
                0 => Extent::Every,
                100 => Extent::SomeNotAll,
                101 => Extent::Never,
                _ => continue,
            };
            let net = read(case.plan.part(), Some(Kind::Plan)).unwrap();
            let need = least_marking(&net, case.list.part());
            let covers = |held: &[u32]| held.iter().zip(&need).all(|(&held, &need)| u64::from(held) >= need);
            let found = match (covers(&net.marking), covers(case.upper.part())) {
                (true, _) => Extent::Every,
                (false, true) => Extent::SomeNotAll,
                (false, false) => Extent::Never,
            };
            assert_eq!(found, due, "seed {seed}");
            let wider = net.marking.iter().zip(case.upper.part()).filter(|(l, u)| l < u).count();
            let widest = net.marking.iter().zip(case.upper.part()).map(|(l, u)| u - l).max();
            whole += u64::from((1..=3).contains(&wider) && widest.is_some_and(|w| w <= 3) && number == 100);
        }
        assert!(whole > 50, "{whole} small ranges with some markings and not others");
    }
}
