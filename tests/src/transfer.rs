//! Change of plan with buses on the road: a running marking of an old plan carried over to a new one.

use crate::net::{Kind, Refusal};
use crate::read::read;
use crate::start::most;

/// The entry of the table for an old place that has no new one.
pub const NO_PLACE: u16 = 65_535;

/// Each new place gets the sum of what maps to it, in the first entries of `marking`, as many as the new plan has places.
pub fn transfer(old: &[u8], new: &[u8], running: &[u64], table: &[u16], marking: &mut [u64]) -> Result<usize, Refusal> {
    let old = read(old, Some(Kind::Plan))?;
    let new = read(new, Some(Kind::Plan))?;
    if running.len() != old.places() || table.len() != old.places() {
        return Err(22);
    }
    if table.iter().any(|&to| to != NO_PLACE && usize::from(to) >= new.places()) {
        return Err(22);
    }
    if running.iter().zip(table).any(|(&tokens, &to)| tokens > 0 && to == NO_PLACE) {
        return Err(23);
    }
    let sums = carried(running, table, new.places());
    if (0..new.places()).any(|p| sums[p] > u128::from(most(&new, p))) {
        return Err(24);
    }
    if marking.len() < new.places() {
        return Err(13);
    }
    for (entry, sum) in marking.iter_mut().zip(&sums) {
        *entry = *sum as u64;
    }
    Ok(new.places())
}

/// What each new place gets; at most 1,024 entries of 64 bits, so a sum has 74 at most.
pub fn carried(running: &[u64], table: &[u16], places: usize) -> Vec<u128> {
    let sent_to = |p: usize| running.iter().zip(table).filter(move |(_, &to)| usize::from(to) == p);
    (0..places).map(|p| sent_to(p).map(|(&tokens, _)| u128::from(tokens)).sum()).collect()
}

#[cfg(test)]
mod tests {
    use super::*;
    use crate::cases::{Case, Cells};
    use crate::gen;
    use crate::rng::Rng;
    use crate::start::from;

    /// The total is unchanged, and the new plan can start from what is written. Many to one, none, limits and caps come.
    #[test]
    fn the_total_is_unchanged() {
        let (mut done, mut many, mut none, mut limit, mut cap) = (0, 0, 0, 0, 0);
        for seed in 0..20_000 {
            let case = gen::transfer_case(&mut Rng::new(seed));
            let answer = case.second();
            if answer.number != 0 {
                continue;
            }
            let new = read(case.new.part(), Some(Kind::Plan)).unwrap();
            let [Cells::Longs(cells)] = &answer.cells[..] else { panic!("one buffer") };
            let carried = &cells[case.marking.start..case.marking.start + new.places()];
            let total = |tokens: &[u64]| tokens.iter().map(|&n| u128::from(n)).sum::<u128>();
            assert_eq!(total(carried), total(case.running.part()), "seed {seed}");
            assert!(from(new.clone(), carried).is_ok(), "seed {seed}");
            let table = case.table.part();
            let sent = |p: usize| table.iter().filter(|&&to| usize::from(to) == p).count();
            done += 1;
            many += u64::from((0..new.places()).any(|p| sent(p) > 1 && carried[p] > 0));
            none += u64::from(table.contains(&NO_PLACE));
            limit += u64::from(carried.contains(&4_294_967_295));
            cap += u64::from((0..new.places()).any(|p| sent(p) > 0 && new.cap(p) == Some(carried[p])));
        }
        let all = [many, none, limit, cap];
        assert!(done > 5_000 && all.iter().all(|&count| count > 200), "{done} done, {all:?}");
    }
}
