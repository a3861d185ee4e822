//! The cut for one recorded run: source document 002, algorithm 2.

use crate::cut::{Kept, Written};
use crate::net::{Kind, Net, Refusal};
use crate::read::read;
use crate::replay::{fire_list, Replayed};
use crate::write::slice_bytes;
use crate::{criterion, list};

#[derive(Clone, Copy, PartialEq, Eq, Debug)]
pub enum RunCut {
    /// What a cut answers, and the count of the chosen positions.
    Written(Written, usize),
    /// 14: the list sticks in replay; a place is short, since a plan with caps is refused.
    Sticks { index: usize, place: u16, amount: u64 },
}

/// Cuts a plan for what fed the criterion in a list; the slice goes to the start of `lent`, the chosen positions to `positions`.
pub fn run_cut(
    plan: &[u8],
    q: &[u16],
    numbers: &[u16],
    lent: &mut [u8],
    positions: &mut [u16],
) -> Result<RunCut, Refusal> {
    let net = read(plan, Some(Kind::Plan))?;
    if net.has_caps() {
        return Err(17);
    }
    criterion::check(q, net.places())?;
    list::check(numbers, net.transitions())?;
    let (answer, end) = fire_list(&net, numbers);
    if let Replayed::Stuck { index, why } = answer {
        return Ok(RunCut::Sticks { index, place: why.place, amount: why.amount });
    }
    let (kept, chosen) = go_back(&net, q, numbers, end);
    let slice = slice_bytes(&net, &kept);
    if lent.len() < slice.len() || positions.len() < chosen.len() {
        return Err(13);
    }
    lent[..slice.len()].copy_from_slice(&slice);
    positions[..chosen.len()].copy_from_slice(&chosen);
    let (length, places, transitions) = (slice.len(), kept.place_count(), kept.transition_count());
    Ok(RunCut::Written(Written { length, places, transitions }, chosen.len()))
}

/// The final W with the chosen transitions, and the chosen positions; `end` is the marking after the list.
///
/// slice(M0, σ, W) = W
/// slice(Mi, σ, W) = slice(Mi-1, σ, W)               if Mi-1(p) >= Mi(p) for every p of W
/// slice(Mi, σ, W) = {ti} ∪ slice(Mi-1, σ, W ∪ •ti)  if Mi-1(p) < Mi(p) for some p of W
pub fn go_back(net: &Net, q: &[u16], numbers: &[u16], end: Vec<u64>) -> (Kept, Vec<u16>) {
    let mut kept = Kept::nothing(net);
    q.iter().for_each(|&p| kept.places[usize::from(p)] = true);
    let mut chosen = Vec::new();
    let mut after = end;
    for (position, &t) in numbers.iter().enumerate().rev() {
        let (ins, outs) = net.in_and_out(usize::from(t));
        let mut before = after.clone();
        outs.iter().for_each(|a| before[usize::from(a.place)] -= u64::from(a.weight));
        ins.iter().for_each(|a| before[usize::from(a.place)] += u64::from(a.weight));
        if (0..net.places()).any(|p| kept.places[p] && before[p] < after[p]) {
            chosen.push(position as u16);
            kept.transitions[usize::from(t)] = true;
            ins.iter().for_each(|a| kept.places[usize::from(a.place)] = true);
        }
        after = before;
    }
    chosen.reverse();
    (kept, chosen)
}

#[cfg(test)]
mod tests {
    use super::*;
    use crate::cases::Case;
    use crate::gen;
    use crate::net::raises;
    use crate::published;
    use crate::rng::Rng;
    use crate::shadow::strike_out;

    /// Document 002, theorem 4.4: all firings of kept transitions would fire, and cover the plan's end on every kept place. The
    /// two lists of the example show each half false; the chosen positions fire.
    #[test]
    fn the_documents_own_claim_fails() {
        let published = published::nets();
        let net = published.iter().find(|net| !net.run_cuts.is_empty()).expect("an example of 002");
        let plan = read(&net.plan, Some(Kind::Plan)).unwrap();
        let claims = net.run_cuts.iter().map(|c| {
            let (_, end) = fire_list(&plan, &c.list);
            let (kept, chosen) = go_back(&plan, &c.q, &c.list, end.clone());
            let slice = read(&slice_bytes(&plan, &kept), Some(Kind::Slice)).unwrap();
            let picked: Vec<u16> = chosen.iter().map(|&i| c.list[usize::from(i)]).collect();
            assert_eq!(fire_list(&slice, &strike_out(&slice.transition_origins, &picked)).0, Replayed::Fired);
            let (answer, marking) = fire_list(&slice, &strike_out(&slice.transition_origins, &c.list));
            let covers = slice.place_origins.iter().zip(&marking).all(|(&p, m)| *m >= end[usize::from(p)]);
            (answer == Replayed::Fired, covers)
        });
        assert_eq!(claims.collect::<Vec<_>>(), [(false, false), (true, false)]);
    }

    /// A chosen transition is chosen at each earlier firing; a firing is passed over exactly where its effect is above 0 on no
    /// place of the W of then.
    #[test]
    fn positions_are_those_of_the_words() {
        let mut several = 0;
        for seed in 0..20_000 {
            let case = gen::run_cut_case(&mut Rng::new(seed));
            if case.second().number != 0 {
                continue;
            }
            let net = read(case.plan.part(), Some(Kind::Plan)).unwrap();
            let (q, list) = (case.q.part(), case.list.part());
            let (kept, chosen) = go_back(&net, q, list, fire_list(&net, list).1);
            let mut w = vec![false; net.places()];
            q.iter().for_each(|&p| w[usize::from(p)] = true);
            let mut found = Vec::new();
            for i in (0..list.len()).rev() {
                let t = usize::from(list[i]);
                if net.has_effect(t, &w, raises) {
                    found.insert(0, i as u16);
                    net.in_and_out(t).0.iter().for_each(|a| w[usize::from(a.place)] = true);
                }
            }
            assert_eq!((&kept.places, &chosen), (&w, &found), "seed {seed}");
            let last = |t| chosen.iter().rfind(|&&i| list[usize::from(i)] == t);
            let due = (0..list.len() as u16).filter(|&i| last(list[usize::from(i)]) >= Some(&i));
            assert!(due.eq(chosen.iter().copied()), "seed {seed}");
            several += u64::from(chosen.len() > 1 && chosen.len() < list.len());
        }
        assert!(several > 500, "{several} runs with some of their firings chosen");
    }
}
