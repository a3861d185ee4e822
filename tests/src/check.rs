//! The checker: is a slice, whoever made it, accepted for a plan and a criterion?

use crate::criterion;
use crate::cut::Kept;
use crate::net::{changes, raises, Kind, Net, Refusal};
use crate::read::read;
use crate::start;

#[derive(Clone, Copy, PartialEq, Eq, Debug)]
pub enum Verdict {
    Accepted,
    /// The first rule broken, 1 to 10, and the lowest number that breaks it.
    Broken {
        rule: u32,
        number: usize,
    },
}

/// The verdict, with Q as numbers.
pub fn verdict(plan: &[u8], slice: &[u8], q: &[u16]) -> Result<Verdict, Refusal> {
    let plan = read(plan, Some(Kind::Plan))?;
    let slice = read(slice, Some(Kind::Slice))?;
    criterion::check(q, plan.places())?;
    Ok(judge(&plan, &slice, q))
}

/// The same against a lent marking of the plan: rule 3 compares with it.
pub fn verdict_from(plan: &[u8], slice: &[u8], start: &[u64], q: &[u16]) -> Result<Verdict, Refusal> {
    let plan = read(plan, Some(Kind::Plan))?;
    let slice = read(slice, Some(Kind::Slice))?;
    let plan = start::from(plan, start)?;
    criterion::check(q, plan.places())?;
    Ok(judge(&plan, &slice, q))
}

/// The C check's number, with Q as bytes: 0 accepted, below 100 a refusal, else 100 plus the rule.
pub fn check_number(plan: &[u8], slice: &[u8], q_bytes: &[u8]) -> u32 {
    match check_bytes(plan, slice, q_bytes) {
        Err(refusal) => refusal,
        Ok(Verdict::Accepted) => 0,
        Ok(Verdict::Broken { rule, .. }) => 100 + rule,
    }
}

fn check_bytes(plan: &[u8], slice: &[u8], q_bytes: &[u8]) -> Result<Verdict, Refusal> {
    let plan = read(plan, Some(Kind::Plan))?;
    let slice = read(slice, Some(Kind::Slice))?;
    let q = criterion::from_bytes(q_bytes)?;
    criterion::check(&q, plan.places())?;
    Ok(judge(&plan, &slice, &q))
}

/// The rules in order; all numbers but those of rules 1 and 2 are the plan's.
pub fn judge(plan: &Net, slice: &Net, q: &[u16]) -> Verdict {
    let broken = |rule, number| Verdict::Broken { rule, number };

    // 1, 2: origins are numbers of the plan.
    if let Some(p) = slice.place_origins.iter().position(|&o| usize::from(o) >= plan.places()) {
        return broken(1, p);
    }
    if let Some(t) = slice.transition_origins.iter().position(|&o| usize::from(o) >= plan.transitions()) {
        return broken(2, t);
    }
    let mut kept = Kept::nothing(plan);
    let mut slice_number = vec![0u16; plan.places()];
    for (number, &origin) in slice.place_origins.iter().enumerate() {
        kept.places[usize::from(origin)] = true;
        slice_number[usize::from(origin)] = number as u16;
    }
    for &origin in &slice.transition_origins {
        kept.transitions[usize::from(origin)] = true;
    }

    // 3: markings and caps. Origins rise, so the first place of the slice has the lowest plan number.
    for (number, &origin) in slice.place_origins.iter().enumerate() {
        let p = usize::from(origin);
        if (slice.marking[number], slice.caps[number]) != (plan.marking[p], plan.caps[p]) {
            return broken(3, p);
        }
    }
    // 4: arcs, with repeats. Both runs are in order by direction and place, and renumbering keeps the order.
    for (number, &origin) in slice.transition_origins.iter().enumerate() {
        let t = usize::from(origin);
        let due = plan
            .arcs_of(t)
            .iter()
            .filter(|a| kept.places[usize::from(a.place)])
            .map(|a| (a.direction, slice_number[usize::from(a.place)], a.weight));
        let there = slice.arcs_of(number).iter().map(|a| (a.direction, a.place, a.weight));
        if !due.eq(there) {
            return broken(4, t);
        }
    }
    // 5: Q is kept.
    if let Some(&p) = q.iter().find(|&&p| !kept.places[usize::from(p)]) {
        return broken(5, usize::from(p));
    }
    // 6: no transition left out changes a place of Q.
    let mut in_q = vec![false; plan.places()];
    for &p in q {
        in_q[usize::from(p)] = true;
    }
    for t in 0..plan.transitions() {
        if !kept.transitions[t] && plan.has_effect(t, &in_q, changes) {
            return broken(6, t);
        }
    }
    // 7: every input place of a kept transition is kept.
    for t in 0..plan.transitions() {
        let (ins, _) = plan.in_and_out(t);
        if kept.transitions[t] && ins.iter().any(|a| !kept.places[usize::from(a.place)]) {
            return broken(7, t);
        }
    }
    // 8: no transition left out raises a kept place.
    for t in 0..plan.transitions() {
        if !kept.transitions[t] && plan.has_effect(t, &kept.places, raises) {
            return broken(8, t);
        }
    }
    // 9: every capped place with out above 0 from a kept transition is kept.
    for t in 0..plan.transitions() {
        if kept.transitions[t] && plan.capped_outputs(t).any(|p| !kept.places[p]) {
            return broken(9, t);
        }
    }
    // 10: no transition left out changes a kept capped place.
    let capped = plan.capped_of(&kept.places);
    for t in 0..plan.transitions() {
        if !kept.transitions[t] && plan.has_effect(t, &capped, changes) {
            return broken(10, t);
        }
    }
    Verdict::Accepted
}

#[cfg(test)]
mod tests {
    use super::*;
    use crate::gen;
    use crate::net::Direction;
    use crate::replay::{fire_list, Replayed};
    use crate::rng::Rng;
    use crate::shadow::strike_out;

    /// The ten sentences taken literally, over every place and transition.
    fn by_the_words(plan: &Net, slice: &Net, q: &[u16]) -> Verdict {
        let (places, transitions) = (plan.places(), plan.transitions());
        let sums = |direction: Direction| {
            let mut table = vec![vec![0i64; transitions]; places];
            let arcs = plan.arcs.iter().filter(|a| a.direction == direction);
            arcs.for_each(|a| table[usize::from(a.place)][usize::from(a.transition)] += i64::from(a.weight));
            table
        };
        let (ins, outs) = (sums(Direction::In), sums(Direction::Out));
        let effect = |p: usize, t: usize| outs[p][t] - ins[p][t];
        let own = |origins: &[u16], n: usize| origins.iter().position(|&o| usize::from(o) == n);
        let place = |p: usize| own(&slice.place_origins, p);
        let transition = |t: usize| own(&slice.transition_origins, t);
        let kept_place: Vec<bool> = (0..places).map(|p| place(p).is_some()).collect();
        let kept: Vec<bool> = (0..transitions).map(|t| transition(t).is_some()).collect();
        let in_q: Vec<bool> = (0..places).map(|p| q.contains(&(p as u16))).collect();
        let same =
            |p: usize, number: usize| slice.marking[number] == plan.marking[p] && slice.caps[number] == plan.caps[p];
        let arcs = |t: usize, number: usize| {
            let due = plan.arcs.iter().filter(|a| usize::from(a.transition) == t);
            let due = due.filter_map(|a| Some((a.direction, place(a.place.into())? as u16, a.weight)));
            let there = slice.arcs.iter().filter(|a| usize::from(a.transition) == number);
            due.eq(there.map(|a| (a.direction, a.place, a.weight)))
        };
        let some = |test: &dyn Fn(usize) -> bool| (0..places).any(test);
        let capped = |p: usize| plan.caps[p] > 0;
        let of_transitions = |broken: &dyn Fn(usize) -> bool| (0..transitions).find(|&t| broken(t));
        let lowest: [Option<usize>; 10] = [
            slice.place_origins.iter().position(|&o| usize::from(o) >= places),
            slice.transition_origins.iter().position(|&o| usize::from(o) >= transitions),
            (0..places).find(|&p| place(p).is_some_and(|number| !same(p, number))),
            of_transitions(&|t| transition(t).is_some_and(|number| !arcs(t, number))),
            (0..places).find(|&p| in_q[p] && !kept_place[p]),
            of_transitions(&|t| !kept[t] && some(&|p| in_q[p] && effect(p, t) != 0)),
            of_transitions(&|t| kept[t] && some(&|p| ins[p][t] > 0 && !kept_place[p])),
            of_transitions(&|t| !kept[t] && some(&|p| kept_place[p] && effect(p, t) > 0)),
            of_transitions(&|t| kept[t] && some(&|p| capped(p) && outs[p][t] > 0 && !kept_place[p])),
            of_transitions(&|t| !kept[t] && some(&|p| kept_place[p] && capped(p) && effect(p, t) != 0)),
        ];
        match lowest.iter().position(Option::is_some) {
            Some(i) => Verdict::Broken { rule: i as u32 + 1, number: lowest[i].unwrap() },
            None => Verdict::Accepted,
        }
    }

    #[test]
    fn the_verdict_is_that_of_the_words() {
        let mut rules = [0; 11];
        for seed in 0..30_000 {
            let case = gen::verdict_case(&mut Rng::new(seed));
            let read = |file: &[u8], kind| read(file, Some(kind));
            let (Ok(plan), Ok(slice)) = (read(case.plan.part(), Kind::Plan), read(case.slice.part(), Kind::Slice))
            else {
                continue;
            };
            if plan.places() * plan.transitions() > 2_000 || criterion::check(case.q.part(), plan.places()).is_err() {
                continue;
            }
            let verdict = judge(&plan, &slice, case.q.part());
            assert_eq!(verdict, by_the_words(&plan, &slice, case.q.part()), "seed {seed}");
            match verdict {
                Verdict::Accepted => rules[0] += 1,
                Verdict::Broken { rule, .. } => rules[rule as usize] += 1,
            }
        }
        assert!(rules.iter().all(|&count| count > 300), "{rules:?}");
    }

    /// How the guarantee fails for a list of the plan's numbers that fires in the plan, if it does: its shadow does not fire in
    /// the slice, or ends with other tokens on Q.
    fn lost(plan: &Net, slice: &Net, q: &[u16], list: &[u16]) -> bool {
        let (Replayed::Fired, there) = fire_list(plan, list) else { return false };
        let (answer, here) = fire_list(slice, &strike_out(&slice.transition_origins, list));
        let equal = |(number, &p): (usize, &u16)| !q.contains(&p) || here[number] == there[usize::from(p)];
        answer != Replayed::Fired || !slice.place_origins.iter().enumerate().all(equal)
    }

    /// How it fails for a list of the slice's own numbers that fires in the slice: it does not fire in the plan, or ends with
    /// other tokens on a kept place.
    fn made_up(plan: &Net, slice: &Net, list: &[u16]) -> bool {
        let (Replayed::Fired, here) = fire_list(slice, list) else { return false };
        let lifted: Vec<u16> = list.iter().map(|&t| slice.transition_origins[usize::from(t)]).collect();
        let (answer, there) = fire_list(plan, &lifted);
        let equal = |(number, &p): (usize, &u16)| here[number] == there[usize::from(p)];
        answer != Replayed::Fired || !slice.place_origins.iter().enumerate().all(equal)
    }

    /// With caps the guarantee holds of what the ten rules accept. Where rule 9 alone is broken, runs are made up; where rule 10
    /// alone is broken, runs are lost: eight rules would not do.
    #[test]
    fn the_guarantee_is_of_capped_firing() {
        let (mut accepted, mut full, mut made_up_by_9, mut lost_by_10) = (0, 0, 0, 0);
        for seed in 0..20_000 {
            let mut rng = Rng::new(seed);
            let plan = gen::net_of(&gen::capped_plan(&mut rng));
            let q = gen::good_criterion(&mut rng, plan.places());
            let slice = match seed % 3 {
                0 => gen::honest_slice(&mut rng, &plan, &q),
                n => gen::slice_against(&mut rng, &plan, &q, 8 + n as u32),
            };
            let slice = gen::net_of(&slice);
            let verdict = judge(&plan, &slice, &q);
            for _ in 0..4 {
                let of_plan = gen::firing_list(&mut rng, &plan, 20);
                let of_slice = gen::firing_list(&mut rng, &slice, 20);
                let (lost, made_up) = (lost(&plan, &slice, &q, &of_plan), made_up(&plan, &slice, &of_slice));
                match verdict {
                    Verdict::Accepted => {
                        assert!(!lost && !made_up, "seed {seed}, {of_plan:?}, {of_slice:?}");
                        accepted += 1;
                        let more = gen::list_for(&mut rng, &plan);
                        full += u64::from(matches!(fire_list(&plan, &more).0, Replayed::Stuck { why, .. } if why.full));
                    }
                    Verdict::Broken { rule: 9, .. } => made_up_by_9 += u64::from(made_up),
                    Verdict::Broken { rule: 10, .. } => lost_by_10 += u64::from(lost),
                    Verdict::Broken { .. } => panic!("seed {seed}: {verdict:?}"),
                }
            }
        }
        let all = [accepted, full, made_up_by_9, lost_by_10];
        assert!(accepted > 10_000 && all.iter().all(|&count| count > 100), "{all:?}");
    }
}
