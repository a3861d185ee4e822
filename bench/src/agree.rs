//! Does the tuned program answer as the second implementation does? Fixed and generated cases of every call: the
//! number, the values handed back, and every entry of the lent buffer and around it.

use crate::tuned;
use nesfoal_tests::cases::*;
use nesfoal_tests::cut::Cut;
use nesfoal_tests::fixed::{self, Fixed};
use nesfoal_tests::gen;
use nesfoal_tests::rng::Rng;
use std::collections::BTreeMap;

const SEED: u64 = 7;
/// What values handed back hold before the call.
const UNSET: u32 = 0xDEAD_BEEF;

/// Compares so many generated cases of each call; whether nothing differed.
pub fn agree(cases: u64) -> bool {
    let cut = |which| move |rng: &mut Rng| gen::cut_case(rng, which);
    let good = [
        call("effect", cases, fixed::effects(), gen::effect_case, effect),
        call("arcs", cases, fixed::arc_runs(), gen::arcs_case, arcs),
        call("replay", cases, fixed::replays(), gen::replay_case, replay),
        call("safety", cases, fixed::cuts(Cut::Safety), cut(Cut::Safety), cut_answer),
        call("branching", cases, fixed::cuts(Cut::Branching), cut(Cut::Branching), cut_answer),
        call("run_cut", cases, fixed::run_cuts(), gen::run_cut_case, run_cut),
        call("shadow", cases, fixed::shadows(), gen::shadow_case, shadow),
        call("together", cases, fixed::takings(), gen::together_case, together),
        call("range", cases, fixed::ranges(), gen::range_case, range),
        call("check", cases, fixed::checks(), gen::check_case, check),
        call("verdict", cases, fixed::verdicts(), gen::verdict_case, verdict),
    ];
    good.iter().all(|&g| g)
}

fn effect(c: &EffectCase) -> Answer {
    let mut effect = UNSET as i32;
    let number = unsafe { tuned::effect(c.file.pointer(), c.file.len, c.place, c.transition, &mut effect) };
    Answer::new(number, [effect], vec![])
}

fn arcs(c: &ArcsCase) -> Answer {
    let mut start = UNSET;
    let (plan, slice) = (&c.plan, &c.slice);
    let number = unsafe {
        tuned::arcs(plan.pointer(), plan.len, slice.pointer(), slice.len, c.of_slice, c.transition, &mut start)
    };
    Answer::new(number, [start], vec![])
}

fn replay(c: &ReplayCase) -> Answer {
    let (file, list, mut lent) = (&c.file, &c.list, c.marking.clone());
    let (mut index, mut place, mut amount) = (UNSET, UNSET, UNSET);
    let (to, room) = (lent.pointer_mut(), lent.len);
    let (from, firings) = (list.pointer(), list.len);
    let number = unsafe {
        tuned::replay(file.pointer(), file.len, from, firings, to, room, &mut index, &mut place, &mut amount)
    };
    Answer::new(number, [index, place, amount], vec![Cells::Longs(lent.cells)])
}

fn cut_answer(c: &CutCase) -> Answer {
    let (plan, q, mut lent) = (&c.plan, &c.q, c.slice.clone());
    let (mut length, mut places, mut kept) = (UNSET, UNSET, UNSET);
    let call = match c.which {
        Cut::Safety => tuned::safety,
        Cut::Branching => tuned::branching,
    };
    let (to, room) = (lent.pointer_mut(), lent.len);
    let number =
        unsafe { call(plan.pointer(), plan.len, q.pointer(), q.len, to, room, &mut length, &mut places, &mut kept) };
    Answer::new(number, [length, places, kept], vec![Cells::Bytes(lent.cells)])
}

fn run_cut(c: &RunCutCase) -> Answer {
    let (plan, q, list) = (&c.plan, &c.q, &c.list);
    let (mut slice, mut positions) = (c.slice.clone(), c.positions.clone());
    let mut outs = [UNSET; 7];
    let [length, places, transitions, count, index, place, amount] = &mut outs;
    let number = unsafe {
        tuned::run_cut(
            plan.pointer(),
            plan.len,
            q.pointer(),
            q.len,
            list.pointer(),
            list.len,
            slice.pointer_mut(),
            slice.len,
            positions.pointer_mut(),
            positions.len,
            length,
            places,
            transitions,
            count,
            index,
            place,
            amount,
        )
    };
    Answer::new(number, outs, vec![Cells::Bytes(slice.cells), Cells::Halves(positions.cells)])
}

fn shadow(c: &ShadowCase) -> Answer {
    let (plan, slice, list) = (&c.plan, &c.slice, &c.list);
    let (mut marking, mut out) = (c.marking.clone(), c.out.clone());
    let [mut index, mut place, mut amount, mut count] = [UNSET; 4];
    let number = unsafe {
        tuned::shadow(
            plan.pointer(),
            plan.len,
            slice.pointer(),
            slice.len,
            list.pointer(),
            list.len,
            marking.pointer_mut(),
            marking.len,
            out.pointer_mut(),
            out.len,
            &mut index,
            &mut place,
            &mut amount,
            &mut count,
        )
    };
    let cells = vec![Cells::Longs(marking.cells), Cells::Halves(out.cells)];
    Answer::new(number, [index, place, amount, count], cells)
}

fn together(c: &TogetherCase) -> Answer {
    let (plan, marking, mut lent) = (&c.plan, &c.marking, c.rest.clone());
    let mut times = u64::from(UNSET);
    let (to, room) = (lent.pointer_mut(), lent.len);
    let (from, entries) = (marking.pointer(), marking.len);
    let number =
        unsafe { tuned::together(plan.pointer(), plan.len, c.transition, from, entries, to, room, &mut times) };
    Answer::new(number, [times], vec![Cells::Longs(lent.cells)])
}

fn range(c: &RangeCase) -> Answer {
    let (plan, list, upper, mut lent) = (&c.plan, &c.list, &c.upper, c.need.clone());
    let (to, room) = (lent.pointer_mut(), lent.len);
    let (from, firings) = (list.pointer(), list.len);
    let number = unsafe { tuned::range(plan.pointer(), plan.len, from, firings, upper.pointer(), upper.len, to, room) };
    Answer::new(number, [0; 0], vec![Cells::Longs(lent.cells)])
}

fn check(c: &CheckCase) -> Answer {
    let (plan, slice, q) = (&c.plan, &c.slice, &c.q);
    let number = unsafe { tuned::check(plan.pointer(), plan.len, slice.pointer(), slice.len, q.pointer(), q.len) };
    Answer::number(number)
}

fn verdict(c: &VerdictCase) -> Answer {
    let (plan, slice, q) = (&c.plan, &c.slice, &c.q);
    let mut breaking = UNSET;
    let number = unsafe {
        tuned::verdict(plan.pointer(), plan.len, slice.pointer(), slice.len, q.pointer(), q.len, &mut breaking)
    };
    Answer::new(number, [breaking], vec![])
}

fn call<C: Case>(
    name: &str,
    cases: u64,
    fixed: Vec<Fixed<C>>,
    random: impl Fn(&mut Rng) -> C,
    tuned: impl Fn(&C) -> Answer,
) -> bool {
    let mut differences = 0;
    let mut outcomes: BTreeMap<String, u64> = BTreeMap::new();
    let mut compare = |title: String, case: &C| {
        let (ours, due) = (tuned(case), case.second());
        *outcomes.entry(case.outcome(&due)).or_insert(0) += 1;
        if ours != due {
            differences += 1;
            if differences <= 3 {
                println!("DIFFERENCE in {name}, {title}\n{}", case.show());
                println!("  tuned:  {}\n  second: {}", ours.show(), due.show());
            }
        }
    };
    for one in &fixed {
        compare(format!("fixed case: {}", one.name), &one.case);
    }
    for number in 0..cases {
        let mut rng = Rng::for_case(SEED, name, number);
        compare(format!("seed {SEED} case {number}"), &random(&mut rng));
    }
    let seen: Vec<String> = outcomes.iter().map(|(outcome, count)| format!("{outcome}: {count}")).collect();
    println!("{name}: {} cases, {differences} differences ({})", fixed.len() as u64 + cases, seen.join(", "));
    differences == 0
}
