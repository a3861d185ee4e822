//! The checker's guarantee from a lent marking, tried: for slices that the library accepts from a start which is not the plan's own
//! marking, lists are fired from there, in the plan and in the slice, which has the start's tokens.
//!
//! The shadow of what fires in the plan fires in the slice, with the same tokens on Q and no fewer on a kept place; a list that fires in
//! the slice fires in the plan, with the same tokens on every kept place; our safety cut from there is accepted from there, and every
//! accepted slice has all that it has; our branching cut from there ends with the plan's tokens on all its places.

use crate::both::replay;
use crate::frame::{on_threads, print_histogram, Found, Settings};
use crate::guarantee::contains;
use crate::library;
use nesfoal_tests::cases::*;
use nesfoal_tests::cut::Cut;
use nesfoal_tests::gen::{started_guarantee_case, GuaranteeCase};
use nesfoal_tests::net::{Kind, Net, MAX_FILE};
use nesfoal_tests::read::read;
use nesfoal_tests::rng::Rng;
use nesfoal_tests::shadow::strike_out;
use std::time::Instant;

const NAME: &str = "started";

pub fn compare(settings: &Settings) -> bool {
    let start = Instant::now();
    let found = Found::default();
    println!("compare {NAME}: {} random cases", settings.cases);
    let histogram = on_threads(settings.cases, |number, histogram| {
        let mut rng = Rng::for_case(settings.seed, NAME, number);
        let (case, start) = started_guarantee_case(&mut rng);
        match held(&case, &start, settings.broken) {
            Ok(seen) => *histogram.entry(seen).or_insert(0) += 1,
            Err(fault) => {
                let at = format!("seed {} case {number}", settings.seed);
                found.difference(NAME, &at, || show(&case, &start) + &fault);
            }
        }
    });
    print_histogram(NAME, &histogram);
    let seconds = start.elapsed().as_secs_f64();
    println!("compare {NAME}: {} cases, {} differences ({seconds:.1} s)", settings.cases, found.count());
    found.count() == 0
}

fn verdict(case: &GuaranteeCase, slice: &[u8], start: &[u64]) -> u32 {
    let (plan, slice) = (Lent::plain(case.plan.clone()), Lent::plain(slice.to_vec()));
    let plain = VerdictCase { plan, slice, q: Lent::plain(case.q.clone()) };
    library::verdict_from(&VerdictFromCase { start: Lent::plain(start.to_vec()), plain }).number
}

/// One of our cuts from the start.
fn our_cut(case: &GuaranteeCase, start: &[u64], which: Cut) -> Result<Vec<u8>, String> {
    let (plan, q) = (Lent::plain(case.plan.clone()), Lent::plain(case.q.clone()));
    let plain = CutCase { which, plan, q, slice: Lent::plain(vec![0; MAX_FILE]) };
    let answer = library::cut_from(&CutFromCase { start: Lent::plain(start.to_vec()), plain });
    match (answer.number, &answer.cells[..]) {
        (0, [Cells::Bytes(bytes)]) => Ok(bytes[..answer.outs[0] as usize].to_vec()),
        (n, _) => Err(format!("our cut is refused with {n}")),
    }
}

/// A list of the plan fired from the start as far as it goes: how many fire, and the marking reached.
fn fired(case: &GuaranteeCase, start: &[u64], list: &[u16]) -> Result<(usize, Vec<u64>), String> {
    let (file, marking) = (Lent::plain(case.plan.clone()), Lent::plain(vec![0; start.len()]));
    let plain = ReplayCase { file, list: Lent::plain(list.to_vec()), marking };
    let case = ReplayFromCase { start: Lent::plain(start.to_vec()), plain };
    let answer = library::replay_from(&case);
    if answer != case.second() {
        return Err(format!("replays differ: library {}", answer.show()));
    }
    let count = if answer.number == 0 { list.len() } else { answer.outs[0] as usize };
    match &answer.cells[..] {
        [Cells::Longs(marking)] => Ok((count, marking.clone())),
        _ => Err("a marking is due".into()),
    }
}

fn slice_net(file: &[u8]) -> Result<Net, String> {
    read(file, Some(Kind::Slice)).map_err(|n| format!("the slice is refused with {n}"))
}

/// The plan's list from the start, and its shadow in a slice: for each place of the slice its origin and the tokens in both.
fn shadow(case: &GuaranteeCase, start: &[u64], file: &[u8]) -> Result<Vec<(u16, u64, u64)>, String> {
    let slice = slice_net(file)?;
    let (count, in_plan) = fired(case, start, &case.plan_list)?;
    let shadow = strike_out(&slice.transition_origins, &case.plan_list[..count]);
    let in_slice = replay(&slice, file, &shadow)?.ok_or("the shadow does not fire in the slice")?;
    let there = slice.place_origins.iter().map(|&origin| (origin, in_plan[usize::from(origin)]));
    Ok(there.zip(in_slice).map(|((origin, there), here)| (origin, there, here)).collect())
}

/// What is seen of a case, or where the guarantee fails.
fn held(case: &GuaranteeCase, start: &[u64], broken: bool) -> Result<String, String> {
    let number = verdict(case, &case.slice, start);
    if number != 0 {
        return Ok(number.to_string());
    }
    let plan = read(&case.plan, Some(Kind::Plan)).expect("the generator's plan");
    let slice = slice_net(&case.slice)?;
    let own: Vec<u64> = plan.marking.iter().map(|&m| u64::from(m)).collect();
    // The error to expect: firing from the plan's own marking.
    let begin = if broken { &own } else { start };
    for (origin, there, here) in shadow(case, begin, &case.slice)? {
        if here < there || case.q.contains(&origin) && here != there {
            return Err(format!("plan's list: {there} tokens on place {origin}, {here} in the slice"));
        }
    }
    let in_slice = replay(&slice, &case.slice, &case.slice_list)?.ok_or("the slice's list does not fire")?;
    let lifted: Vec<u16> = case.slice_list.iter().map(|&t| slice.transition_origins[usize::from(t)]).collect();
    let (count, in_plan) = fired(case, begin, &lifted)?;
    if count != lifted.len() {
        return Err("the slice's list does not fire in the plan".into());
    }
    for (&origin, here) in slice.place_origins.iter().zip(in_slice) {
        let there = in_plan[usize::from(origin)];
        if here != there {
            return Err(format!("slice's list: {there} tokens on place {origin}, {here} in the slice"));
        }
    }
    let (safety, branching) = (our_cut(case, start, Cut::Safety)?, our_cut(case, start, Cut::Branching)?);
    if verdict(case, &safety, start) != 0 || verdict(case, &branching, start) != 0 {
        return Err("our cut is not accepted".into());
    }
    contains(&slice, &slice_net(&safety)?).ok_or("our safety cut has something that the accepted slice has not")?;
    if let Some((origin, there, here)) = shadow(case, start, &branching)?.into_iter().find(|(_, a, b)| a != b) {
        return Err(format!("{there} tokens on place {origin}, {here} in our branching cut"));
    }
    Ok(if own == start { "accepted, from its own" } else { "accepted, from another" }.into())
}

fn show(case: &GuaranteeCase, start: &[u64]) -> String {
    let (plan, slice) = (hex(&case.plan), hex(&case.slice));
    let (q, plan_list, slice_list) = (&case.q, &case.plan_list, &case.slice_list);
    format!("  plan: {plan}\n  slice: {slice}\n  from {start:?}\n  criterion {q:?}\n  lists {plan_list:?} {slice_list:?}\n  ")
}
