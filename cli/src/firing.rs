//! effect, arcs, replay, together, need, shadow: questions about transitions and lists of them.

use crate::answers::{self, Answer, Around, Scarce, Stopped};
use crate::call::{Call, Done};
use crate::diagnose::{no_such, Asked};
use crate::library::{self, Extent, Firing, Side, Stop};
use crate::net::{arcs_of, places, transitions, Nodes};
use crate::numbers::{LIST, MARKING, UPPER};

/// effect FILE PLACE TRANSITION
pub fn effect(call: &mut Call) -> Done {
    let (place, transition) = (call.place(1)?, call.transition(2)?);
    let file = call.file(0)?;
    let asked = Asked { files: &[&file], place: Some(place), transition: Some(transition), ..Asked::default() };
    let effect = asked.granted(library::effect(&file.bytes, place, transition))?;
    let nodes = Nodes::of(&file.bytes);
    call.tell(answers::effect(effect, nodes.place(place), nodes.transition(transition)))
}

/// arcs PLAN TRANSITION, arcs PLAN SLICE plan|slice TRANSITION
pub fn arcs(call: &mut Call) -> Done {
    match call.words.len() {
        2 => arcs_of_plan(call),
        4 => arcs_of_two(call),
        _ => Err(call.misused()),
    }
}

/// With the slice of no place beside the plan, since the call reads two files.
fn arcs_of_plan(call: &mut Call) -> Done {
    let transition = call.transition(1)?;
    let plan = call.file(0)?;
    let asked = Asked { files: &[&plan], ..Asked::default() };
    let none = asked.granted(library::safety(&plan.bytes, None, &[]))?;
    let run = library::arcs(&plan.bytes, &none.bytes, Side::Plan, transition);
    let count = transitions(&plan.bytes);
    if run.is_empty() && transition as usize >= count {
        return Err(no_such("plan", "transition", transition, count as u64));
    }
    call.tell(answers::arcs(arcs_of(run), transition, Side::Plan))
}

fn arcs_of_two(call: &mut Call) -> Done {
    let side = match call.words[2].to_str() {
        Some("plan") => Side::Plan,
        Some("slice") => Side::Slice,
        _ => return Err(call.misused()),
    };
    let transition = call.transition(3)?;
    let (plan, slice) = (call.file(0)?, call.file(1)?);
    let run = library::arcs(&plan.bytes, &slice.bytes, side, transition);
    if run.is_empty() {
        // a file that is refused, a number that is unknown, or a transition without arcs
        let asked = Asked { files: &[&plan, &slice], ..Asked::default() };
        asked.granted(library::verdict(&plan.bytes, &slice.bytes, None, &[]))?;
        let count = transitions(if side == Side::Plan { &plan.bytes } else { &slice.bytes });
        if transition as usize >= count {
            return Err(no_such(answers::side_named(side), "transition", transition, count as u64));
        }
    }
    call.tell(answers::arcs(arcs_of(run), transition, side))
}

/// What came of a list in a file; where it stops, with what stands around.
fn fired(firing: Firing, file: &[u8], list: &[u16], marking: &[u64]) -> Answer {
    let nodes = Nodes::of(file);
    match firing {
        Firing::Fired => answers::fired(list.len(), marking),
        Firing::Stuck(stop) => {
            answers::stuck(stopped(&nodes, list, stop)).with_around(around(file, &nodes, list, marking, stop, false))
        }
        Firing::Full(stop) => {
            answers::full(stopped(&nodes, list, stop)).with_around(around(file, &nodes, list, marking, stop, true))
        }
    }
}

/// The firing of a list that does not happen.
pub fn stopped(nodes: &Nodes, list: &[u16], stop: Stop) -> Stopped {
    let transition = nodes.transition(list[stop.index as usize].into());
    Stopped { transition, place: nodes.place(stop.place), stop }
}

/// What stands around a stop, by replays of one firing from the marking there. Such a replay starts from at most 4,294,967,295 tokens
/// on a place; no transition takes so many, so that more of them count as so many.
fn around(file: &[u8], nodes: &Nodes, list: &[u16], marking: &[u64], stop: Stop, full: bool) -> Around {
    let there: Vec<u64> = marking.iter().map(|&tokens| tokens.min(u32::MAX.into())).collect();
    let fires = |start: &[u64], t: u16| library::replay(file, Some(start), &[t], 0).map(|(firing, _)| firing);

    // the lowest place that is short gets what it lacks, or the lowest that is over loses the excess; then the next one is the lowest
    let (mut also, mut up_to) = (Vec::new(), None);
    let (mut start, mut last) = (there.clone(), stop);
    loop {
        let (tokens, amount) = (start[last.place as usize], u64::from(last.amount));
        start[last.place as usize] = if full { tokens.saturating_sub(amount) } else { tokens + amount };
        match (fires(&start, list[stop.index as usize]), full) {
            (Ok(Firing::Stuck(next)), false) | (Ok(Firing::Full(next)), true) if next.place > last.place => {
                also.push((nodes.place(next.place), next.amount));
                last = next;
            }
            (Ok(Firing::Fired), _) | (Ok(Firing::Full(_)), false) => break,
            _ => {
                // the place cannot be given so much, or lose so much: it stays the lowest
                up_to = Some(last.place).filter(|&place| place as usize + 1 < start.len());
                break;
            }
        }
    }
    let transitions = 0..transitions(file) as u16;
    let can_fire = transitions.filter(|&t| fires(&there, t) == Ok(Firing::Fired)).collect();
    Around { also, up_to, marking: marking.to_vec(), can_fire, is_slice: nodes.is_slice() }
}

/// replay FILE LIST [from MARKING..]
pub fn replay(call: &mut Call) -> Done {
    let (list, start) = call.list_and_start(1..call.words.len())?;
    let (file, start) = (call.file(0)?, start.as_deref());
    let asked = Asked { files: &[&file], start, list: &list, ..Asked::default() };
    let (firing, marking) = asked.granted(library::replay(&file.bytes, start, &list, places(&file.bytes)))?;
    call.tell(fired(firing, &file.bytes, &list, &marking))
}

/// shadow PLAN SLICE LIST
pub fn shadow(call: &mut Call) -> Done {
    let list = call.list_from(2, &LIST)?;
    let (plan, slice) = (call.file(0)?, call.file(1)?);
    let asked = Asked { files: &[&plan, &slice], list: &list, ..Asked::default() };
    let shadowed = asked.granted(library::shadow(&plan.bytes, &slice.bytes, &list, places(&plan.bytes)))?;
    call.tell(fired(shadowed.firing, &plan.bytes, &list, &shadowed.marking).with_shadow(&shadowed.shadow))
}

/// The plan's own marking, which is the one after no firing; empty where the plan is refused.
fn own_marking(plan: &[u8]) -> Vec<u64> {
    library::replay(plan, None, &[], places(plan)).map_or(Vec::new(), |(_, marking)| marking)
}

/// together PLAN TRANSITION [MARKING..]: without a marking from the plan's own.
pub fn together(call: &mut Call) -> Done {
    let transition = call.transition(1)?;
    let given = if call.words.len() > 2 { Some(call.list_from(2, &MARKING)?) } else { None };
    let plan = call.file(0)?;
    let marking = given.unwrap_or_else(|| own_marking(&plan.bytes));
    let asked = Asked { files: &[&plan], transition: Some(transition), marking: marking.len(), ..Asked::default() };
    let (times, leaving) = asked.granted(library::together(&plan.bytes, transition, &marking))?;
    call.tell(match times {
        Some(times) => answers::taken(times, &leaving),
        None => answers::unlimited(&leaving),
    })
}

/// need PLAN LIST [upto UPPER..]: without an upper list the range is the plan's own marking alone.
pub fn need(call: &mut Call) -> Done {
    let upto = call.find(1, "upto");
    let list = call.list(1..upto.unwrap_or(call.words.len()), &LIST)?;
    let given = upto.map(|upto| call.list_from(upto + 1, &UPPER)).transpose()?;
    let plan = call.file(0)?;
    let own = own_marking(&plan.bytes);
    let own: Vec<u32> = own.iter().map(|&tokens| u32::try_from(tokens).unwrap_or(u32::MAX)).collect();
    let upper = given.unwrap_or_else(|| own.clone());
    let asked = Asked { files: &[&plan], list: &list, upper: Some(&upper), ..Asked::default() };
    let (extent, need) = asked.granted(library::range(&plan.bytes, &list, &upper))?;
    // the lowest place whose tokens may not do, or cannot
    let held = if extent == Extent::None { &upper } else { &own };
    let scarce = (0..need.len()).find(|&p| need[p] > held[p].into());
    let scarce = scarce.map(|place| Scarce { place, least: own[place], most: upper[place], needs: need[place] });
    call.tell(answers::range(extent, scarce, &need))
}
