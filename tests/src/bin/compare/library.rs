//! The library's calls (include/nesfoal.rs) on lent memory.
//! Each works on copies of what it is to read, so that a change there is seen.

#![allow(unused_imports)]

use nesfoal_tests::cases::*;

/// What values handed back through pointers hold before the call.
#[allow(dead_code)]
const UNSET: u32 = 0xDEAD_BEEF;

#[path = "../../../../include/nesfoal.rs"]
mod nesfoal;
use nesfoal::*;

#[cfg(feature = "effect")]
pub fn effect(case: &EffectCase) -> Answer {
    let file = case.file.clone();
    let mut effect = UNSET as i32;
    let number = unsafe { nesfoal_effect(file.pointer(), file.len, case.place, case.transition, &mut effect) };
    Answer { inputs_kept: file == case.file, ..Answer::new(number, [effect], vec![]) }
}

#[cfg(feature = "arcs")]
pub fn arcs(case: &ArcsCase) -> Answer {
    let (plan, slice) = (case.plan.clone(), case.slice.clone());
    let mut start = UNSET;
    let number = unsafe {
        nesfoal_arcs(plan.pointer(), plan.len, slice.pointer(), slice.len, case.of_slice, case.transition, &mut start)
    };
    let inputs_kept = plan == case.plan && slice == case.slice;
    Answer { inputs_kept, ..Answer::new(number, [start], vec![]) }
}

#[cfg(feature = "replay")]
pub fn replay(case: &ReplayCase) -> Answer {
    let (file, list, mut marking) = (case.file.clone(), case.list.clone(), case.marking.clone());
    let (mut index, mut place, mut amount) = (UNSET, UNSET, UNSET);
    let number = unsafe {
        nesfoal_replay(
            file.pointer(),
            file.len,
            list.pointer(),
            list.len,
            marking.pointer_mut(),
            marking.len,
            &mut index,
            &mut place,
            &mut amount,
        )
    };
    let inputs_kept = file == case.file && list == case.list;
    Answer { inputs_kept, ..Answer::new(number, [index, place, amount], vec![Cells::Longs(marking.cells)]) }
}

#[cfg(feature = "safety")]
pub fn safety(case: &CutCase) -> Answer {
    cut(case, nesfoal_safety)
}

#[cfg(feature = "branching")]
pub fn branching(case: &CutCase) -> Answer {
    cut(case, nesfoal_branching)
}

#[cfg(any(feature = "safety", feature = "branching"))]
type CutCall =
    unsafe extern "C" fn(*const u8, usize, *const u16, usize, *mut u8, usize, *mut u32, *mut u32, *mut u32) -> u32;

#[cfg(any(feature = "safety", feature = "branching"))]
fn cut(case: &CutCase, call: CutCall) -> Answer {
    let (plan, q, mut slice) = (case.plan.clone(), case.q.clone(), case.slice.clone());
    let (mut length, mut places, mut transitions) = (UNSET, UNSET, UNSET);
    let number = unsafe {
        call(
            plan.pointer(),
            plan.len,
            q.pointer(),
            q.len,
            slice.pointer_mut(),
            slice.len,
            &mut length,
            &mut places,
            &mut transitions,
        )
    };
    let inputs_kept = plan == case.plan && q == case.q;
    Answer { inputs_kept, ..Answer::new(number, [length, places, transitions], vec![Cells::Bytes(slice.cells)]) }
}

#[cfg(feature = "run_cut")]
pub fn run_cut(case: &RunCutCase) -> Answer {
    let (plan, q, list) = (case.plan.clone(), case.q.clone(), case.list.clone());
    let (mut slice, mut positions) = (case.slice.clone(), case.positions.clone());
    let mut outs = [UNSET; 7];
    let [length, places, transitions, count, index, place, amount] = &mut outs;
    let number = unsafe {
        nesfoal_run_cut(
            plan.pointer(),
            plan.len,
            q.pointer(),
            q.len,
            list.pointer(),
            list.len,
            slice.pointer_mut(),
            slice.len,
            positions.pointer_mut(),
            positions.len,
            length,
            places,
            transitions,
            count,
            index,
            place,
            amount,
        )
    };
    let inputs_kept = plan == case.plan && q == case.q && list == case.list;
    Answer { inputs_kept, ..Answer::new(number, outs, vec![Cells::Bytes(slice.cells), Cells::Halves(positions.cells)]) }
}

#[cfg(feature = "shadow")]
pub fn shadow(case: &ShadowCase) -> Answer {
    let (plan, slice, list) = (case.plan.clone(), case.slice.clone(), case.list.clone());
    let (mut marking, mut out) = (case.marking.clone(), case.out.clone());
    let (mut index, mut place, mut amount, mut count) = (UNSET, UNSET, UNSET, UNSET);
    let number = unsafe {
        nesfoal_shadow(
            plan.pointer(),
            plan.len,
            slice.pointer(),
            slice.len,
            list.pointer(),
            list.len,
            marking.pointer_mut(),
            marking.len,
            out.pointer_mut(),
            out.len,
            &mut index,
            &mut place,
            &mut amount,
            &mut count,
        )
    };
    let inputs_kept = plan == case.plan && slice == case.slice && list == case.list;
    let cells = vec![Cells::Longs(marking.cells), Cells::Halves(out.cells)];
    Answer { inputs_kept, ..Answer::new(number, [index, place, amount, count], cells) }
}

#[cfg(feature = "together")]
pub fn together(case: &TogetherCase) -> Answer {
    let (plan, marking, mut rest) = (case.plan.clone(), case.marking.clone(), case.rest.clone());
    let mut times = u64::from(UNSET);
    let number = unsafe {
        nesfoal_together(
            plan.pointer(),
            plan.len,
            case.transition,
            marking.pointer(),
            marking.len,
            rest.pointer_mut(),
            rest.len,
            &mut times,
        )
    };
    let inputs_kept = plan == case.plan && marking == case.marking;
    Answer { inputs_kept, ..Answer::new(number, [times], vec![Cells::Longs(rest.cells)]) }
}

#[cfg(feature = "range")]
pub fn range(case: &RangeCase) -> Answer {
    let (plan, list, upper, mut need) = (case.plan.clone(), case.list.clone(), case.upper.clone(), case.need.clone());
    let number = unsafe {
        nesfoal_range(
            plan.pointer(),
            plan.len,
            list.pointer(),
            list.len,
            upper.pointer(),
            upper.len,
            need.pointer_mut(),
            need.len,
        )
    };
    let inputs_kept = plan == case.plan && list == case.list && upper == case.upper;
    Answer { inputs_kept, ..Answer::new(number, [0; 0], vec![Cells::Longs(need.cells)]) }
}

#[cfg(feature = "normal")]
pub fn normal(case: &NormalCase) -> Answer {
    let (plan, mut normal) = (case.plan.clone(), case.normal.clone());
    let mut length = UNSET;
    let number = unsafe { nesfoal_normal(plan.pointer(), plan.len, normal.pointer_mut(), normal.len, &mut length) };
    Answer { inputs_kept: plan == case.plan, ..Answer::new(number, [length], vec![Cells::Bytes(normal.cells)]) }
}

#[cfg(feature = "transfer")]
pub fn transfer(case: &TransferCase) -> Answer {
    let (old, new, running, table) = (case.old.clone(), case.new.clone(), case.running.clone(), case.table.clone());
    let mut marking = case.marking.clone();
    let number = unsafe {
        nesfoal_transfer(
            old.pointer(),
            old.len,
            new.pointer(),
            new.len,
            running.pointer(),
            running.len,
            table.pointer(),
            table.len,
            marking.pointer_mut(),
            marking.len,
        )
    };
    let inputs_kept = old == case.old && new == case.new && running == case.running && table == case.table;
    Answer { inputs_kept, ..Answer::new(number, [0; 0], vec![Cells::Longs(marking.cells)]) }
}

#[cfg(feature = "from")]
pub fn replay_from(case: &ReplayFromCase) -> Answer {
    let ReplayCase { file, list, mut marking } = case.plain.clone();
    let start = case.start.clone();
    let (mut index, mut place, mut amount) = (UNSET, UNSET, UNSET);
    let number = unsafe {
        nesfoal_replay_from(
            file.pointer(),
            file.len,
            start.pointer(),
            start.len,
            list.pointer(),
            list.len,
            marking.pointer_mut(),
            marking.len,
            &mut index,
            &mut place,
            &mut amount,
        )
    };
    let inputs_kept = file == case.plain.file && list == case.plain.list && start == case.start;
    Answer { inputs_kept, ..Answer::new(number, [index, place, amount], vec![Cells::Longs(marking.cells)]) }
}

/// Either cut.
#[cfg(feature = "from")]
pub fn cut_from(case: &CutFromCase) -> Answer {
    let CutCase { which, plan, q, mut slice } = case.plain.clone();
    let start = case.start.clone();
    let (mut length, mut places, mut transitions) = (UNSET, UNSET, UNSET);
    let call = match which {
        nesfoal_tests::cut::Cut::Safety => nesfoal_safety_from,
        nesfoal_tests::cut::Cut::Branching => nesfoal_branching_from,
    };
    let number = unsafe {
        call(
            plan.pointer(),
            plan.len,
            start.pointer(),
            start.len,
            q.pointer(),
            q.len,
            slice.pointer_mut(),
            slice.len,
            &mut length,
            &mut places,
            &mut transitions,
        )
    };
    let inputs_kept = plan == case.plain.plan && q == case.plain.q && start == case.start;
    Answer { inputs_kept, ..Answer::new(number, [length, places, transitions], vec![Cells::Bytes(slice.cells)]) }
}

#[cfg(feature = "from")]
pub fn verdict_from(case: &VerdictFromCase) -> Answer {
    let VerdictCase { plan, slice, q } = case.plain.clone();
    let start = case.start.clone();
    let mut breaking = UNSET;
    let number = unsafe {
        nesfoal_verdict_from(
            plan.pointer(),
            plan.len,
            slice.pointer(),
            slice.len,
            start.pointer(),
            start.len,
            q.pointer(),
            q.len,
            &mut breaking,
        )
    };
    let inputs_kept = plan == case.plain.plan && slice == case.plain.slice && q == case.plain.q && start == case.start;
    Answer { inputs_kept, ..Answer::new(number, [breaking], vec![]) }
}

#[cfg(feature = "pnml")]
pub fn pnml(case: &PnmlCase) -> Answer {
    let (text, mut plan) = (case.text.clone(), case.plan.clone());
    let mut length = UNSET;
    let number = unsafe { nesfoal_from_pnml(text.pointer(), text.len, plan.pointer_mut(), plan.len, &mut length) };
    Answer { inputs_kept: text == case.text, ..Answer::new(number, [length], vec![Cells::Bytes(plan.cells)]) }
}

#[cfg(feature = "check")]
pub fn check(case: &CheckCase) -> Answer {
    let (plan, slice, q) = (case.plan.clone(), case.slice.clone(), case.q.clone());
    let number = unsafe { nesfoal_check(plan.pointer(), plan.len, slice.pointer(), slice.len, q.pointer(), q.len) };
    let inputs_kept = plan == case.plan && slice == case.slice && q == case.q;
    Answer { inputs_kept, ..Answer::number(number) }
}

#[cfg(feature = "check")]
pub fn verdict(case: &VerdictCase) -> Answer {
    let (plan, slice, q) = (case.plan.clone(), case.slice.clone(), case.q.clone());
    let mut breaking = UNSET;
    let number = unsafe {
        nesfoal_verdict(plan.pointer(), plan.len, slice.pointer(), slice.len, q.pointer(), q.len, &mut breaking)
    };
    let inputs_kept = plan == case.plan && slice == case.slice && q == case.q;
    Answer { inputs_kept, ..Answer::new(number, [breaking], vec![]) }
}
