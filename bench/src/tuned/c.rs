//! The tuned calls with the C interface of include/nesfoal.h, so that both sides are called alike.

use std::slice::{from_raw_parts, from_raw_parts_mut};

/// A pointer whose count is 0 may be null.
#[inline(always)]
unsafe fn lent<'a, T>(at: *const T, count: usize) -> &'a [T] {
    if count == 0 {
        &[]
    } else {
        from_raw_parts(at, count)
    }
}

#[inline(always)]
unsafe fn lent_out<'a, T>(at: *mut T, count: usize) -> &'a mut [T] {
    if count == 0 {
        &mut []
    } else {
        from_raw_parts_mut(at, count)
    }
}

pub unsafe extern "C" fn effect(file: *const u8, n: usize, place: u32, transition: u32, effect: *mut i32) -> u32 {
    super::effect::effect(lent(file, n), place, transition, &mut *effect)
}

pub unsafe extern "C" fn arcs(
    plan: *const u8,
    plan_len: usize,
    slice: *const u8,
    slice_len: usize,
    of_slice: bool,
    transition: u32,
    start: *mut u32,
) -> u32 {
    super::arcs::arcs(lent(plan, plan_len), lent(slice, slice_len), of_slice, transition, &mut *start)
}

pub unsafe extern "C" fn replay(
    file: *const u8,
    file_len: usize,
    list: *const u16,
    list_len: usize,
    marking: *mut u64,
    marking_len: usize,
    index: *mut u32,
    place: *mut u32,
    amount: *mut u32,
) -> u32 {
    let (file, list) = (lent(file, file_len), lent(list, list_len));
    let stuck = [&mut *index, &mut *place, &mut *amount];
    super::replay::replay(file, list, lent_out(marking, marking_len), stuck)
}

pub unsafe extern "C" fn safety(
    plan: *const u8,
    plan_len: usize,
    q: *const u16,
    q_len: usize,
    slice: *mut u8,
    slice_len: usize,
    length: *mut u32,
    places: *mut u32,
    transitions: *mut u32,
) -> u32 {
    let (plan, q, slice) = (lent(plan, plan_len), lent(q, q_len), lent_out(slice, slice_len));
    super::cut::cut::<true>(plan, q, slice, [&mut *length, &mut *places, &mut *transitions])
}

pub unsafe extern "C" fn branching(
    plan: *const u8,
    plan_len: usize,
    q: *const u16,
    q_len: usize,
    slice: *mut u8,
    slice_len: usize,
    length: *mut u32,
    places: *mut u32,
    transitions: *mut u32,
) -> u32 {
    let (plan, q, slice) = (lent(plan, plan_len), lent(q, q_len), lent_out(slice, slice_len));
    super::cut::cut::<false>(plan, q, slice, [&mut *length, &mut *places, &mut *transitions])
}

pub unsafe extern "C" fn run_cut(
    plan: *const u8,
    plan_len: usize,
    q: *const u16,
    q_len: usize,
    list: *const u16,
    list_len: usize,
    slice: *mut u8,
    slice_len: usize,
    positions: *mut u16,
    positions_len: usize,
    length: *mut u32,
    places: *mut u32,
    transitions: *mut u32,
    count: *mut u32,
    index: *mut u32,
    place: *mut u32,
    amount: *mut u32,
) -> u32 {
    let (plan, q, list) = (lent(plan, plan_len), lent(q, q_len), lent(list, list_len));
    let (slice, positions) = (lent_out(slice, slice_len), lent_out(positions, positions_len));
    let written = [&mut *length, &mut *places, &mut *transitions, &mut *count];
    super::run_cut::run_cut(plan, q, list, slice, positions, written, [&mut *index, &mut *place, &mut *amount])
}

pub unsafe extern "C" fn shadow(
    plan: *const u8,
    plan_len: usize,
    slice: *const u8,
    slice_len: usize,
    list: *const u16,
    list_len: usize,
    marking: *mut u64,
    marking_len: usize,
    out: *mut u16,
    out_len: usize,
    index: *mut u32,
    place: *mut u32,
    amount: *mut u32,
    count: *mut u32,
) -> u32 {
    let (plan, slice, list) = (lent(plan, plan_len), lent(slice, slice_len), lent(list, list_len));
    let (marking, out) = (lent_out(marking, marking_len), lent_out(out, out_len));
    super::shadow::shadow(plan, slice, list, marking, out, [&mut *index, &mut *place, &mut *amount, &mut *count])
}

pub unsafe extern "C" fn together(
    plan: *const u8,
    plan_len: usize,
    transition: u32,
    marking: *const u64,
    marking_len: usize,
    rest: *mut u64,
    rest_len: usize,
    times: *mut u64,
) -> u32 {
    let (plan, marking, rest) = (lent(plan, plan_len), lent(marking, marking_len), lent_out(rest, rest_len));
    super::together::together(plan, transition, marking, rest, &mut *times)
}

pub unsafe extern "C" fn range(
    plan: *const u8,
    plan_len: usize,
    list: *const u16,
    list_len: usize,
    upper: *const u32,
    upper_len: usize,
    need: *mut u64,
    need_len: usize,
) -> u32 {
    let (plan, list, upper) = (lent(plan, plan_len), lent(list, list_len), lent(upper, upper_len));
    super::range::range(plan, list, upper, lent_out(need, need_len))
}

pub unsafe extern "C" fn check(
    plan: *const u8,
    plan_len: usize,
    slice: *const u8,
    slice_len: usize,
    q_bytes: *const u8,
    q_len: usize,
) -> u32 {
    super::check::check(lent(plan, plan_len), lent(slice, slice_len), lent(q_bytes, q_len))
}

pub unsafe extern "C" fn verdict(
    plan: *const u8,
    plan_len: usize,
    slice: *const u8,
    slice_len: usize,
    q: *const u16,
    q_len: usize,
    number: *mut u32,
) -> u32 {
    super::check::verdict(lent(plan, plan_len), lent(slice, slice_len), lent(q, q_len), &mut *number)
}
