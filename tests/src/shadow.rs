//! A run and its shadow: the plan is replayed, and what fired is carried over to a slice.

use crate::list;
use crate::net::{Kind, Refusal};
use crate::read::read;
use crate::replay::{fire_list, Replayed};

/// Replays a list in the plan. The marking reached goes to the first P entries of `marking`, the projection of the fired part
/// to the start of `out`; answers the replay and the count of the projection.
pub fn shadow(
    plan: &[u8],
    slice: &[u8],
    numbers: &[u16],
    marking: &mut [u64],
    out: &mut [u16],
) -> Result<(Replayed, usize), Refusal> {
    let plan = read(plan, Some(Kind::Plan))?;
    let slice = read(slice, Some(Kind::Slice))?;
    list::check(numbers, plan.transitions())?;
    if marking.len() < plan.places() {
        return Err(13);
    }
    let (answer, reached) = fire_list(&plan, numbers);
    let fired = match answer {
        Replayed::Fired => numbers,
        Replayed::Stuck { index, .. } => &numbers[..index],
    };
    let projected = strike_out(&slice.transition_origins, fired);
    if out.len() < projected.len() {
        return Err(13);
    }
    marking[..reached.len()].copy_from_slice(&reached);
    out[..projected.len()].copy_from_slice(&projected);
    Ok((answer, projected.len()))
}

/// Projection: the slice's number for each listed transition among the origins, in order; the others are dropped.
pub fn strike_out(origins: &[u16], numbers: &[u16]) -> Vec<u16> {
    let size = origins.last().map_or(0, |&o| usize::from(o) + 1);
    let mut number_of = vec![None; size];
    for (number, &origin) in origins.iter().enumerate() {
        number_of[usize::from(origin)] = Some(number as u16);
    }
    numbers.iter().filter_map(|&t| number_of.get(usize::from(t)).copied().flatten()).collect()
}
