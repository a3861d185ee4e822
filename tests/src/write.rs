//! The slice writer: kept sets of a plan as a slice file without a note.

use crate::cut::Kept;
use crate::net::{Direction, Net};

/// Kept places and transitions renumbered in rising order, their markings, in edition 2 their caps, every plan arc between
/// them, and the origins; in the plan's edition.
pub fn slice_bytes(plan: &Net, kept: &Kept) -> Vec<u8> {
    let (place_number, place_origins) = renumber(&kept.places);
    let (transition_number, transition_origins) = renumber(&kept.transitions);
    let mut body = Vec::new();
    for &p in &place_origins {
        body.extend(plan.marking[usize::from(p)].to_le_bytes());
        if plan.edition == 2 {
            body.extend(plan.caps[usize::from(p)].to_le_bytes());
        }
    }
    let mut arcs = 0u16;
    for arc in &plan.arcs {
        let place = place_number[usize::from(arc.place)];
        let transition = transition_number[usize::from(arc.transition)];
        if let (Some(place), Some(transition)) = (place, transition) {
            body.extend(transition.to_le_bytes());
            body.push(if arc.direction == Direction::In { 0 } else { 1 });
            body.push(0);
            body.extend(place.to_le_bytes());
            body.extend(arc.weight.to_le_bytes());
            arcs += 1;
        }
    }
    for origin in place_origins.iter().chain(&transition_origins) {
        body.extend(origin.to_le_bytes());
    }
    let mut file = body;
    let length = file.len() as u32;
    file.extend(length.to_le_bytes());
    file.extend((place_origins.len() as u16).to_le_bytes());
    file.extend((transition_origins.len() as u16).to_le_bytes());
    file.extend(arcs.to_le_bytes());
    file.push(1);
    file.push(plan.edition);
    file.extend(b"BELL");
    file
}

/// New numbers by old ones, and old numbers by new ones.
pub fn renumber(kept: &[bool]) -> (Vec<Option<u16>>, Vec<u16>) {
    let mut number = vec![None; kept.len()];
    let mut origins = Vec::new();
    for old in 0..kept.len() {
        if kept[old] {
            number[old] = Some(origins.len() as u16);
            origins.push(old as u16);
        }
    }
    (number, origins)
}
