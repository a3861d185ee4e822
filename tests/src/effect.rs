//! The effect of a transition on a place: out minus in.

use crate::net::{Direction, Net, Refusal};
use crate::read::read;

/// The effect in a file of either kind; 10 for an unknown place, then 12 for an unknown transition.
pub fn effect(file: &[u8], place: u32, transition: u32) -> Result<i32, Refusal> {
    let net = read(file, None)?;
    if place as usize >= net.places() {
        return Err(10);
    }
    if transition as usize >= net.transitions() {
        return Err(12);
    }
    Ok(weight(&net, Direction::Out, place, transition) - weight(&net, Direction::In, place, transition))
}

/// The sum of the weights of the arcs between the two in a direction.
fn weight(net: &Net, direction: Direction, place: u32, transition: u32) -> i32 {
    let arcs = net.arcs_of(transition as usize);
    arcs.iter().filter(|a| a.direction == direction && u32::from(a.place) == place).map(|a| i32::from(a.weight)).sum()
}
