//! A marking to start from in place of the file's own; refusals 22 and 24 of such a list.

use crate::net::{Net, Refusal};

/// The net with these tokens on its places, where it can have them.
pub fn from(net: Net, start: &[u64]) -> Result<Net, Refusal> {
    if start.len() != net.places() {
        return Err(22);
    }
    let mut marking = Vec::new();
    for (p, &tokens) in start.iter().enumerate() {
        if tokens > most(&net, p) {
            return Err(24);
        }
        marking.push(tokens as u32);
    }
    Ok(Net { marking, ..net })
}

/// The most tokens that a place can have: 4,294,967,295, or its cap.
pub fn most(net: &Net, place: usize) -> u64 {
    net.cap(place).unwrap_or(4_294_967_295)
}
