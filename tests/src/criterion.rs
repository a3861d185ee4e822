//! The criterion Q: a strictly rising list of places, which may be empty; refusal 10, and 9 of its bytes.

use crate::net::Refusal;

/// Checks Q against the P of the plan.
pub fn check(criterion: &[u16], places: usize) -> Result<(), Refusal> {
    if criterion.iter().any(|&p| usize::from(p) >= places) {
        return Err(10);
    }
    if criterion.windows(2).any(|w| w[0] >= w[1]) {
        return Err(10);
    }
    Ok(())
}

/// Q of the C check: two bytes a place, low byte first; an odd count gives 9.
pub fn from_bytes(bytes: &[u8]) -> Result<Vec<u16>, Refusal> {
    if bytes.len() % 2 == 1 {
        return Err(9);
    }
    Ok(bytes.chunks_exact(2).map(|b| u16::from_le_bytes([b[0], b[1]])).collect())
}
