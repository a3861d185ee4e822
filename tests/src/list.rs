//! A list of transitions; refusals 11 and 12.

use crate::net::{Refusal, MAX_LIST};

/// Checks a list against the T of the plan or replayed file.
pub fn check(list: &[u16], transitions: usize) -> Result<(), Refusal> {
    if list.len() > MAX_LIST {
        return Err(11);
    }
    if list.iter().any(|&t| usize::from(t) >= transitions) {
        return Err(12);
    }
    Ok(())
}
