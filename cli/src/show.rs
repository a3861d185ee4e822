//! show: a file in words.

use crate::answers;
use crate::call::{Call, Done};
use crate::diagnose::Asked;
use crate::net::Net;

/// A note that is longer is only counted.
const LONGEST_NOTE: usize = 4096;

/// show FILE: the counts, then each place and each transition, a line each; in JSON one object.
pub fn show(call: &mut Call) -> Done {
    let file = call.file(0)?;
    let net = Asked { files: &[&file], ..Asked::default() }.granted(Net::read(&file.bytes))?;
    let (places, transitions) = (net.trailer.places, net.trailer.transitions);
    let origins = net.origins();
    let places_told = (0..places).map(|p| {
        let origin = origins.get(p).copied();
        answers::place(p, origin, net.tokens(p).unwrap_or(0), net.cap(p))
    });
    let arcs = net.arcs();
    let mut rest = &arcs[..];
    let transitions_told = (0..transitions).map(|t| {
        let (own, after) = rest.split_at(rest.iter().take_while(|arc| usize::from(arc.transition) == t).count());
        rest = after;
        answers::transition(t, origins.get(places + t).copied(), own.to_vec())
    });
    call.tell(answers::net(&net, text(net.note()), places_told.collect(), transitions_told.collect()))
}

/// The note where it is a text that a terminal can show.
fn text(note: &[u8]) -> Option<&str> {
    let shown = |c: char| !c.is_control() || ('\t'..='\r').contains(&c);
    let text = std::str::from_utf8(note).ok()?;
    (!note.is_empty() && note.len() <= LONGEST_NOTE && text.chars().all(shown)).then_some(text)
}
