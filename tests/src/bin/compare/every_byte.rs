//! nesfoal_from_pnml on one text that has every form of the profile, with each byte of it changed to each other, with each byte put in
//! at each place, and with each byte dropped: the two parsers have to agree on all of them.

use crate::frame::{on_threads, print_histogram, Found, Settings};
use crate::library;
use nesfoal_tests::cases::*;
use nesfoal_tests::fixed::every_form;
use std::time::Instant;

const NAME: &str = "every_byte";
/// The changes at one place: 256 bytes in its place, 256 put in before it, and the byte dropped.
const WAYS: u64 = 513;

pub fn compare(settings: &Settings) -> bool {
    let start = Instant::now();
    let found = Found::default();
    let text = every_form();
    let cases = text.len() as u64 * WAYS;
    println!("compare {NAME}: {cases} changes of a text of {} bytes", text.len());
    let histogram = on_threads(cases, |number, histogram| {
        let changed = changed(&text, (number / WAYS) as usize, number % WAYS);
        let lent = |text: Vec<u8>| PnmlCase { text: Lent::plain(text), plan: Lent::plain(vec![0xA5; 200]) };
        // The error to expect: a vertical tab is white space.
        let taken = |b: &u8| if settings.broken && *b == 11 { 32 } else { *b };
        let second = lent(changed.iter().map(taken).collect()).second();
        let case = lent(changed);
        let theirs = library::pnml(&case);
        *histogram.entry(theirs.number.to_string()).or_insert(0) += 1;
        if theirs != second {
            let text = || format!("{}  library: {}\n  second:  {}\n", case.show(), theirs.show(), second.show());
            found.difference(NAME, &format!("change {number}"), text);
        }
    });
    print_histogram(NAME, &histogram);
    let seconds = start.elapsed().as_secs_f64();
    println!("compare {NAME}: {cases} cases, {} differences ({seconds:.1} s)", found.count());
    found.count() == 0
}

fn changed(text: &[u8], at: usize, way: u64) -> Vec<u8> {
    let mut text = text.to_vec();
    match way {
        0..=255 => text[at] = way as u8,
        256..=511 => text.insert(at, (way - 256) as u8),
        _ => {
            text.remove(at);
        }
    }
    text
}
