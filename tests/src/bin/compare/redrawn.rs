//! What a normal form promises, tried on plans that are drawn twice: the library's bytes are equal exactly where P, T, markings, caps,
//! in and out are; the normal form of a normal form is itself; and every list fares alike in a plan and in its normal form.

use crate::both::replay;
use crate::frame::{on_threads, print_histogram, Found, Settings};
use crate::library;
use nesfoal_tests::cases::*;
use nesfoal_tests::gen::{drawn_twice, list_for};
use nesfoal_tests::net::{Kind, MAX_FILE};
use nesfoal_tests::normal::same_net;
use nesfoal_tests::read::read;
use nesfoal_tests::rng::Rng;
use std::time::Instant;

const NAME: &str = "redrawn";

pub fn compare(settings: &Settings) -> bool {
    let start = Instant::now();
    let found = Found::default();
    println!("compare {NAME}: {} random cases", settings.cases);
    let histogram = on_threads(settings.cases, |number, histogram| {
        let mut rng = Rng::for_case(settings.seed, NAME, number);
        let (first, second) = drawn_twice(&mut rng);
        let files = [first.bytes(), second.bytes()];
        let list = list_for(&mut rng, &read(&files[0], Some(Kind::Plan)).expect("the generator's plan"));
        match redrawn(&files, &list, settings.broken) {
            Ok(seen) => *histogram.entry(seen.into()).or_insert(0) += 1,
            Err(fault) => {
                let at = format!("seed {} case {number}", settings.seed);
                let [one, two] = &files;
                found.difference(NAME, &at, || {
                    format!("  one: {}\n  two: {}\n  {list:?}\n  {fault}", hex(one), hex(two))
                });
            }
        }
    });
    print_histogram(NAME, &histogram);
    let seconds = start.elapsed().as_secs_f64();
    println!("compare {NAME}: {} cases, {} differences ({seconds:.1} s)", settings.cases, found.count());
    found.count() == 0
}

/// The library's normal form; None where arcs are together too heavy.
fn normal(file: &[u8]) -> Result<Option<Vec<u8>>, String> {
    let answer =
        library::normal(&NormalCase { plan: Lent::plain(file.to_vec()), normal: Lent::plain(vec![0; MAX_FILE]) });
    match (answer.number, &answer.cells[..]) {
        (0, [Cells::Bytes(bytes)]) => Ok(Some(bytes[..answer.outs[0] as usize].to_vec())),
        (25, _) => Ok(None),
        (n, _) => Err(format!("a good plan is refused with {n}")),
    }
}

/// What is seen of two drawings, or where the promise fails.
fn redrawn(files: &[Vec<u8>; 2], list: &[u16], broken: bool) -> Result<&'static str, String> {
    let [one, two] =
        [read(&files[0], Some(Kind::Plan)), read(&files[1], Some(Kind::Plan))].map(|net| net.expect("a plan"));
    let (Some(first), Some(second)) = (normal(&files[0])?, normal(&files[1])?) else { return Ok("too heavy") };
    // The error to expect: telling plans apart by their files.
    let same = if broken { files[0] == files[1] } else { same_net(&one, &two) };
    if same != (first == second) {
        return Err(format!("same net: {same}, equal bytes: {}", first == second));
    }
    if normal(&first)? != Some(first.clone()) {
        return Err("the normal form of the normal form is another".into());
    }
    let net = read(&first, Some(Kind::Plan)).map_err(|n| format!("the normal form is refused with {n}"))?;
    if (net.edition, net.arcs_at) != (2, 8 * net.places()) {
        return Err("it has a note, or is of edition 1".into());
    }
    if replay(&one, &files[0], list)? != replay(&net, &first, list)? {
        return Err("the list fares otherwise".into());
    }
    Ok(match (same, files[0] == files[1]) {
        (true, true) => "the same file",
        (true, false) => "the same net in other files",
        (false, _) => "another net",
    })
}
