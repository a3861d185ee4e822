//! What the run cut promises, tried: the chosen positions rise and lie in the list, and fired in order from the marking of the
//! slice written, they all fire and leave each place of Q at least the tokens that the list leaves there in the plan.
//!
//! Beside it is counted what is not promised: how often the tokens on Q are more than the plan's, how often all firings of
//! the kept transitions stick in the slice (document 002 claims that they fire), how often the checker accepts the slice.

use crate::both::replay;
use crate::frame::{on_threads, print_histogram, Found, Settings};
use crate::library;
use nesfoal_tests::cases::*;
use nesfoal_tests::check::{judge, Verdict};
use nesfoal_tests::gen::run_cut_case;
use nesfoal_tests::net::Kind;
use nesfoal_tests::read::read;
use nesfoal_tests::replay::{fire_list, Replayed};
use nesfoal_tests::rng::Rng;
use nesfoal_tests::shadow::strike_out;
use std::time::Instant;

const NAME: &str = "fed";
const WRITTEN: &str = "written";
const MORE: &str = "with more tokens on Q than the plan";
const STICK: &str = "in which all firings of kept transitions stick";
const ACCEPTED: &str = "accepted";

pub fn compare(settings: &Settings) -> bool {
    let start = Instant::now();
    let found = Found::default();
    println!("compare {NAME}: {} random cases", settings.cases);
    let mut histogram = on_threads(settings.cases, |number, histogram| {
        let mut rng = Rng::for_case(settings.seed, NAME, number);
        let mut case = run_cut_case(&mut rng);
        // Room enough, so that more cuts are written.
        case.slice = Lent::plain(vec![0; 65_536]);
        case.positions = Lent::plain(vec![0; case.list.len]);
        let answer = library::run_cut(&case);
        if answer.number != 0 {
            *histogram.entry(answer.number.to_string()).or_insert(0) += 1;
            return;
        }
        match fed(&case, &answer, settings.broken) {
            Ok(seen) => seen.into_iter().for_each(|what| *histogram.entry(what.into()).or_insert(0) += 1),
            Err(fault) => {
                let at = format!("seed {} case {number}", settings.seed);
                found.difference(NAME, &at, || format!("{}  {}\n  {fault}", case.show(), answer.show()));
            }
        }
    });
    let [more, stick, accepted] = [MORE, STICK, ACCEPTED].map(|what| histogram.remove(what).unwrap_or(0));
    print_histogram(NAME, &histogram);
    println!("  written: {}", histogram.get(WRITTEN).copied().unwrap_or(0));
    println!("  of these {more} {MORE}, {stick} {STICK}, {accepted} {ACCEPTED}");
    let seconds = start.elapsed().as_secs_f64();
    println!("compare {NAME}: {} cases, {} differences ({seconds:.1} s)", settings.cases, found.count());
    found.count() == 0
}

/// What is seen of a cut that was written, or where the promise fails.
fn fed(case: &RunCutCase, answer: &Answer, broken: bool) -> Result<Vec<&'static str>, String> {
    let [Cells::Bytes(bytes), Cells::Halves(halves)] = &answer.cells[..] else {
        return Err("a slice and positions are due".into());
    };
    let (file, positions) = (&bytes[..answer.outs[0] as usize], &halves[..answer.outs[3] as usize]);
    let (q, list) = (case.q.part(), case.list.part());
    let plan = read(case.plan.part(), Some(Kind::Plan)).map_err(|n| format!("the plan is refused with {n}"))?;
    let slice = read(file, Some(Kind::Slice)).map_err(|n| format!("the slice is refused with {n}"))?;
    if positions.windows(2).any(|two| two[0] >= two[1]) || positions.iter().any(|&i| usize::from(i) >= list.len()) {
        return Err("the positions do not rise in the list".into());
    }
    let own = |listed: &[u16]| strike_out(&slice.transition_origins, listed);
    let chosen = own(&positions.iter().map(|&i| list[usize::from(i)]).collect::<Vec<u16>>());
    if chosen.len() != positions.len() {
        return Err("a chosen transition is not kept".into());
    }
    let in_plan = replay(&plan, case.plan.part(), list)?.ok_or("the list does not fire")?;
    let in_slice = replay(&slice, file, &chosen)?.ok_or("the chosen positions do not fire in the slice")?;
    let mut seen = vec![WRITTEN];
    for &p in q {
        let number = slice.place_origins.iter().position(|&o| o == p).ok_or("a place of Q is not kept")?;
        let (there, here) = (in_plan[usize::from(p)], in_slice[number]);
        // The error to expect: taking the tokens on Q as equal.
        if here < there || broken && here != there {
            return Err(format!("{there} tokens on place {p}, {here} in the slice"));
        }
        if here > there && !seen.contains(&MORE) {
            seen.push(MORE);
        }
    }
    if fire_list(&slice, &own(list)).0 != Replayed::Fired {
        seen.push(STICK);
    }
    if judge(&plan, &slice, q) == Verdict::Accepted {
        seen.push(ACCEPTED);
    }
    Ok(seen)
}
