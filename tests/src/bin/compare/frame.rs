//! The frame of a comparison: fixed cases, random cases on two threads, differences, histogram.

use nesfoal_tests::cases::{Answer, Case, Cells};
use nesfoal_tests::fixed::Fixed;
use nesfoal_tests::rng::Rng;
use std::collections::BTreeMap;
use std::sync::atomic::{AtomicU64, Ordering};
use std::time::Instant;

const CASES: u64 = 200_000;
const SEED: u64 = 20_250_101;
const THREADS: u64 = 2;
/// Differences printed of each call; the rest is only counted.
const PRINTED: u64 = 5;

pub struct Settings {
    pub seed: u64,
    pub cases: u64,
    pub broken: bool,
    pub trace: bool,
}

impl Settings {
    /// From the arguments and the environment; None if an argument is not known.
    pub fn read() -> Option<Settings> {
        let (mut broken, mut trace) = (false, false);
        for argument in std::env::args().skip(1) {
            match argument.as_str() {
                "--break" => broken = true,
                "--trace" => trace = true,
                _ => return None,
            }
        }
        let number = |name: &str, otherwise: u64| match std::env::var(name) {
            Ok(text) => text.parse().unwrap_or_else(|_| panic!("{name} is not a number: {text}")),
            Err(_) => otherwise,
        };
        let (seed, cases) = (number("NESFOAL_SEED", SEED), number("NESFOAL_CASES", CASES));
        Some(Settings { seed, cases, broken, trace })
    }
}

/// A call of the library and what it is compared with.
pub trait Call {
    type Case: Case;
    const NAME: &'static str;
    fn fixed() -> Vec<Fixed<Self::Case>>;
    fn random(rng: &mut Rng) -> Self::Case;
    /// The library's answer.
    fn library(case: &Self::Case) -> Answer;
    /// Small changes of some answers, each by its name, for `--break`: each has to be found.
    const SPOILS: &'static [Spoil];
}

pub type Spoil = (&'static str, fn(&mut Answer));

/// A guard byte after the buffer is taken as written.
#[allow(dead_code)]
pub fn past_the_end(answer: &mut Answer) {
    if let (0, [Cells::Bytes(cells)]) = (answer.number, &mut answer.cells[..]) {
        *cells.last_mut().unwrap() ^= 1;
    }
}

/// A number is forgotten: all is well.
pub fn forget(answer: &mut Answer, number: u32) {
    if answer.number == number {
        answer.number = 0;
    }
}

/// A marking above its cap is no fault.
#[allow(dead_code)]
pub fn above(answer: &mut Answer) {
    forget(answer, 16);
}

/// The number of a full place is that of a short one.
#[allow(dead_code)]
pub fn full_as_short(answer: &mut Answer) {
    if answer.number == 101 {
        answer.number = 100;
    }
}

/// One token more is above the cap.
#[allow(dead_code)]
pub fn more_above(answer: &mut Answer) {
    if answer.number == 101 {
        answer.outs[2] += 1;
    }
}

/// A slice of edition 2 is written as one of edition 1.
#[allow(dead_code)]
pub fn edition_1(answer: &mut Answer) {
    const END: &[u8] = b"\x01\x02BELL";
    if let (0, Some(Cells::Bytes(cells))) = (answer.number, answer.cells.first_mut()) {
        if let Some(at) = cells.windows(END.len()).rposition(|end| end == END) {
            cells[at + 1] = 1;
        }
    }
}

/// What a comparison has found so far.
#[derive(Default)]
pub struct Found {
    pub differences: AtomicU64,
}

impl Found {
    /// Counts a difference and prints the first few whole.
    pub fn difference(&self, call: &str, case: &str, text: impl FnOnce() -> String) {
        if self.differences.fetch_add(1, Ordering::Relaxed) < PRINTED {
            println!("DIFFERENCE in {call}, {case}\n{}", text());
        }
    }

    pub fn count(&self) -> u64 {
        self.differences.load(Ordering::Relaxed)
    }
}

pub type Histogram = BTreeMap<String, u64>;

/// Goes through the numbers of the random cases on two threads and adds up the histograms.
pub fn on_threads(cases: u64, each: impl Fn(u64, &mut Histogram) + Sync) -> Histogram {
    let each = &each;
    let one = move |thread: u64| {
        let mut histogram = Histogram::new();
        for case in (thread..cases).step_by(THREADS as usize) {
            each(case, &mut histogram);
        }
        histogram
    };
    let mut sum = Histogram::new();
    std::thread::scope(|scope| {
        let threads: Vec<_> = (0..THREADS).map(|thread| scope.spawn(move || one(thread))).collect();
        for thread in threads {
            for (outcome, count) in thread.join().expect("a thread broke off") {
                *sum.entry(outcome).or_insert(0) += count;
            }
        }
    });
    sum
}

/// Compares one call; tells whether nothing differed.
pub fn compare<C: Call>(settings: &Settings) -> bool {
    let name = C::NAME;
    let start = Instant::now();
    let spoils: &[Spoil] = if settings.broken { C::SPOILS } else { &[("", |_| ())] };
    let sides: Vec<Side> = spoils.iter().map(|spoil| Side::new(name, spoil)).collect();

    let fixed = C::fixed();
    println!("compare {name}: {} fixed cases, then {} random ones", fixed.len(), settings.cases);
    for one in &fixed {
        if settings.trace {
            println!("{name}, fixed case: {}\n{}", one.name, one.case.show());
        }
        let theirs = C::library(&one.case);
        let due = one.fault(&theirs);
        let second = one.case.second();
        for side in &sides {
            let ours = side.spoilt(second.clone());
            if theirs != ours || due.is_some() {
                side.found.difference(&side.name, &format!("fixed case: {}", one.name), || {
                    show(&one.case, &theirs, &ours) + due.as_deref().unwrap_or_default()
                });
            }
        }
    }

    let histogram = on_threads(settings.cases, |number, histogram| {
        let mut rng = Rng::for_case(settings.seed, name, number);
        let case = C::random(&mut rng);
        if settings.trace {
            println!("{name}, seed {} case {number}\n{}", settings.seed, case.show());
        }
        let (second, theirs) = (case.second(), C::library(&case));
        *histogram.entry(case.outcome(&second)).or_insert(0) += 1;
        for side in &sides {
            let ours = side.spoilt(second.clone());
            if theirs != ours {
                let at = format!("seed {} case {number}", settings.seed);
                side.found.difference(&side.name, &at, || show(&case, &theirs, &ours));
            }
        }
    });
    print_histogram(name, &histogram);
    let seconds = start.elapsed().as_secs_f64();
    let cases = settings.cases + fixed.len() as u64;
    for side in &sides {
        println!("compare {}: {cases} cases, {} differences ({seconds:.1} s)", side.name, side.found.count());
    }
    sides.iter().all(|side| side.found.count() == 0)
}

/// The second implementation's answers, as they are or spoilt in one way.
struct Side {
    name: String,
    spoil: fn(&mut Answer),
    found: Found,
}

impl Side {
    fn new(call: &str, (name, spoil): &Spoil) -> Side {
        let name = if name.is_empty() { call.to_string() } else { format!("{call}_{name}") };
        Side { name, spoil: *spoil, found: Found::default() }
    }

    fn spoilt(&self, mut answer: Answer) -> Answer {
        (self.spoil)(&mut answer);
        answer
    }
}

fn show<C: Case>(case: &C, library: &Answer, second: &Answer) -> String {
    format!("{}  library: {}\n  second:  {}\n", case.show(), library.show(), second.show())
}

/// The share of each outcome, on one line; numbers first, in their order.
pub fn print_histogram(name: &str, histogram: &Histogram) {
    let total: u64 = histogram.values().sum();
    let mut entries: Vec<(&String, &u64)> = histogram.iter().collect();
    entries.sort_by_key(|(outcome, _)| (outcome.parse::<u32>().unwrap_or(0), outcome.to_string()));
    let shares: Vec<String> = entries
        .iter()
        .map(|(outcome, count)| format!("{outcome} {:.1}%", 100.0 * **count as f64 / total.max(1) as f64))
        .collect();
    println!("  outcomes of {name}: {}", shares.join(", "));
}
