//! Holds the program to the second implementation: every case of the answers that the library's calls give (accepted, each rule
//! broken, fired, stuck, written, each refusal) is told by a verb of its own words and numbers, and these are compared, with
//! the files that it writes. First the fixed cases, which have to reach every case of the answer, then random ones.
//!
//! `program PROGRAM [--break]`. NESFOAL_SEED sets the seed, NESFOAL_CASES the random cases of each verb. `--break` spoils what is
//! due a little, in each way by itself, so that each verb has to fail in each.

mod room;
mod verbs;

use nesfoal_tests::rng::Rng;
use room::Room;
use std::collections::BTreeSet;
use std::path::{Path, PathBuf};
use std::process::ExitCode;
use std::sync::atomic::{AtomicU64, Ordering};
use std::time::Instant;
use verbs::{Asked, Spoil, Verb};

const CASES: u64 = 500;
const SEED: u64 = 20_250_101;
const THREADS: usize = 2;
/// Differences printed of each verb; the rest is only counted.
const PRINTED: u64 = 5;

struct Settings {
    program: PathBuf,
    seed: u64,
    cases: u64,
    broken: bool,
}

impl Settings {
    fn read() -> Option<Settings> {
        let words: Vec<String> = std::env::args().skip(1).collect();
        let (program, broken) = match words.as_slice() {
            [program] => (program, false),
            [program, word] if word == "--break" => (program, true),
            _ => return None,
        };
        let number = |name: &str, otherwise: u64| match std::env::var(name) {
            Ok(text) => text.parse().unwrap_or_else(|_| panic!("{name} is not a number: {text}")),
            Err(_) => otherwise,
        };
        let program = std::fs::canonicalize(program).unwrap_or_else(|e| panic!("{program}: {e}"));
        Some(Settings { program, seed: number("NESFOAL_SEED", SEED), cases: number("NESFOAL_CASES", CASES), broken })
    }
}

fn main() -> ExitCode {
    let Some(settings) = Settings::read() else {
        eprintln!("usage: program PROGRAM [--break]");
        return ExitCode::from(2);
    };
    let folder = std::env::temp_dir().join(format!("nesfoal-program-{}", std::process::id()));
    std::fs::create_dir(&folder).expect("a folder of its own");
    println!("seed {}, {} random cases a verb", settings.seed, settings.cases);
    let (mut passed, mut failed) = (0, 0);
    for verb in verbs::all() {
        if compare(&verb, &settings, &folder) {
            passed += 1;
        } else {
            failed += 1;
        }
    }
    std::fs::remove_dir_all(&folder).expect("the folder goes");
    println!("{passed} passed, {failed} failed");
    if failed == 0 && passed > 0 {
        ExitCode::SUCCESS
    } else {
        ExitCode::FAILURE
    }
}

/// Compares one verb; tells whether nothing differed and every case of its answer was met.
fn compare(verb: &Verb, settings: &Settings, folder: &Path) -> bool {
    let name = verb.name;
    let start = Instant::now();
    let spoils: &[Spoil] = if settings.broken { verb.spoils } else { &[("", |_| ())] };
    let sides: Vec<(String, AtomicU64)> = spoils.iter().map(|(of, _)| (named(name, of), AtomicU64::new(0))).collect();
    let hold = |room: &Room, label: &str, asked: Asked, old: bool| {
        let ran = room.run(&asked, old);
        for ((_, spoil), (name, differences)) in spoils.iter().zip(&sides) {
            let mut due = asked.due.clone();
            spoil(&mut due);
            if let Some(fault) = ran.fault(&due) {
                if differences.fetch_add(1, Ordering::Relaxed) < PRINTED {
                    println!("DIFFERENCE in {name}, {label}\n{}{fault}", asked.show());
                }
            }
        }
    };

    let mut reached: BTreeSet<String> = BTreeSet::new();
    let fixed = (verb.fixed)();
    let count = fixed.len() as u64 + settings.cases;
    let room = Room::new(&settings.program, folder.join(format!("{name}-fixed")));
    for (label, asked) in fixed {
        reached.insert(asked.due.outcome.clone());
        hold(&room, &format!("fixed case: {label}"), asked, true);
    }
    let missed: Vec<&str> = verb.outcomes.split(' ').filter(|o| !reached.contains(*o)).collect();
    if !missed.is_empty() {
        println!("{name}: no fixed case is answered by {missed:?}");
    }

    std::thread::scope(|scope| {
        for thread in 0..THREADS {
            let hold = &hold;
            let room = Room::new(&settings.program, folder.join(format!("{name}-{thread}")));
            scope.spawn(move || {
                for number in (thread as u64..settings.cases).step_by(THREADS) {
                    let mut rng = Rng::for_case(settings.seed, name, number);
                    let old = rng.percent(50);
                    let asked = (verb.random)(&mut rng);
                    hold(&room, &format!("seed {} case {number}", settings.seed), asked, old);
                }
            });
        }
    });
    let seconds = start.elapsed().as_secs_f64();
    let mut none = missed.is_empty();
    for (name, differences) in &sides {
        let differences = differences.load(Ordering::Relaxed);
        println!("program {name}: {count} cases, {differences} differences ({seconds:.1} s)");
        none &= differences == 0;
    }
    none
}

/// A verb, or a verb spoilt in one way.
fn named(verb: &str, spoil: &str) -> String {
    if spoil.is_empty() {
        verb.into()
    } else {
        format!("{verb}_{spoil}")
    }
}
