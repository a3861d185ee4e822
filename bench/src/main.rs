//! Times the library's calls and those of a tuned program side by side. `./bench/run` builds and runs it.

mod agree;
mod calls;
mod growth;
mod library;
mod nets;
mod stack;
mod table;
mod time;
mod tuned;

use std::process::ExitCode;
use time::Effort;

const USAGE: &str = "\
usage: nesfoal-bench [--quick] [table] [checks] [growth] [stack]
       nesfoal-bench --check [CASES]
       nesfoal-bench --repeat ours|tuned CALL NET TIMES

table, checks, growth, stack   what to measure; all four if none is named
--quick                shorter and rougher
--check                holds the tuned program to the second implementation, on so many cases of each call
--repeat               does one call so often, for a profiler; NET is how its name in a table starts";

const PARTS: [&str; 4] = ["table", "checks", "growth", "stack"];

fn main() -> ExitCode {
    let arguments: Vec<String> = std::env::args().skip(1).collect();
    let mut words: Vec<&str> = arguments.iter().map(String::as_str).collect();
    if words.first() == Some(&"--check") {
        let cases = words.get(1).map_or(Some(12_500), |n| n.parse().ok());
        return match cases {
            Some(cases) if words.len() <= 2 && agree::agree(cases) => ExitCode::SUCCESS,
            Some(_) if words.len() <= 2 => ExitCode::FAILURE,
            _ => usage(),
        };
    }
    if words.first() == Some(&"--repeat") {
        return repeat(&words[1..]).unwrap_or_else(usage);
    }
    let mut effort = Effort::FULL;
    if words.first() == Some(&"--quick") {
        effort = Effort::QUICK;
        words.remove(0);
    }
    if words.is_empty() {
        words = PARTS.to_vec();
    }
    if words.iter().any(|w| !PARTS.contains(w)) {
        return usage();
    }
    println!("Each call is run on the same input in the same process, in turns: ours, tuned, ours, tuned ..");
    println!("Caches and branch prediction are warm; lent buffers are not cleared between the calls.");
    for word in words {
        println!();
        match word {
            "table" => table::print(effort),
            "checks" => table::checks(effort),
            "growth" => growth::print(effort),
            _ => stack::print(),
        }
    }
    ExitCode::SUCCESS
}

/// Does one call so often.
fn repeat(words: &[&str]) -> Option<ExitCode> {
    let [program, call, net, times] = words else { return None };
    let program = match *program {
        "ours" => &calls::LIBRARY,
        "tuned" => &calls::TUNED,
        _ => return None,
    };
    let call = calls::CALLS.into_iter().find(|c| c.name() == *call)?;
    let input = nets::named(net)?;
    let times: u64 = times.parse().ok()?;
    let mut job = calls::Job::new(program, call, &input)?;
    let mut side = job.side();
    let start = std::time::Instant::now();
    for _ in 0..times {
        std::hint::black_box(side());
    }
    println!("{} {}: {:.3} us a call", input.name, call.name(), start.elapsed().as_secs_f64() * 1e6 / times as f64);
    Some(ExitCode::SUCCESS)
}

fn usage() -> ExitCode {
    eprintln!("{USAGE}");
    ExitCode::from(2)
}
