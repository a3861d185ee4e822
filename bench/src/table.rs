//! The table: each call on each net, ours and tuned.

use crate::calls::{Call, Job, Jobs, Program, CALLS, LIBRARY, TUNED};
use crate::nets::{self, Input};
use crate::time::{interleaved, Effort, Rounds, Side};
use nesfoal_tests::net::MAX_LIST;

pub fn print(effort: Effort) {
    let mut entries: Vec<Vec<Input>> = nets::nine().into_iter().map(|input| vec![input]).collect();
    entries.insert(3, nets::many(nets::random, 1_000));
    entries.push(vec![nets::small(65_535, MAX_LIST)]);
    println!("Times in microseconds, medians. ours : tuned is the median of the ratios of neighbouring rounds, and in");
    println!(
        "brackets their middle half. To reading: our time to merely reading the same files (the plan, or plan and"
    );
    println!("slice) by our own reader and by the tuned one; and the tuned program's time to the tuned reader's.");
    for inputs in &entries {
        let input = &inputs[0];
        println!();
        println!("{}", input.describe());
        if inputs.len() > 1 {
            println!("and {} more of the kind, in turn", inputs.len() - 1);
        }
        println!();
        println!(
            "| call | ours | tuned | ours : tuned | ours to our reading | to tuned reading | tuned to tuned reading |"
        );
        println!("|---|---|---|---|---|---|---|");
        for call in CALLS {
            // The refilled net is there for its long list alone.
            let extra = input.name == "small, refilled";
            if input.capped && call.without_caps() {
                continue;
            }
            if !extra || call.only_reads() || matches!(call, Call::Replay | Call::RunCut | Call::Shadow | Call::Range) {
                println!("{}", line(call.name(), call, inputs, effort));
            }
        }
    }
}

/// Checks of plans with 4,096 arcs.
pub fn checks(effort: Effort) {
    println!("Checks of 1,024 places, 1,024 transitions and 4,096 arcs, in microseconds: every sixteenth place and");
    println!("transition is left out. To reading: to merely reading the two files.");
    println!();
    println!(
        "| answer | ours | tuned | ours : tuned | ours to our reading | to tuned reading | tuned to tuned reading |"
    );
    println!("|---|---|---|---|---|---|---|");
    for input in nets::checks() {
        let name = input.name.clone();
        println!("{}", line(&name, Call::Check, &[input], effort));
    }
}

/// Both programs give the same answer and leave the same buffers.
pub fn agree(call: Call, input: &Input) {
    let tuned = Job::new(&TUNED, call, input).map(Job::outcome);
    if let Some(ours) = Job::new(&LIBRARY, call, input).map(Job::outcome) {
        assert!(Some(&ours) == tuned.as_ref(), "{}, {}: the answers differ", input.name, call.name());
    }
    let number = tuned.map_or(0, |outcome| outcome.number);
    let due = match call {
        Call::ReadPlan | Call::ReadSlice => number == 10,
        Call::Arcs => number > 0,
        Call::Check | Call::Verdict => number == input.checked,
        _ => number == 0,
    };
    assert!(due, "{}, {}: {number}", input.name, call.name());
}

/// Merely reads the files that the call reads.
struct Reading<'a>(Vec<Jobs<'a>>);

impl<'a> Reading<'a> {
    fn new(program: &'a Program, call: Call, inputs: &'a [Input]) -> Option<Reading<'a>> {
        let calls = if call.reads_both() { &[Call::ReadPlan, Call::ReadSlice][..] } else { &[Call::ReadPlan] };
        calls.iter().map(|&call| Jobs::new(program, call, inputs)).collect::<Option<_>>().map(Reading)
    }

    fn side(&mut self) -> Side<'_> {
        let mut sides: Vec<Side> = self.0.iter_mut().map(Jobs::side).collect();
        Box::new(move || sides.iter_mut().map(|side| side()).sum())
    }
}

fn line(name: &str, call: Call, inputs: &[Input], effort: Effort) -> String {
    inputs.iter().for_each(|input| agree(call, input));
    let mut jobs = [&LIBRARY, &TUNED].map(|program| Jobs::new(program, call, inputs));
    let mut readings = [&LIBRARY, &TUNED].map(|program| Reading::new(program, call, inputs));
    let mut there = Vec::new();
    let mut sides: Vec<Side> = Vec::new();
    for (i, job) in jobs.iter_mut().enumerate() {
        if let Some(job) = job {
            there.push(i);
            sides.push(job.side());
        }
    }
    if !call.only_reads() {
        for (i, reading) in readings.iter_mut().enumerate() {
            if let Some(reading) = reading {
                there.push(2 + i);
                sides.push(reading.side());
            }
        }
    }
    let rounds = interleaved(&mut sides, effort);
    let of = |wanted: usize| there.iter().position(|&i| i == wanted).map(|at| &rounds[at]);
    let [ours, tuned, our_reading, tuned_reading] = [0, 1, 2, 3].map(of);
    let time = |rounds: Option<&Rounds>| rounds.map_or("-".into(), |r| microseconds(r.median()));
    let ratio = |a: Option<&Rounds>, b: Option<&Rounds>| match (a, b) {
        (Some(a), Some(b)) => format!("{:.2}", a.to(b).median),
        _ => "-".into(),
    };
    let compared = match (ours, tuned) {
        (Some(ours), Some(tuned)) => {
            let r = ours.to(tuned);
            format!("{:.2} ({:.2} to {:.2})", r.median, r.low, r.high)
        }
        _ => "-".into(),
    };
    format!(
        "| {name} | {} | {} | {compared} | {} | {} | {} |",
        time(ours),
        time(tuned),
        ratio(ours, our_reading),
        ratio(ours, tuned_reading),
        ratio(tuned, tuned_reading)
    )
}

/// Three digits or so.
pub fn microseconds(nanoseconds: f64) -> String {
    let t = nanoseconds / 1_000.0;
    match t {
        t if t < 1.0 => format!("{t:.3}"),
        t if t < 10.0 => format!("{t:.2}"),
        t if t < 100.0 => format!("{t:.1}"),
        _ => format!("{t:.0}"),
    }
}
