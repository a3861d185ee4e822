//! How the time grows with the net: an eighth, a quarter, a half and the whole of each family.

use crate::calls::{Call, Jobs, Program, CALLS, LIBRARY, TUNED};
use crate::nets::{capped, chain, doubles, many, parallel, random, readers_writers, wide, Input};
use crate::table::{agree, microseconds};
use crate::time::{interleaved, Effort, Side};

pub fn print(effort: Effort) {
    println!(
        "Growth: microseconds at an eighth, a quarter, a half and the whole, the four in turns, and how many times"
    );
    println!("longer each doubling of the files' bytes takes (steps that are not exact doublings are scaled to one).");
    println!(
        "Replay, run cut, shadow and range keep lists of 65,535 throughout, so they grow mainly with the arcs of a firing."
    );
    println!(
        "Random nets: sixteen of each size in turn. On one and the same net again and again, branches are learnt by"
    );
    println!("heart as long as it is small.");
    let families: [[Vec<Input>; 4]; 7] = [
        [128, 256, 512, 1_024].map(|n| many(random, n)),
        [128, 256, 512, 1_024].map(|n| vec![chain(n)]),
        [128, 256, 512, 1_024].map(|n| vec![wide(n)]),
        [8, 11, 16, 22].map(|n| vec![readers_writers(n)]),
        [128, 256, 512, 1_024].map(|n| many(doubles, n)),
        [512, 1_024, 2_048, 4_096].map(|n| vec![parallel(n)]),
        [128, 256, 512, 1_024].map(|n| many(capped, n)),
    ];
    for family in &families {
        println!();
        for inputs in family {
            println!("- {}", inputs[0].describe());
        }
        println!();
        println!("| call | program | 1/8 | 1/4 | 1/2 | 1 | 1/4 : 1/8 | 1/2 : 1/4 | 1 : 1/2 |");
        println!("|---|---|---|---|---|---|---|---|---|");
        for call in CALLS {
            if family[0][0].capped && call.without_caps() {
                continue;
            }
            family.iter().flatten().for_each(|input| agree(call, input));
            for (name, program) in [("ours", &LIBRARY), ("tuned", &TUNED)] {
                if let Some(line) = line(program, call, family, effort) {
                    println!("| {} | {name} | {line} |", call.name());
                }
            }
        }
    }
}

fn line(program: &Program, call: Call, family: &[Vec<Input>], effort: Effort) -> Option<String> {
    let mut jobs: Vec<Jobs> = family.iter().map(|inputs| Jobs::new(program, call, inputs)).collect::<Option<_>>()?;
    let mut sides: Vec<Side> = jobs.iter_mut().map(Jobs::side).collect();
    let rounds = interleaved(&mut sides, effort);
    let bytes = |inputs: &[Input]| {
        let of_one = |input: &Input| match call {
            Call::ReadSlice => input.slice.len(),
            _ if call.reads_both() => input.plan.len() + input.slice.len(),
            _ => input.plan.len(),
        };
        inputs.iter().map(of_one).sum::<usize>() as f64
    };
    let steps = (1..family.len()).map(|i| {
        let doublings = (bytes(&family[i]) / bytes(&family[i - 1])).log2();
        format!("{:.2}", rounds[i].to(&rounds[i - 1]).median.powf(1.0 / doublings))
    });
    let cells: Vec<String> = rounds.iter().map(|r| microseconds(r.median())).chain(steps).collect();
    Some(cells.join(" | "))
}
