//! Timing of two programs on the same input, interleaved.

use std::hint::black_box;
use std::time::{Duration, Instant};

/// How long is measured for.
#[derive(Clone, Copy)]
pub struct Effort {
    /// A round of one side lasts about this long: as many calls as it takes.
    pub round: Duration,
    /// Rounds of each side, odd; fewer, but no less than a few, if they would last longer than `most`.
    pub rounds: usize,
    pub most: Duration,
}

impl Effort {
    pub const FULL: Effort =
        Effort { round: Duration::from_micros(50), rounds: 301, most: Duration::from_millis(1_500) };
    pub const QUICK: Effort = Effort { round: Duration::from_micros(30), rounds: 51, most: Duration::from_millis(150) };
}

/// Nanoseconds a call, round by round.
pub struct Rounds(Vec<f64>);

impl Rounds {
    pub fn median(&self) -> f64 {
        part(self.0.clone(), 0.5)
    }

    /// How many times longer than the other's: the median and the middle half of the ratios of neighbouring rounds, which
    /// a busy machine troubles least.
    pub fn to(&self, other: &Rounds) -> Ratio {
        let ratios: Vec<f64> = self.0.iter().zip(&other.0).map(|(a, b)| a / b).collect();
        Ratio { median: part(ratios.clone(), 0.5), low: part(ratios.clone(), 0.25), high: part(ratios, 0.75) }
    }
}

pub struct Ratio {
    pub median: f64,
    pub low: f64,
    pub high: f64,
}

/// The entry that stands so far up when sorted.
fn part(mut times: Vec<f64>, share: f64) -> f64 {
    times.sort_by(f64::total_cmp);
    times[((times.len() - 1) as f64 * share).round() as usize]
}

/// A side: does its call once and gives a number that depends on the answer.
pub type Side<'a> = Box<dyn FnMut() -> u32 + 'a>;

fn nanoseconds(side: &mut Side, calls: u32) -> f64 {
    let start = Instant::now();
    for _ in 0..calls {
        black_box(side());
    }
    start.elapsed().as_nanos() as f64 / f64::from(calls)
}

/// Times the sides in turns: A B A B .. Each has been run before, so caches and branches are warm.
pub fn interleaved(sides: &mut [Side], effort: Effort) -> Vec<Rounds> {
    let calls: Vec<u32> = sides.iter_mut().map(|side| calls_a_round(side, effort)).collect();
    let round: f64 = sides.iter_mut().zip(&calls).map(|(side, &n)| nanoseconds(side, n) * f64::from(n)).sum();
    let fit = (effort.most.as_nanos() as f64 * sides.len() as f64 / round) as usize;
    let rounds = effort.rounds.min(fit.max(7)) | 1;
    let mut times: Vec<Vec<f64>> = vec![Vec::with_capacity(rounds); sides.len()];
    for _ in 0..rounds {
        for (i, side) in sides.iter_mut().enumerate() {
            times[i].push(nanoseconds(side, calls[i]));
        }
    }
    times.into_iter().map(Rounds).collect()
}

/// How many calls make a round; the trial warms up.
fn calls_a_round(side: &mut Side, effort: Effort) -> u32 {
    let mut calls = 1;
    loop {
        let total = nanoseconds(side, calls) * f64::from(calls);
        let due = effort.round.as_nanos() as f64;
        if total >= due || calls >= 1 << 20 {
            return ((f64::from(calls) * due / total).ceil() as u32).clamp(1, calls);
        }
        calls *= 2;
    }
}
