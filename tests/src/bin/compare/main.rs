//! Compares the library with the second implementation: every answer, every value handed back, every
//! entry of every lent buffer and its guard zone. First the fixed cases, then random ones.
//!
//! NESFOAL_SEED sets the seed, NESFOAL_CASES the random cases of each call. `--break` spoils the second
//! implementation's answers a little, so that each comparison has to fail. `--trace` prints each case
//! before its call, to find the one where a library stops the program.

#[cfg(not(any(
    feature = "effect",
    feature = "arcs",
    feature = "replay",
    feature = "safety",
    feature = "branching",
    feature = "run_cut",
    feature = "shadow",
    feature = "together",
    feature = "range",
    feature = "normal",
    feature = "transfer",
    feature = "from",
    feature = "pnml",
    feature = "check"
)))]
compile_error!("no call to compare: turn a feature on");

#[cfg(any(feature = "check", feature = "run_cut", feature = "normal"))]
mod both;
mod frame;
mod library;

#[cfg(feature = "arcs")]
mod arcs;
#[cfg(feature = "branching")]
mod branching;
#[cfg(feature = "check")]
mod check;
#[cfg(feature = "effect")]
mod effect;
#[cfg(feature = "pnml")]
mod every_byte;
#[cfg(feature = "run_cut")]
mod fed;
#[cfg(feature = "from")]
mod from;
#[cfg(feature = "check")]
mod guarantee;
#[cfg(feature = "normal")]
mod normal;
#[cfg(feature = "pnml")]
mod pnml;
#[cfg(feature = "range")]
mod range;
#[cfg(feature = "normal")]
mod redrawn;
#[cfg(feature = "replay")]
mod replay;
#[cfg(feature = "run_cut")]
mod run_cut;
#[cfg(feature = "safety")]
mod safety;
#[cfg(feature = "shadow")]
mod shadow;
#[cfg(all(feature = "check", feature = "from"))]
mod started;
#[cfg(feature = "together")]
mod together;
#[cfg(feature = "transfer")]
mod transfer;
#[cfg(feature = "check")]
mod verdict;

use frame::Settings;
use std::process::ExitCode;

fn main() -> ExitCode {
    let Some(settings) = Settings::read() else {
        eprintln!("usage: compare [--break] [--trace]");
        return ExitCode::from(2);
    };
    println!("seed {}, {} random cases a call", settings.seed, settings.cases);
    let (mut passed, mut failed) = (0, 0);
    for compare in comparisons() {
        if compare(&settings) {
            passed += 1;
        } else {
            failed += 1;
        }
    }
    println!("{passed} passed, {failed} failed");
    if failed == 0 && passed > 0 {
        ExitCode::SUCCESS
    } else {
        ExitCode::FAILURE
    }
}

/// One entry for each call of the features that are on; each tells whether nothing differed.
fn comparisons() -> Vec<fn(&Settings) -> bool> {
    vec![
        #[cfg(feature = "effect")]
        |s| frame::compare::<effect::Effect>(s),
        #[cfg(feature = "arcs")]
        |s| frame::compare::<arcs::Arcs>(s),
        #[cfg(feature = "replay")]
        |s| frame::compare::<replay::Replay>(s),
        #[cfg(feature = "safety")]
        |s| frame::compare::<safety::Safety>(s),
        #[cfg(feature = "branching")]
        |s| frame::compare::<branching::Branching>(s),
        #[cfg(feature = "run_cut")]
        |s| frame::compare::<run_cut::RunCut>(s),
        #[cfg(feature = "run_cut")]
        fed::compare,
        #[cfg(feature = "shadow")]
        |s| frame::compare::<shadow::Shadow>(s),
        #[cfg(feature = "together")]
        |s| frame::compare::<together::Together>(s),
        #[cfg(feature = "range")]
        |s| frame::compare::<range::Range>(s),
        #[cfg(feature = "normal")]
        |s| frame::compare::<normal::Normal>(s),
        #[cfg(feature = "normal")]
        redrawn::compare,
        #[cfg(feature = "transfer")]
        |s| frame::compare::<transfer::Transfer>(s),
        #[cfg(feature = "from")]
        |s| frame::compare::<from::Replay>(s),
        #[cfg(feature = "from")]
        |s| frame::compare::<from::Safety>(s),
        #[cfg(feature = "from")]
        |s| frame::compare::<from::Branching>(s),
        #[cfg(feature = "from")]
        |s| frame::compare::<from::Verdict>(s),
        #[cfg(feature = "pnml")]
        |s| frame::compare::<pnml::Pnml>(s),
        #[cfg(feature = "pnml")]
        every_byte::compare,
        #[cfg(feature = "check")]
        |s| frame::compare::<check::Check>(s),
        #[cfg(feature = "check")]
        |s| frame::compare::<verdict::Verdict>(s),
        #[cfg(feature = "check")]
        guarantee::compare,
        #[cfg(all(feature = "check", feature = "from"))]
        started::compare,
    ]
}
