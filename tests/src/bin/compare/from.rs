//! The comparisons of nesfoal_replay_from, nesfoal_safety_from, nesfoal_branching_from and nesfoal_verdict_from.

use crate::frame::{above, edition_1, forget, full_as_short, past_the_end, Call, Spoil};
use crate::library;
use nesfoal_tests::cases::*;
use nesfoal_tests::cut::Cut;
use nesfoal_tests::fixed::{self, Fixed};
use nesfoal_tests::gen;
use nesfoal_tests::rng::Rng;

/// The two refusals of a start are forgotten.
const ENTRIES: Spoil = ("entries", |answer| forget(answer, 22));
const TOKENS: Spoil = ("tokens", |answer| forget(answer, 24));

pub struct Replay;

impl Call for Replay {
    type Case = ReplayFromCase;
    const NAME: &'static str = "replay_from";
    const SPOILS: &'static [Spoil] = &[
        ENTRIES,
        TOKENS,
        ("full", full_as_short),
        // One token too many is missing.
        ("amount", |answer| {
            if answer.number == 100 {
                answer.outs[2] += 1;
            }
        }),
        ("above", above),
    ];

    fn fixed() -> Vec<Fixed<ReplayFromCase>> {
        fixed::replays_from()
    }

    fn random(rng: &mut Rng) -> ReplayFromCase {
        gen::replay_from_case(rng)
    }

    fn library(case: &ReplayFromCase) -> Answer {
        library::replay_from(case)
    }
}

pub struct Safety;

impl Call for Safety {
    type Case = CutFromCase;
    const NAME: &'static str = "safety_from";
    const SPOILS: &'static [Spoil] =
        &[ENTRIES, TOKENS, ("guard", past_the_end), ("edition", edition_1), ("above", above)];

    fn fixed() -> Vec<Fixed<CutFromCase>> {
        fixed::cuts_from(Cut::Safety)
    }

    fn random(rng: &mut Rng) -> CutFromCase {
        gen::cut_from_case(rng, Cut::Safety)
    }

    fn library(case: &CutFromCase) -> Answer {
        library::cut_from(case)
    }
}

pub struct Branching;

impl Call for Branching {
    type Case = CutFromCase;
    const NAME: &'static str = "branching_from";
    const SPOILS: &'static [Spoil] = Safety::SPOILS;

    fn fixed() -> Vec<Fixed<CutFromCase>> {
        fixed::cuts_from(Cut::Branching)
    }

    fn random(rng: &mut Rng) -> CutFromCase {
        gen::cut_from_case(rng, Cut::Branching)
    }

    fn library(case: &CutFromCase) -> Answer {
        library::cut_from(case)
    }
}

pub struct Verdict;

impl Call for Verdict {
    type Case = VerdictFromCase;
    const NAME: &'static str = "verdict_from";
    const SPOILS: &'static [Spoil] = &[
        ENTRIES,
        TOKENS,
        // Tokens are not compared; and the place told is one off.
        ("rule_3", |answer| forget(answer, 103)),
        ("place", |answer| {
            if answer.number == 103 {
                answer.outs[0] += 1;
            }
        }),
        ("above", above),
    ];

    fn fixed() -> Vec<Fixed<VerdictFromCase>> {
        fixed::verdicts_from()
    }

    fn random(rng: &mut Rng) -> VerdictFromCase {
        gen::verdict_from_case(rng)
    }

    fn library(case: &VerdictFromCase) -> Answer {
        library::verdict_from(case)
    }
}
