//! The comparison of nesfoal_replay.

use crate::frame::{above, full_as_short, more_above, Call, Spoil};
use crate::library;
use nesfoal_tests::cases::*;
use nesfoal_tests::fixed::{self, Fixed};
use nesfoal_tests::gen;
use nesfoal_tests::rng::Rng;

pub struct Replay;

impl Call for Replay {
    type Case = ReplayCase;
    const NAME: &'static str = "replay";
    const SPOILS: &'static [Spoil] = &[
        // Another short place, where a later firing sticks.
        ("place", |answer| {
            if answer.number == 100 && answer.outs[0] > 0 {
                answer.outs[1] += 1;
            }
        }),
        // One token too many is missing.
        ("amount", |answer| {
            if answer.number == 100 {
                answer.outs[2] += 1;
            }
        }),
        ("full", full_as_short),
        ("excess", more_above),
        ("above", above),
    ];

    fn fixed() -> Vec<Fixed<ReplayCase>> {
        fixed::replays()
    }

    fn random(rng: &mut Rng) -> ReplayCase {
        gen::replay_case(rng)
    }

    fn library(case: &ReplayCase) -> Answer {
        library::replay(case)
    }
}
