//! The comparison of nesfoal_run_cut.

use crate::frame::{above, edition_1, forget, Call, Spoil};
use crate::library;
use nesfoal_tests::cases::*;
use nesfoal_tests::fixed::{self, Fixed};
use nesfoal_tests::gen;
use nesfoal_tests::rng::Rng;

pub struct RunCut;

impl Call for RunCut {
    type Case = RunCutCase;
    const NAME: &'static str = "run_cut";
    const SPOILS: &'static [Spoil] = &[
        // One transition too many is kept.
        ("kept", |answer| {
            if answer.number == 0 {
                answer.outs[2] += 1;
            }
        }),
        // One token too few is missing.
        ("amount", |answer| {
            if answer.number == 14 {
                answer.outs[6] -= 1;
            }
        }),
        ("edition", edition_1),
        ("above", above),
        ("capped", |answer| forget(answer, 17)),
    ];

    fn fixed() -> Vec<Fixed<RunCutCase>> {
        fixed::run_cuts()
    }

    fn random(rng: &mut Rng) -> RunCutCase {
        gen::run_cut_case(rng)
    }

    fn library(case: &RunCutCase) -> Answer {
        library::run_cut(case)
    }
}
