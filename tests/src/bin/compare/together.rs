//! The comparison of nesfoal_together.

use crate::frame::{above, Call, Spoil};
use crate::library;
use nesfoal_tests::cases::*;
use nesfoal_tests::fixed::{self, Fixed};
use nesfoal_tests::gen;
use nesfoal_tests::rng::Rng;

pub struct Together;

impl Call for Together {
    type Case = TogetherCase;
    const NAME: &'static str = "together";
    const SPOILS: &'static [Spoil] = &[
        // One taking less.
        ("times", |answer| {
            if answer.number == 0 && answer.outs[0] > 0 {
                answer.outs[0] -= 1;
            }
        }),
        // None is unlimited.
        ("never", |answer| {
            if answer.number == 0 && answer.outs[0] == 0 {
                answer.number = 100;
            }
        }),
        ("above", above),
    ];

    fn fixed() -> Vec<Fixed<TogetherCase>> {
        fixed::takings()
    }

    fn random(rng: &mut Rng) -> TogetherCase {
        gen::together_case(rng)
    }

    fn library(case: &TogetherCase) -> Answer {
        library::together(case)
    }
}
