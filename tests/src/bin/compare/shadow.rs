//! The comparison of nesfoal_shadow.

use crate::frame::{above, full_as_short, more_above, Call, Spoil};
use crate::library;
use nesfoal_tests::cases::*;
use nesfoal_tests::fixed::{self, Fixed};
use nesfoal_tests::gen;
use nesfoal_tests::rng::Rng;

pub struct Shadow;

impl Call for Shadow {
    type Case = ShadowCase;
    const NAME: &'static str = "shadow";
    const SPOILS: &'static [Spoil] = &[
        // One count too many where the list sticks.
        ("count", |answer| {
            if answer.number == 100 {
                answer.outs[3] += 1;
            }
        }),
        // A guard entry after the output is taken as written.
        ("guard", |answer| {
            if let (0, [_, Cells::Halves(out)]) = (answer.number, &mut answer.cells[..]) {
                *out.last_mut().unwrap() ^= 1;
            }
        }),
        ("full", full_as_short),
        ("excess", more_above),
        ("above", above),
    ];

    fn fixed() -> Vec<Fixed<ShadowCase>> {
        fixed::shadows()
    }

    fn random(rng: &mut Rng) -> ShadowCase {
        gen::shadow_case(rng)
    }

    fn library(case: &ShadowCase) -> Answer {
        library::shadow(case)
    }
}
