//! The comparison of nesfoal_normal.

use crate::frame::{above, forget, past_the_end, Call, Spoil};
use crate::library;
use nesfoal_tests::cases::*;
use nesfoal_tests::fixed::{self, Fixed};
use nesfoal_tests::gen;
use nesfoal_tests::rng::Rng;

pub struct Normal;

impl Call for Normal {
    type Case = NormalCase;
    const NAME: &'static str = "normal";
    const SPOILS: &'static [Spoil] = &[
        ("guard", past_the_end),
        // One arc is not joined.
        ("length", |answer| {
            if answer.number == 0 {
                answer.outs[0] += 8;
            }
        }),
        ("heavy", |answer| forget(answer, 25)),
        ("above", above),
    ];

    fn fixed() -> Vec<Fixed<NormalCase>> {
        fixed::normals()
    }

    fn random(rng: &mut Rng) -> NormalCase {
        gen::normal_case(rng)
    }

    fn library(case: &NormalCase) -> Answer {
        library::normal(case)
    }
}
