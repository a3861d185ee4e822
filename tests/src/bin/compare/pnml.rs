//! The comparison of nesfoal_from_pnml.

use crate::frame::{forget, past_the_end, Call, Spoil};
use crate::library;
use nesfoal_tests::cases::*;
use nesfoal_tests::fixed::{self, Fixed};
use nesfoal_tests::gen;
use nesfoal_tests::rng::Rng;

pub struct Pnml;

impl Call for Pnml {
    type Case = PnmlCase;
    const NAME: &'static str = "pnml";
    const SPOILS: &'static [Spoil] = &[
        ("guard", past_the_end),
        // Text outside the profile has a wrong id; one with a wrong id is outside; a number past its limit is none.
        ("profile", |answer| exchange(answer, 18, 19)),
        ("id", |answer| exchange(answer, 19, 18)),
        ("number", |answer| forget(answer, 20)),
        // One arc more.
        ("length", |answer| {
            if answer.number == 0 {
                answer.outs[0] += 8;
            }
        }),
    ];

    fn fixed() -> Vec<Fixed<PnmlCase>> {
        fixed::texts()
    }

    fn random(rng: &mut Rng) -> PnmlCase {
        gen::pnml_case(rng)
    }

    fn library(case: &PnmlCase) -> Answer {
        library::pnml(case)
    }
}

fn exchange(answer: &mut Answer, number: u32, other: u32) {
    if answer.number == number {
        answer.number = other;
    }
}
