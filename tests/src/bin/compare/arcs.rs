//! The comparison of nesfoal_arcs.

use crate::frame::{Call, Spoil};
use crate::library;
use nesfoal_tests::cases::*;
use nesfoal_tests::fixed::{self, Fixed};
use nesfoal_tests::gen;
use nesfoal_tests::rng::Rng;

pub struct Arcs;

impl Call for Arcs {
    type Case = ArcsCase;
    const NAME: &'static str = "arcs";
    const SPOILS: &'static [Spoil] = &[
        // The start of long runs one arc off.
        ("start", |answer| {
            if answer.number > 16 {
                answer.outs[0] += 8;
            }
        }),
    ];

    fn fixed() -> Vec<Fixed<ArcsCase>> {
        fixed::arc_runs()
    }

    fn random(rng: &mut Rng) -> ArcsCase {
        gen::arcs_case(rng)
    }

    fn library(case: &ArcsCase) -> Answer {
        library::arcs(case)
    }
}
