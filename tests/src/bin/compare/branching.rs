//! The comparison of nesfoal_branching.

use crate::frame::{above, edition_1, past_the_end, Call, Spoil};
use crate::library;
use nesfoal_tests::cases::*;
use nesfoal_tests::cut::Cut;
use nesfoal_tests::fixed::{self, Fixed};
use nesfoal_tests::gen;
use nesfoal_tests::rng::Rng;

pub struct Branching;

impl Call for Branching {
    type Case = CutCase;
    const NAME: &'static str = "branching";
    const SPOILS: &'static [Spoil] = &[("guard", past_the_end), ("edition", edition_1), ("above", above)];

    fn fixed() -> Vec<Fixed<CutCase>> {
        fixed::cuts(Cut::Branching)
    }

    fn random(rng: &mut Rng) -> CutCase {
        gen::cut_case(rng, Cut::Branching)
    }

    fn library(case: &CutCase) -> Answer {
        library::branching(case)
    }
}
