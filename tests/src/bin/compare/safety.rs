//! The comparison of nesfoal_safety.

use crate::frame::{above, edition_1, past_the_end, Call, Spoil};
use crate::library;
use nesfoal_tests::cases::*;
use nesfoal_tests::cut::Cut;
use nesfoal_tests::fixed::{self, Fixed};
use nesfoal_tests::gen;
use nesfoal_tests::rng::Rng;

pub struct Safety;

impl Call for Safety {
    type Case = CutCase;
    const NAME: &'static str = "safety";
    const SPOILS: &'static [Spoil] = &[("guard", past_the_end), ("edition", edition_1), ("above", above)];

    fn fixed() -> Vec<Fixed<CutCase>> {
        fixed::cuts(Cut::Safety)
    }

    fn random(rng: &mut Rng) -> CutCase {
        gen::cut_case(rng, Cut::Safety)
    }

    fn library(case: &CutCase) -> Answer {
        library::safety(case)
    }
}
