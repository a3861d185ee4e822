//! The comparison of nesfoal_check.

use crate::frame::{above, forget, Call, Spoil};
use crate::library;
use nesfoal_tests::cases::*;
use nesfoal_tests::fixed::{self, Fixed};
use nesfoal_tests::gen;
use nesfoal_tests::rng::Rng;

pub struct Check;

impl Call for Check {
    type Case = CheckCase;
    const NAME: &'static str = "check";
    const SPOILS: &'static [Spoil] = &[
        ("rule_8", |answer| forget(answer, 108)),
        ("rule_9", |answer| forget(answer, 109)),
        ("rule_10", |answer| forget(answer, 110)),
        ("above", above),
    ];

    fn fixed() -> Vec<Fixed<CheckCase>> {
        fixed::checks()
    }

    fn random(rng: &mut Rng) -> CheckCase {
        gen::check_case(rng)
    }

    fn library(case: &CheckCase) -> Answer {
        library::check(case)
    }
}
