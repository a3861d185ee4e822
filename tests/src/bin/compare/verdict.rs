//! The comparison of nesfoal_verdict.

use crate::frame::{above, Call, Spoil};
use crate::library;
use nesfoal_tests::cases::*;
use nesfoal_tests::fixed::{self, Fixed};
use nesfoal_tests::gen;
use nesfoal_tests::rng::Rng;

pub struct Verdict;

fn one_off(answer: &mut Answer, rule: u32) {
    if answer.number == rule {
        answer.outs[0] += 1;
    }
}

impl Call for Verdict {
    type Case = VerdictCase;
    const NAME: &'static str = "verdict";
    // The numbers of rules 7, 9 and 10 are one off; of rule 3 too, which is about caps as well.
    const SPOILS: &'static [Spoil] = &[
        ("rule_3", |answer| one_off(answer, 103)),
        ("rule_7", |answer| one_off(answer, 107)),
        ("rule_9", |answer| one_off(answer, 109)),
        ("rule_10", |answer| one_off(answer, 110)),
        ("above", above),
    ];

    fn fixed() -> Vec<Fixed<VerdictCase>> {
        fixed::verdicts()
    }

    fn random(rng: &mut Rng) -> VerdictCase {
        gen::verdict_case(rng)
    }

    fn library(case: &VerdictCase) -> Answer {
        library::verdict(case)
    }
}
