//! The comparison of nesfoal_effect.

use crate::frame::{above, Call, Spoil};
use crate::library;
use nesfoal_tests::cases::*;
use nesfoal_tests::fixed::{self, Fixed};
use nesfoal_tests::gen;
use nesfoal_tests::rng::Rng;

pub struct Effect;

impl Call for Effect {
    type Case = EffectCase;
    const NAME: &'static str = "effect";
    const SPOILS: &'static [Spoil] = &[("sign", |answer| answer.outs[0] = -answer.outs[0]), ("above", above)];

    fn fixed() -> Vec<Fixed<EffectCase>> {
        fixed::effects()
    }

    fn random(rng: &mut Rng) -> EffectCase {
        gen::effect_case(rng)
    }

    fn library(case: &EffectCase) -> Answer {
        library::effect(case)
    }
}
