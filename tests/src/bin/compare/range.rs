//! The comparison of nesfoal_range.

use crate::frame::{above, forget, Call, Spoil};
use crate::library;
use nesfoal_tests::cases::*;
use nesfoal_tests::fixed::{self, Fixed};
use nesfoal_tests::gen;
use nesfoal_tests::rng::Rng;

pub struct Range;

impl Call for Range {
    type Case = RangeCase;
    const NAME: &'static str = "range";
    const SPOILS: &'static [Spoil] = &[
        // From some is from every one.
        ("some", |answer| forget(answer, 100)),
        // One token too many in the middle of what is lent, where the list fires from none.
        ("need", |answer| {
            if let (101, [Cells::Longs(need)]) = (answer.number, &mut answer.cells[..]) {
                let middle = need.len() / 2;
                need[middle] += 1;
            }
        }),
        // A guard entry after the need is taken as written.
        ("guard", |answer| {
            if let (0, [Cells::Longs(need)]) = (answer.number, &mut answer.cells[..]) {
                *need.last_mut().unwrap() ^= 1;
            }
        }),
        ("upper", |answer| forget(answer, 21)),
        ("capped", |answer| forget(answer, 17)),
        ("above", above),
    ];

    fn fixed() -> Vec<Fixed<RangeCase>> {
        fixed::ranges()
    }

    fn random(rng: &mut Rng) -> RangeCase {
        gen::range_case(rng)
    }

    fn library(case: &RangeCase) -> Answer {
        library::range(case)
    }
}
