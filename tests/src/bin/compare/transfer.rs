//! The comparison of nesfoal_transfer.

use crate::frame::{above, forget, Call, Spoil};
use crate::library;
use nesfoal_tests::cases::*;
use nesfoal_tests::fixed::{self, Fixed};
use nesfoal_tests::gen;
use nesfoal_tests::rng::Rng;

pub struct Transfer;

impl Call for Transfer {
    type Case = TransferCase;
    const NAME: &'static str = "transfer";
    const SPOILS: &'static [Spoil] = &[
        // One token more in the middle of what is lent.
        ("sum", |answer| {
            if let (0, [Cells::Longs(cells)]) = (answer.number, &mut answer.cells[..]) {
                let middle = cells.len() / 2;
                cells[middle] += 1;
            }
        }),
        // A guard entry after the marking is taken as written.
        ("guard", |answer| {
            if let (0, [Cells::Longs(cells)]) = (answer.number, &mut answer.cells[..]) {
                *cells.last_mut().unwrap() ^= 1;
            }
        }),
        ("stranded", |answer| forget(answer, 23)),
        ("tokens", |answer| forget(answer, 24)),
        ("above", above),
    ];

    fn fixed() -> Vec<Fixed<TransferCase>> {
        fixed::transfers()
    }

    fn random(rng: &mut Rng) -> TransferCase {
        gen::transfer_case(rng)
    }

    fn library(case: &TransferCase) -> Answer {
        library::transfer(case)
    }
}
