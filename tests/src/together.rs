//! Taking the inputs of a transition together, as often as a marking allows.

use crate::net::{Kind, Refusal};
use crate::read::read;

#[derive(Clone, Copy, PartialEq, Eq, Debug)]
pub enum Together {
    /// The largest k with k × in(p,t) at most M(p) for every place.
    Times(u64),
    /// The transition has no inputs.
    Unlimited,
}

/// How often the inputs of a transition can be taken together from a marking; what is left of it goes to the first P entries.
pub fn together(plan: &[u8], transition: u32, marking: &[u64], rest: &mut [u64]) -> Result<Together, Refusal> {
    let net = read(plan, Some(Kind::Plan))?;
    if transition as usize >= net.transitions() {
        return Err(12);
    }
    if marking.len() != net.places() {
        return Err(15);
    }
    if rest.len() < net.places() {
        return Err(13);
    }
    let taken = net.inputs(transition as usize);
    let times = marking.iter().zip(&taken).filter(|(_, &taken)| taken > 0).map(|(held, taken)| held / taken).min();
    for (p, (held, taken)) in marking.iter().zip(&taken).enumerate() {
        rest[p] = held - times.unwrap_or(0) * taken;
    }
    Ok(times.map_or(Together::Unlimited, Together::Times))
}

#[cfg(test)]
mod tests {
    use super::*;
    use crate::cases::Case;
    use crate::gen;
    use crate::rng::Rng;

    /// The request's words: k fits on every place, k + 1 does not on some place, and each remainder is exact.
    #[test]
    fn it_is_the_largest_number_and_the_exact_remainder() {
        let (mut found, mut unlimited) = (0, 0);
        for seed in 0..20_000 {
            let case = gen::together_case(&mut Rng::new(seed));
            let number = case.second().number;
            if number != 0 && number != 100 {
                continue;
            }
            let (marking, mut rest) = (case.marking.part(), case.rest.clone());
            let answer = together(case.plan.part(), case.transition, marking, rest.part_mut());
            let net = read(case.plan.part(), Some(Kind::Plan)).unwrap();
            let taken = net.inputs(case.transition as usize);
            let fits = |k: u128| (0..net.places()).all(|p| k * u128::from(taken[p]) <= u128::from(marking[p]));
            let k = match answer {
                Ok(Together::Times(k)) => {
                    assert!(fits(k.into()) && !fits(u128::from(k) + 1), "seed {seed}: {k}");
                    found += 1;
                    k
                }
                _ => {
                    assert_eq!(answer, Ok(Together::Unlimited), "seed {seed}");
                    assert!(taken.iter().all(|&n| n == 0), "seed {seed}");
                    unlimited += 1;
                    0
                }
            };
            for (p, (&held, &left)) in marking.iter().zip(rest.part()).enumerate() {
                let sum = u128::from(left) + u128::from(k) * u128::from(taken[p]);
                assert_eq!(sum, u128::from(held), "seed {seed}, place {p}");
            }
        }
        assert!(found > 5_000 && unlimited > 500, "{found} found, {unlimited} unlimited");
    }
}
