//! The normal form of a plan: no note, edition 2, parallel arcs joined.

use crate::net::{Direction, Kind, Net, Refusal};
use crate::read::read;
use std::collections::BTreeMap;

/// Writes the normal form at the start of the lent bytes; its length.
pub fn normal(plan: &[u8], lent: &mut [u8]) -> Result<usize, Refusal> {
    let net = read(plan, Some(Kind::Plan))?;
    let file = normal_bytes(&net)?;
    if lent.len() < file.len() {
        return Err(13);
    }
    lent[..file.len()].copy_from_slice(&file);
    Ok(file.len())
}

/// in and out of each transition and place that an arc joins, in the order of arcs: transition, direction, place.
pub type Sums = BTreeMap<(u16, Direction, u16), u64>;

pub fn sums(net: &Net) -> Sums {
    let mut sums = Sums::new();
    for a in &net.arcs {
        *sums.entry((a.transition, a.direction, a.place)).or_insert(0) += u64::from(a.weight);
    }
    sums
}

/// The first pair in the order of arcs that is too heavy for one arc.
pub fn too_heavy(net: &Net) -> Option<((u16, Direction, u16), u64)> {
    sums(net).into_iter().find(|(_, sum)| *sum > 65_535)
}

fn normal_bytes(net: &Net) -> Result<Vec<u8>, Refusal> {
    if too_heavy(net).is_some() {
        return Err(25);
    }
    let sums = sums(net);
    let mut file = Vec::new();
    for (marking, cap) in net.marking.iter().zip(&net.caps) {
        file.extend([marking.to_le_bytes(), cap.to_le_bytes()].concat());
    }
    for ((transition, direction, place), sum) in &sums {
        let way = if *direction == Direction::In { 0u16 } else { 1 };
        for two in [*transition, way, *place, *sum as u16] {
            file.extend(two.to_le_bytes());
        }
    }
    let length = file.len() as u32;
    file.extend(length.to_le_bytes());
    for count in [net.places(), net.transitions(), sums.len()] {
        file.extend((count as u16).to_le_bytes());
    }
    file.extend(b"\x00\x02BELL");
    Ok(file)
}

/// Whether two nets have the same P, T, markings, caps, in and out.
pub fn same_net(one: &Net, other: &Net) -> bool {
    (one.places(), one.transitions()) == (other.places(), other.transitions())
        && (&one.marking, &one.caps) == (&other.marking, &other.caps)
        && sums(one) == sums(other)
}

#[cfg(test)]
mod tests {
    use super::*;
    use crate::gen;
    use crate::replay::fire_list;
    use crate::rng::Rng;

    /// The request's words, on two drawings: equal bytes exactly for the same net, the normal form of a normal form is itself, and
    /// every list fares alike.
    #[test]
    fn it_is_one_for_the_drawings_of_a_net() {
        let (mut same, mut other, mut redrawn) = (0, 0, 0);
        for seed in 0..10_000 {
            let mut rng = Rng::new(seed);
            let (first, second) = gen::drawn_twice(&mut rng);
            let nets = [&first, &second].map(|draft| gen::net_of(draft));
            let (Ok(one), Ok(two)) = (normal_bytes(&nets[0]), normal_bytes(&nets[1])) else { continue };
            let equal = same_net(&nets[0], &nets[1]);
            assert_eq!(one == two, equal, "seed {seed}");
            same += u64::from(equal);
            other += u64::from(!equal);
            redrawn += u64::from(equal && first.bytes() != second.bytes());
            let net = read(&one, Some(Kind::Plan)).expect("a plan");
            assert_eq!(normal_bytes(&net).as_ref(), Ok(&one), "seed {seed}");
            let list = gen::list_for(&mut rng, &nets[0]);
            assert_eq!(fire_list(&nets[0], &list), fire_list(&net, &list), "seed {seed}");
        }
        assert!(same > 2_000 && other > 1_000 && redrawn > 1_500, "{same} same, {other} other, {redrawn} redrawn");
    }
}
