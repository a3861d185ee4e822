//! Fixed cases of a range (02, A11).

use super::*;

fn case(plan: &[u8], list: &[u16], upper: &[u32], len: usize) -> RangeCase {
    RangeCase { plan: lent(plan), list: lent(list), upper: lent(upper), need: buffer(len) }
}

pub fn ranges() -> Vec<Fixed<RangeCase>> {
    let mut list = Vec::new();
    const MOST: u32 = u32::MAX;
    const EVERY: u32 = 0;
    const SOME: u32 = 100;
    const NONE: u32 = 101;
    // Written into as many entries as there are places, and into more.
    let mut answered = |name: &str, plan: &[u8], numbers: &[u16], upper: &[u32], number: u32, need: &[u64]| {
        for more in [0, 1, 7] {
            let len = upper.len() + more;
            let case = case(plan, numbers, upper, len);
            let mut one = fixed(format!("{name}, {more} entries more lent"), case, number, [0; 0]);
            one.cells = Some(vec![Cells::Longs(after(len, need))]);
            list.push(one);
        }
    };
    let small = small_plan().bytes();
    let own = [2, 1, 0, 0, 0];
    answered("kerb, the plan's own", &small, &[0, 1, 0, 1, 2], &own, EVERY, &[2, 1, 0, 0, 0]);
    answered("kerb, a wide range above it", &small, &[0, 1, 0, 1, 2], &[MOST; 5], EVERY, &[2, 1, 0, 0, 0]);
    answered("kerb, just enough at the upper end", &small, &[0, 1, 0, 1, 0], &[3, 1, 0, 0, 0], SOME, &[3, 1, 0, 0, 0]);
    answered("kerb, one short at the upper end", &small, &[0, 1, 0, 1, 0], &own, NONE, &[3, 1, 0, 0, 0]);
    answered("kerb, other places do not help", &small, &[0, 0], &[MOST, 1, MOST, MOST, MOST], NONE, &[2, 2, 0, 0, 0]);
    answered("kerb, far above", &small, &[0, 0, 0], &[MOST; 5], SOME, &[3, 3, 0, 0, 0]);
    answered("kerb, 2", &small, &[2], &[2, 1, 0, 1, 0], NONE, &[0, 0, 0, 2, 0]);
    answered("kerb, 2 from two", &small, &[2], &[2, 1, 0, 2, 0], SOME, &[0, 0, 0, 2, 0]);
    answered("kerb, what is added serves later firings", &small, &[1, 1, 2], &[MOST; 5], SOME, &[0, 0, 2, 0, 0]);
    answered("kerb, and not earlier ones", &small, &[2, 1, 1], &[MOST; 5], SOME, &[0, 0, 2, 2, 0]);
    answered("kerb, no firing", &small, &[], &own, EVERY, &[0; 5]);
    answered("no places", &Draft::plan(vec![], 2, vec![]).bytes(), &[1, 0, 1], &[], EVERY, &[]);
    // A reader and a loop need their inputs; what they give back counts after.
    answered("a reader", &loop_net(3, 3, 2), &[0, 0], &[3], SOME, &[3]);
    answered("a loop that loses two", &loop_net(3, 1, 2), &[0, 0, 0], &[7], SOME, &[7]);
    answered("a loop that loses two, one short", &loop_net(3, 1, 2), &[0, 0, 0], &[6], NONE, &[7]);
    answered("a loop that gains two", &loop_net(1, 3, 0), &[0, 0, 0], &[1], SOME, &[1]);
    answered("parallel arcs, by their sum", &several(&[1, 2, 1], &[3], 3).bytes(), &[0, 0], &[5], SOME, &[5]);
    answered("parallel arcs, one short", &several(&[1, 2, 1], &[3], 3).bytes(), &[0, 0], &[4], NONE, &[5]);
    // Two places: each end decides alone.
    let a = DraftArc::new;
    let two = Draft::plan(vec![1, 0], 1, vec![a(0, 0, 0, 2), a(0, 0, 1, 3)]).bytes();
    for (upper, number) in [([1, 3], NONE), ([2, 2], NONE), ([2, 3], SOME), ([9, 9], SOME), ([MOST, 2], NONE)] {
        answered(&format!("two places up to {upper:?}"), &two, &[0], &upper, number, &[2, 3]);
    }
    // As much as there can be: 65,535 firings of 4,096 arcs of 65,535 each.
    let heaviest = several(&[65_535; 4_096], &[], MOST).bytes();
    answered("the heaviest, once", &heaviest, &[0], &[MOST], EVERY, &[268_431_360]);
    answered("the heaviest, 16 times", &heaviest, &[0; 16], &[MOST], EVERY, &[4_294_901_760]);
    answered("the heaviest, 17 times", &heaviest, &[0; 17], &[MOST], NONE, &[4_563_333_120]);
    let one = several(&[1], &[], 0).bytes();
    answered("65,535 of 1", &one, &[0; 65_535], &[65_535], SOME, &[65_535]);
    answered("65,535 of 1, one short", &one, &[0; 65_535], &[65_534], NONE, &[65_535]);
    let most = Draft::plan(vec![MOST], 1, vec![a(0, 0, 0, 1)]).bytes();
    answered("the largest marking", &most, &[0], &[MOST], EVERY, &[1]);
    answered("from 0 to the largest", &one, &[0], &[MOST], SOME, &[1]);
    let wide = full_net().bytes();
    let mut of_two = vec![0; 1_024];
    (of_two[4], of_two[5]) = (65_535, 65_535);
    answered("full net", &wide, &[4, 4], &[MOST; 1_024], EVERY, &of_two);
    // Edition 2 without a cap is as edition 1.
    let second = small_plan().with_caps(vec![]).bytes();
    answered("kerb in edition 2", &second, &[0, 0], &[2, 2, 0, 0, 0], SOME, &[2, 2, 0, 0, 0]);

    let mut most_needed = fixed("the heaviest, 65,535 times", case(&heaviest, &[0; 65_535], &[MOST], 1), NONE, [0; 0]);
    most_needed.cells = Some(vec![Cells::Longs(after(1, &[17_591_649_177_600]))]);
    list.push(most_needed);
    let mut refused = |name: String, plan: &[u8], numbers: &[u16], upper: &[u32], len: usize, number: u32| {
        let mut one = fixed(name, case(plan, numbers, upper, len), number, [0; 0]);
        one.cells = Some(vec![Cells::Longs(buffer(len).cells)]);
        list.push(one);
    };
    refused("65,536 firings".into(), &small, &[3; 65_536], &own, 5, 11);
    refused("65,536 unknown firings".into(), &small, &[9; 65_536], &[], 0, 11);
    refused("transition 4".into(), &small, &[0, 4], &own, 5, 12);
    refused("transition 65,535, a short upper list".into(), &small, &[65_535], &[1], 0, 12);
    refused("4 entries".into(), &small, &[0], &own[..4], 5, 21);
    refused("6 entries".into(), &small, &[0], &[2, 1, 0, 0, 0, 0], 5, 21);
    refused("no entries".into(), &small, &[0], &[], 0, 21);
    refused("one below at the first place".into(), &small, &[0], &[1, 1, 0, 0, 0], 5, 21);
    refused("one below at the second".into(), &small, &[], &[MOST, 0, MOST, MOST, MOST], 0, 21);
    refused("below the largest".into(), &most, &[0], &[MOST - 1], 1, 21);
    refused("4 entries lent".into(), &small, &[0], &own, 4, 13);
    refused("no entries lent".into(), &small, &[2], &own, 0, 13);
    let capped = small_plan().with_caps(vec![0, 0, 0, 0, 1]).bytes();
    refused("a cap".into(), &capped, &[0], &own, 5, 17);
    refused("a cap before the list".into(), &capped, &[9; 65_536], &[], 0, 17);
    for (name, bad, number) in bad_plans() {
        refused(name, &bad, &[9], &[], 0, number);
    }
    let mut null = case(&small, &[], &[], 0);
    (null.list.null, null.upper.null, null.need.null) = (true, true, true);
    list.push(fixed("null list and upper list", null.clone(), 21, [0; 0]));
    null.plan = Lent { null: true, ..lent([]) };
    list.push(fixed("null plan", null, 1, [0; 0]));
    let mut none = case(&Draft::plan(vec![], 1, vec![]).bytes(), &[], &[], 0);
    (none.list.null, none.upper.null, none.need.null) = (true, true, true);
    list.push(fixed("no places, null pointers", none, 0, [0; 0]));
    list
}
