//! Fixed cases of a transfer and of the calls from a lent marking (02, A12).

use super::*;
use crate::transfer::NO_PLACE;

fn transfer_case(old: &[u8], new: &[u8], running: &[u64], table: &[u16], len: usize) -> TransferCase {
    TransferCase { old: lent(old), new: lent(new), running: lent(running), table: lent(table), marking: buffer(len) }
}

/// Three places: waiting and free together, in the bay, left; caps of 3, none and 4.
fn new_plan() -> Draft {
    let a = DraftArc::new;
    Draft::plan(vec![1, 0, 0], 2, vec![a(0, 0, 0, 1), a(0, 1, 1, 1), a(1, 0, 1, 1), a(1, 1, 2, 1)])
}

pub fn transfers() -> Vec<Fixed<TransferCase>> {
    let mut list = Vec::new();
    const MOST: u64 = 4_294_967_295;
    const NONE: u16 = NO_PLACE;
    let (old, new) = (small_plan().bytes(), new_plan().bytes());
    let held = new_plan().with_caps(vec![3, 0, 4]).bytes();
    // Written into as many entries as there are places, and into more; into one less it is refused.
    let mut carried = |name: &str, old: &[u8], new: &[u8], running: &[u64], table: &[u16], sums: &[u64]| {
        for more in [0, 1, 7] {
            let len = sums.len() + more;
            let case = transfer_case(old, new, running, table, len);
            let mut one = fixed(format!("{name}, {more} entries more lent"), case, 0, [0; 0]);
            one.cells = Some(vec![Cells::Longs(after(len, sums))]);
            list.push(one);
        }
        if let Some(len) = sums.len().checked_sub(1) {
            let mut one =
                fixed(format!("{name}, {len} lent"), transfer_case(old, new, running, table, len), 13, [0; 0]);
            one.cells = Some(vec![Cells::Longs(buffer(len).cells)]);
            list.push(one);
        }
    };
    carried("two to one", &old, &new, &[0, 1, 1, 3, 0], &[0, 0, 1, 2, NONE], &[1, 1, 3]);
    carried("all to one", &old, &new, &[1, 2, 3, 4, 5], &[2; 5], &[0, 0, 15]);
    carried("none, and no tokens", &old, &new, &[0; 5], &[NONE; 5], &[0; 3]);
    carried("to itself", &old, &old, &[5, 6, 7, 8, 9], &[0, 1, 2, 3, 4], &[5, 6, 7, 8, 9]);
    carried("turned round", &new, &old, &[7, 8, 9], &[4, 3, 2], &[0, 0, 9, 8, 7]);
    carried("as much as can be", &old, &new, &[MOST - 1, 1, MOST, 0, 0], &[0, 0, 1, 2, NONE], &[MOST, MOST, 0]);
    carried("up to the caps", &old, &held, &[1, 2, MOST, 3, 1], &[0, 0, 1, 2, 2], &[3, MOST, 4]);
    // The old plan's own marking and caps play no part.
    let tight = small_plan().with_caps(vec![2, 1, 1, 1, 1]).bytes();
    carried("above the old caps", &tight, &new, &[9, 9, 9, 9, 0], &[0, 0, 1, 2, NONE], &[18, 9, 9]);
    let bare = Draft::plan(vec![], 1, vec![]).bytes();
    carried("from no place", &bare, &new, &[], &[], &[0; 3]);
    carried("to no place", &new, &bare, &[0; 3], &[NONE; 3], &[]);
    carried("from none to none", &bare, &bare, &[], &[], &[]);
    let wide = full_net().bytes();
    carried("1,024 to one", &wide, &new, &[4_194_303; 1_024], &[1; 1_024], &[0, 4_294_966_272, 0]);
    carried("1,024 to 1,024", &wide, &wide, &[MOST; 1_024], &(0..1_024).rev().collect::<Vec<u16>>(), &[MOST; 1_024]);

    let mut refused =
        |name: String, old: &[u8], new: &[u8], running: &[u64], table: &[u16], len: usize, number: u32| {
            let mut one = fixed(name, transfer_case(old, new, running, table, len), number, [0; 0]);
            one.cells = Some(vec![Cells::Longs(buffer(len).cells)]);
            list.push(one);
        };
    let table = [0, 0, 1, 2, NONE];
    refused("4 of the table".into(), &old, &new, &[0; 5], &table[..4], 3, 22);
    refused("6 of the table".into(), &old, &new, &[0; 5], &[0; 6], 3, 22);
    refused("4 tokens".into(), &old, &new, &[0; 4], &table, 3, 22);
    refused("6 tokens".into(), &old, &new, &[0; 6], &table, 3, 22);
    refused("both 4".into(), &old, &new, &[0; 4], &[0; 4], 3, 22);
    refused("both of the new plan".into(), &old, &new, &[0; 3], &[0; 3], 3, 22);
    refused("entry 3".into(), &old, &new, &[0; 5], &[0, 0, 1, 3, NONE], 3, 22);
    refused("entry 65,534, with no tokens".into(), &old, &new, &[0; 5], &[0, 0, 1, 2, 65_534], 3, 22);
    refused("22 before 23, the later entry".into(), &old, &new, &[1; 5], &[NONE, 0, 0, 0, 3], 0, 22);
    refused("entry 0 of no place".into(), &new, &bare, &[0; 3], &[0; 3], 0, 22);
    refused("a marked place with no target".into(), &old, &new, &[0, 0, 0, 0, 1], &table, 3, 23);
    refused("the largest with no target".into(), &old, &new, &[0, 0, 0, 0, u64::MAX], &table, 3, 23);
    refused("23 before 24, the later place".into(), &old, &new, &[u64::MAX, u64::MAX, 0, 0, 1], &table, 0, 23);
    refused("a token and no place".into(), &new, &bare, &[0, 0, 1], &[NONE; 3], 0, 23);
    refused("one too many".into(), &old, &new, &[MOST, 1, 0, 0, 0], &table, 3, 24);
    refused("2 to the 32 alone".into(), &old, &new, &[0, 0, 1 << 32, 0, 0], &table, 3, 24);
    refused("one above the cap".into(), &old, &held, &[2, 2, 0, 0, 0], &table, 3, 24);
    refused("one above the last cap".into(), &old, &held, &[0, 0, 0, 5, 0], &table, 3, 24);
    refused("above the cap of 3, by 2 to the 32".into(), &old, &held, &[1 << 32, 0, 0, 0, 0], &table, 3, 24);
    refused("a sum of 2 to the 64".into(), &old, &new, &[u64::MAX, 1, 0, 0, 0], &table, 3, 24);
    refused("a sum that would wrap to 3".into(), &old, &new, &[u64::MAX, 4, 0, 0, 0], &table, 3, 24);
    refused("twice the largest".into(), &old, &new, &[u64::MAX, u64::MAX, 0, 0, 0], &table, 3, 24);
    refused("1,024 of 2 to the 54".into(), &wide, &new, &[1 << 54; 1_024], &[1; 1_024], 3, 24);
    refused("1,024 of the largest".into(), &wide, &new, &[u64::MAX; 1_024], &[1; 1_024], 3, 24);
    refused("24 before the buffer".into(), &old, &new, &[MOST, 1, 0, 0, 0], &table, 0, 24);
    for (name, bad, number) in bad_plans() {
        refused(format!("old: {name}"), &bad, &new, &[], &[9], 0, number);
        refused(format!("new: {name}"), &old, &bad, &[], &[9], 0, number);
        refused(format!("old before new: {name}"), &bad, &[], &[], &[], 0, number);
    }
    let mut null = transfer_case(&bare, &bare, &[], &[], 0);
    (null.running.null, null.table.null, null.marking.null) = (true, true, true);
    list.push(fixed("no places, null pointers", null.clone(), 0, [0; 0]));
    null.old = Lent { null: true, ..lent([]) };
    list.push(fixed("null plan", null, 1, [0; 0]));
    list
}

/// A file's own marking; empty where it is refused.
fn own(file: &[u8]) -> Vec<u64> {
    read(file, None).map_or(Vec::new(), |net| net.marking.iter().map(|&m| u64::from(m)).collect())
}

/// From the file's own marking each call is the plain one: the plain call's cases, with that start.
fn as_plain<P: Case, C>(plain: Vec<Fixed<P>>, with_own: fn(P) -> C) -> Vec<Fixed<C>> {
    let own = |one: Fixed<P>| Fixed {
        name: format!("from its own: {}", one.name),
        case: with_own(one.case),
        number: one.number,
        outs: one.outs,
        cells: one.cells,
    };
    plain.into_iter().map(own).collect()
}

/// Starts that are refused for the kerb, and for the kerb with a cap of 1 on place 3.
fn bad_starts() -> Vec<(&'static str, bool, Vec<u64>, u32)> {
    vec![
        ("no entries", false, vec![], 22),
        ("4 entries", false, vec![2, 1, 0, 0], 22),
        ("6 entries", false, vec![2, 1, 0, 0, 0, 0], 22),
        ("4 entries, too many tokens", false, vec![u64::MAX; 4], 22),
        ("2 to the 32", false, vec![0, 0, 0, 0, 1 << 32], 24),
        ("2 to the 32 at first", false, vec![1 << 32, 0, 0, 0, 0], 24),
        ("2 to the 64 less 1", false, vec![2, u64::MAX, 0, 0, 0], 24),
        ("one above the cap", true, vec![2, 1, 0, 2, 0], 24),
        ("far above the cap", true, vec![2, 1, 0, u64::MAX, 0], 24),
        ("2 to the 32 above the cap", true, vec![2, 1, 0, 1 << 32, 0], 24),
    ]
}

fn capped_kerb() -> Vec<u8> {
    small_plan().with_caps(vec![0, 0, 0, 1, 0]).bytes()
}

pub fn replays_from() -> Vec<Fixed<ReplayFromCase>> {
    let mut list = as_plain(replays(), |plain| ReplayFromCase { start: lent(own(plain.file.part())), plain });
    let case = |file: &[u8], start: &[u64], numbers: &[u16], len: usize| ReplayFromCase {
        start: lent(start),
        plain: ReplayCase { file: lent(file), list: lent(numbers), marking: buffer(len) },
    };
    let mut fired =
        |name: &str, file: &[u8], start: &[u64], numbers: &[u16], stop: (u32, [i64; 3]), marking: &[u64]| {
            let len = start.len() + 1;
            let mut one = fixed(name, case(file, start, numbers, len), stop.0, stop.1);
            one.cells = Some(vec![Cells::Longs(after(len, marking))]);
            list.push(one);
        };
    const FIRED: (u32, [i64; 3]) = (0, [0; 3]);
    const MOST: u64 = 4_294_967_295;
    let (kerb, capped) = (small_plan().bytes(), capped_kerb());
    fired("from five that left", &kerb, &[0, 0, 0, 5, 0], &[2], FIRED, &[0, 0, 0, 3, 1]);
    fired("from one that left", &kerb, &[0, 0, 0, 1, 0], &[2], (100, [0, 3, 1]), &[0, 0, 0, 1, 0]);
    fired("from nothing", &kerb, &[0; 5], &[0], (100, [0, 0, 1]), &[0; 5]);
    fired("later it sticks", &kerb, &[2, 1, 0, 1, 0], &[0, 1, 2, 2], (100, [3, 3, 2]), &[1, 1, 0, 0, 1]);
    fired("from all that can be", &kerb, &[MOST; 5], &[0], FIRED, &[MOST - 1, MOST - 1, MOST + 1, MOST, MOST]);
    fired("no firing", &kerb, &[0, 0, 0, 0, 9], &[], FIRED, &[0, 0, 0, 0, 9]);
    fired("at the cap", &capped, &[0, 0, 1, 1, 0], &[1], (101, [0, 3, 1]), &[0, 0, 1, 1, 0]);
    fired("below the cap", &capped, &[0, 0, 1, 0, 0], &[1], FIRED, &[0, 1, 0, 1, 0]);
    let most = several(&[], &[1], 0).with_caps(vec![u32::MAX]).bytes();
    fired("at the largest cap", &most, &[MOST], &[0], (101, [0, 0, 1]), &[MOST]);
    fired("one below it", &most, &[MOST - 1], &[0, 0], (101, [1, 0, 1]), &[MOST]);
    let slice = small_safety().bytes();
    fired("a slice", &slice, &[1, 1, 0], &[0, 1], FIRED, &[0, 1, 0]);
    let mut refused = |name: String, file: &[u8], start: &[u64], numbers: &[u16], len: usize, number: u32| {
        let mut one = fixed(name, case(file, start, numbers, len), number, [0; 3]);
        one.cells = Some(vec![Cells::Longs(buffer(len).cells)]);
        list.push(one);
    };
    for (name, cap, start, number) in bad_starts() {
        let file = if cap { &capped } else { &kerb };
        refused(name.into(), file, &start, &[0], 5, number);
        refused(format!("{name}, before the list"), file, &start, &[9; 65_536], 0, number);
    }
    refused("the plan's start for a slice".into(), &slice, &[2, 1, 0, 0, 0], &[0], 5, 22);
    refused("the list after the start".into(), &kerb, &[0; 5], &[0, 4], 0, 12);
    refused("a long list after the start".into(), &kerb, &[0; 5], &[9; 65_536], 0, 11);
    refused("4 entries lent".into(), &kerb, &[0; 5], &[0], 4, 13);
    for (name, bad, number) in bad_of_either() {
        refused(format!("before the start: {name}"), &bad, &[u64::MAX; 9], &[9], 0, number);
    }
    list
}

pub fn cuts_from(which: Cut) -> Vec<Fixed<CutFromCase>> {
    let mut list = as_plain(cuts(which), |plain| CutFromCase { start: lent(own(plain.plan.part())), plain });
    let case = |plan: &[u8], start: &[u64], q: &[u16], len: usize| CutFromCase {
        start: lent(start),
        plain: CutCase { which, plan: lent(plan), q: lent(q), slice: buffer(len) },
    };
    let kerb = small_plan().bytes();
    let by_hand = if which == Cut::Safety { small_safety() } else { small_branching() };
    for start in [[0; 5], [4_294_967_295; 5], [7, 8, 9, 10, 11]] {
        // The same sets, and the start's tokens on their places.
        let slice = changed(&by_hand, |d| d.marking = start[..3].iter().map(|&m| m as u32).collect());
        for more in [0, 9] {
            let len = slice.len() + more;
            let outs = [slice.len() as i64, 3, by_hand.transition_origins.len() as i64];
            let mut one =
                fixed(format!("kerb from {start:?}, {more} bytes more"), case(&kerb, &start, &[2], len), 0, outs);
            one.cells = Some(vec![Cells::Bytes(after(len, &slice))]);
            list.push(one);
        }
        list.push(fixed(
            format!("kerb from {start:?}, a byte short"),
            case(&kerb, &start, &[2], slice.len() - 1),
            13,
            [0; 3],
        ));
    }
    let mut none = fixed("for no place", case(&kerb, &[9; 5], &[], 20), 0, [16, 0, 0]);
    none.cells = Some(vec![Cells::Bytes(after(20, &empty_slice()))]);
    list.push(none);
    let capped = capped_kerb();
    let mut refused = |name: String, plan: &[u8], start: &[u64], q: &[u16], number: u32| {
        let mut one = fixed(name, case(plan, start, q, 9), number, [0; 3]);
        one.cells = Some(vec![Cells::Bytes(buffer(9).cells)]);
        list.push(one);
    };
    for (name, cap, start, number) in bad_starts() {
        let plan = if cap { &capped } else { &kerb };
        refused(name.into(), plan, &start, &[2], number);
        refused(format!("{name}, before the criterion"), plan, &start, &[9], number);
    }
    refused("the criterion after the start".into(), &kerb, &[0; 5], &[2, 2], 10);
    refused("the criterion before the buffer".into(), &kerb, &[0; 5], &[5], 10);
    for (name, bad, number) in bad_plans() {
        refused(format!("before the start: {name}"), &bad, &[u64::MAX; 9], &[9], number);
    }
    list
}

pub fn verdicts_from() -> Vec<Fixed<VerdictFromCase>> {
    let mut list = as_plain(verdicts(), |plain| VerdictFromCase { start: lent(own(plain.plan.part())), plain });
    let mut add = |name: &str, plan: &[u8], slice: &[u8], start: &[u64], q: &[u16], number: u32, breaking: i64| {
        let plain = VerdictCase { plan: lent(plan), slice: lent(slice), q: lent(q) };
        list.push(fixed(name, VerdictFromCase { start: lent(start), plain }, number, [breaking]));
    };
    let (kerb, slice, capped) = (small_plan().bytes(), small_safety().bytes(), capped_kerb());
    let marked = |tokens: [u32; 3]| changed(&small_safety(), |d| d.marking = tokens.to_vec());
    add("the start's tokens", &kerb, &marked([7, 8, 9]), &[7, 8, 9, 4, 4], &[2], 0, 0);
    add("tokens on places left out do not count", &kerb, &marked([7, 8, 9]), &[7, 8, 9, 0, 1], &[2], 0, 0);
    add("the plan's own tokens, from another start", &kerb, &slice, &[7, 1, 0, 0, 0], &[2], 103, 0);
    add("the start's tokens but one", &kerb, &marked([7, 8, 9]), &[7, 8, 8, 0, 0], &[2], 103, 2);
    add("the largest", &kerb, &marked([u32::MAX; 3]), &[4_294_967_295; 5], &[2], 0, 0);
    add("the plan's own, another for the second", &kerb, &slice, &[2, 2, 0, 0, 0], &[2], 103, 1);
    let other_cap = changed(&small_safety_for_3().with_caps(vec![0, 0, 0, 2]), |d| d.marking[3] = 1);
    add("another cap, the start's tokens", &capped, &other_cap, &[2, 1, 0, 1, 0], &[3], 103, 3);
    add("rule 1 before rule 3", &kerb, &changed(&small_safety(), |d| d.place_origins[2] = 5), &[9; 5], &[2], 101, 2);
    add("rule 3 before rule 5", &kerb, &slice, &[9; 5], &[3], 103, 0);
    add("rule 5 after rule 3", &kerb, &slice, &[2, 1, 0, 9, 9], &[3], 105, 3);
    add("the empty slice, for no place", &kerb, &empty_slice(), &[9; 5], &[], 0, 0);
    for (name, cap, start, number) in bad_starts() {
        let plan = if cap { &capped } else { &kerb };
        add(name, plan, &slice, &start, &[2], number, 0);
        add(&format!("{name}, before the criterion"), plan, &slice, &start, &[9], number, 0);
        add(&format!("{name}, after the slice"), plan, &[], &start, &[2], 1, 0);
    }
    add("as many entries as the slice has places", &kerb, &slice, &[2, 1, 0], &[2], 22, 0);
    add("the criterion after the start", &kerb, &slice, &[9; 5], &[5], 10, 0);
    for (name, bad, number) in bad_plans() {
        add(&format!("before the start: {name}"), &bad, &slice, &[u64::MAX; 9], &[9], number, 0);
    }
    for (name, bad, number) in bad_slices() {
        add(&format!("slice before the start: {name}"), &kerb, &bad, &[u64::MAX; 9], &[9], number, 0);
    }
    list
}
