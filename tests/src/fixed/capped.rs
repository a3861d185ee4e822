//! Edition 2 and caps (02, A9): fixed cases of each call, put down by hand.

use super::*;

const MOST: u32 = u32::MAX;

/// The kerb in edition 2, with a cap of 1 on place 3.
pub fn capped_plan() -> Draft {
    small_plan().with_caps(vec![0, 0, 0, 1, 0])
}

/// Its safety cut for {2}: transition 1 adds to place 3, which is capped, and transition 2 lowers that.
pub fn capped_safety() -> Draft {
    small_safety_for_3().with_caps(vec![0, 0, 0, 1])
}

/// Its branching cut for {2}: transition 3 lowers place 0.
pub fn capped_branching() -> Draft {
    let mut draft = capped_safety();
    draft.arcs.push(DraftArc::new(3, 0, 0, 1));
    draft.transition_origins.push(3);
    draft.count();
    draft
}

/// The kerb with these caps.
fn kerb(caps: [u32; 5]) -> Draft {
    small_plan().with_caps(caps.to_vec())
}

/// One place with a cap, one transition, and arcs of these weights from the place and to it.
fn one(ins: &[u16], outs: &[u16], tokens: u32, cap: u32) -> Draft {
    several(ins, outs, tokens).with_caps(vec![cap])
}

/// The empty slice of edition 2.
pub fn empty_slice_2() -> Vec<u8> {
    from_hex("00000000 0000 0000 0000 01 02 42454C4C")
}

/// One place with 3 tokens and a cap of 5, and its cut.
pub fn one_place_plan_2() -> Vec<u8> {
    from_hex("03000000 05000000 08000000 0100 0000 0000 00 02 42454C4C")
}

pub fn one_place_slice_2() -> Vec<u8> {
    from_hex("03000000 05000000 0000 0A000000 0100 0000 0000 01 02 42454C4C")
}

fn draft_of(file: &[u8]) -> Draft {
    Draft::of(&read(file, None).expect("a good file"))
}

/// All counts at their limits, and every cut for a place keeps all: transition t takes 1 from places t and t + 1, round a
/// ring, and adds 2 to each.
pub fn ring() -> Draft {
    let mut arcs = Vec::new();
    for t in 0..1_024 {
        let other = (t + 1) % 1_024;
        for direction in 0..2 {
            for p in [t.min(other), t.max(other)] {
                arcs.push(DraftArc::new(t, direction, p, 1 + u16::from(direction)));
            }
        }
    }
    Draft::plan(vec![1; 1_024], 1_024, arcs).with_caps(Vec::new())
}

/// Good files of edition 2.
pub fn good_files() -> Vec<(Vec<u8>, bool)> {
    let held = |tokens, cap| one(&[1], &[1], tokens, cap);
    let plans = [
        one_place_plan_2(),
        capped_plan().bytes(),
        kerb([0; 5]).bytes(),
        // At the cap, and any marking where there is none.
        kerb([2, 1, 0, 0, 0]).bytes(),
        held(1, 1).bytes(),
        held(MOST, MOST).bytes(),
        held(0, MOST).bytes(),
        held(MOST, 0).bytes(),
        // Below it by the highest byte alone.
        held(0xFF_FFFF, 0x0100_0000).bytes(),
        Draft::plan(vec![], 1, vec![]).with_caps(vec![]).bytes(),
        full_net().with_caps(vec![MOST; 1_024]).bytes(),
        counted(&capped_plan(), |d| d.note = vec![7; 65_536 - 128]),
    ];
    let slices = [
        one_place_slice_2(),
        empty_slice_2(),
        capped_safety().bytes(),
        capped_branching().bytes(),
        small_safety().with_caps(vec![]).bytes(),
        full_net().with_caps(vec![MOST; 1_024]).into_slice((0..1_024).collect(), (0..1_024).collect()).bytes(),
    ];
    plans.map(|file| (file, false)).into_iter().chain(slices.map(|file| (file, true))).collect()
}

/// Damaged files of edition 2 that every call refuses with this number.
pub fn bad_files(slice: bool) -> Vec<(String, Vec<u8>, u32)> {
    let (good, small) = if slice { (capped_safety(), small_safety()) } else { (capped_plan(), small_plan()) };
    let (p, a) = (good.places, good.arc_count);
    let bytes = good.bytes();
    let last = usize::from(p) - 1;
    // So many tokens and such a cap on place 3, and more.
    let held = |tokens: u32, cap: u32, change: &dyn Fn(&mut Draft)| {
        changed(&good, |d| {
            (d.marking[3], d.caps[3]) = (tokens, cap);
            change(d);
        })
    };
    let above = |change: &dyn Fn(&mut Draft)| held(2, 1, change);
    let at = |place: usize, tokens: u32, cap: u32| {
        changed(&good, |d| {
            d.caps = vec![0; usize::from(p)];
            (d.marking[place], d.caps[place]) = (tokens, cap);
        })
    };
    let mut files: Vec<(&str, Vec<u8>, u32)> = vec![
        ("edition 0", changed(&good, |d| d.edition = 0), 2),
        ("edition 3", changed(&good, |d| d.edition = 3), 2),
        ("edition 255", changed(&good, |d| d.edition = 255), 2),
        ("edition 3, places of 4 bytes", changed(&small, |d| d.edition = 3), 2),
        ("edition 2, first letter", changed(&good, |d| d.letters[0] = b'b'), 2),
        ("edition 2, kind 2", changed(&good, |d| d.kind = 2), 3),
        ("edition 2, P 1,025", changed(&good, |d| d.places = 1_025), 4),
        ("edition 2, places of 4 bytes", changed(&small, |d| d.edition = 2), 5),
        ("edition 1, places of 8 bytes", changed(&good, |d| d.edition = 1), 5),
        ("edition 2, the length of edition 1", changed(&good, |d| d.body_length -= 4 * u32::from(p)), 5),
        ("edition 1, the length of edition 2", changed(&small, |d| d.body_length += 4 * u32::from(small.places)), 5),
        ("edition 2, length one more", changed(&good, |d| d.body_length += 1), 5),
        ("edition 2, length with bit 16", changed(&good, |d| d.body_length += 65_536), 5),
        ("edition 2, P one more", changed(&good, |d| d.places = p + 1), 5),
        ("edition 2, P one less", changed(&good, |d| d.places = p - 1), 5),
        ("edition 2, A one more", changed(&good, |d| d.arc_count = a + 1), 5),
        ("edition 2, front byte lost", bytes[1..].to_vec(), 5),
        ("edition 2, four bytes lost", bytes[4..].to_vec(), 5),
        ("2 tokens on a cap of 1", above(&|_| ()), 16),
        ("256 tokens on a cap of 1", held(256, 1, &|_| ()), 16),
        ("256 tokens on a cap of 255", held(256, 255, &|_| ()), 16),
        ("more by the highest byte alone", held(0x0100_0000, 0xFF_FFFF, &|_| ()), 16),
        ("2^32 - 1 tokens on a cap of 1", held(MOST, 1, &|_| ()), 16),
        ("2^32 - 1 tokens on a cap of one less", held(MOST, MOST - 1, &|_| ()), 16),
        ("2^31 tokens on a cap of one less", held(1 << 31, (1 << 31) - 1, &|_| ()), 16),
        ("the first place above its cap", at(0, 2, 1), 16),
        ("the last place above its cap", at(last, 2, 1), 16),
        (
            "every place above its cap",
            changed(&good, |d| (d.marking, d.caps) = (vec![9; last + 1], vec![8; last + 1])),
            16,
        ),
        ("length before cap", above(&|d| d.body_length += 1), 5),
        ("counts before cap", above(&|d| d.places = 1_025), 4),
        ("kind before cap", above(&|d| d.kind = 2), 3),
        ("edition before cap", above(&|d| d.edition = 3), 2),
        ("letters before cap", above(&|d| d.letters[3] = b'M'), 2),
        ("cap before arcs", above(&|d| d.arcs[0].weight = 0), 16),
        ("cap before the order of arcs", above(&|d| d.arcs.swap(0, 1)), 16),
        (
            "the last cap before the first arc",
            changed(&good, |d| {
                d.caps = vec![0; last + 1];
                (d.marking[last], d.caps[last], d.arcs[0].zero) = (2, 1, 1);
            }),
            16,
        ),
        ("edition 2, weight 0", changed(&good, |d| d.arcs[3].weight = 0), 6),
        ("edition 2, place P", changed(&good, |d| d.arcs[1].place = p), 6),
        ("edition 2, arcs swapped", changed(&good, |d| d.arcs.swap(0, 1)), 7),
    ];
    if slice {
        files.extend([
            ("cap before origins", above(&|d| d.place_origins.swap(0, 1)), 16),
            ("edition 2, place origins equal", changed(&good, |d| d.place_origins[2] = 1), 8),
            ("edition 2, transition origins falling", changed(&good, |d| d.transition_origins.swap(0, 1)), 8),
            ("edition 2, a plan's length", changed(&good, |d| d.body_length = 8 * u32::from(p) + 8 * u32::from(a)), 5),
        ]);
    } else {
        files.push(("edition 2, P and T 0", Draft::plan(vec![], 0, vec![]).with_caps(vec![]).bytes(), 4));
    }
    files.into_iter().map(|(name, bytes, number)| (name.into(), bytes, number)).collect()
}

/// Files of the other kind that break 16 besides.
pub fn other_kind(slice: bool) -> Vec<(String, Vec<u8>, u32)> {
    let (good, empty) = if slice { (capped_plan(), None) } else { (capped_safety(), Some(empty_slice_2())) };
    let above = changed(&good, |d| d.marking[3] = 2);
    let mut files =
        vec![("the other kind, edition 2".into(), good.bytes(), 3), ("kind due before cap".into(), above, 3)];
    files.extend(empty.map(|file| ("the empty slice of edition 2".into(), file, 3)));
    files
}

pub fn effects() -> Vec<Fixed<EffectCase>> {
    let case = |file: &[u8], place, transition| EffectCase { file: lent(file), place, transition };
    let (plan, slice) = (capped_plan().bytes(), capped_safety().bytes());
    let mut list = vec![
        fixed("capped kerb, effect of 2 on 3", case(&plan, 3, 2), 0, [-2]),
        fixed("capped kerb, effect of 1 on 3", case(&plan, 3, 1), 0, [1]),
        fixed("capped kerb, effect of 1 on 0", case(&plan, 0, 1), 0, [0]),
        fixed("its slice, effect of 2 on 3", case(&slice, 3, 2), 0, [-2]),
        fixed("capped kerb, place 5", case(&plan, 5, 0), 10, [0]),
        fixed("capped kerb, transition 4", case(&plan, 0, 4), 12, [0]),
        fixed("its slice, transition 3", case(&slice, 0, 3), 12, [0]),
    ];
    // The effect does not know of caps.
    let spring = one(&[], &[65_535; 4_096], 1, 1).bytes();
    list.push(fixed("the highest effect on a place at its cap", case(&spring, 0, 0), 0, [268_431_360]));
    list.push(fixed("the empty slice of edition 2", case(&empty_slice_2(), 0, 0), 10, [0]));
    list
}

pub fn arc_runs() -> Vec<Fixed<ArcsCase>> {
    let case = arcs_case;
    let (plan, slice) = (capped_plan().bytes(), capped_safety().bytes());
    // Length and start: the kerb's arcs start at 40, those of its slice at 32.
    let runs = [
        (false, 0, 24, 40),
        (false, 1, 24, 64),
        (false, 2, 16, 88),
        (false, 3, 8, 104),
        (false, 4, 0, 0),
        (true, 0, 24, 32),
        (true, 1, 24, 56),
        (true, 2, 8, 80),
        (true, 3, 0, 0),
    ];
    let mut list = Vec::new();
    for (of_slice, t, length, start) in runs {
        let which = if of_slice { "slice" } else { "kerb" };
        list.push(fixed(format!("capped {which}, transition {t}"), case(&plan, &slice, of_slice, t), length, [start]));
    }
    let (plan_1, slice_1) = (small_plan().bytes(), small_safety().bytes());
    list.push(fixed("plan of edition 1", case(&plan_1, &slice, false, 1), 24, [44]));
    list.push(fixed("beside a plan of edition 1", case(&plan_1, &slice, true, 1), 24, [56]));
    list.push(fixed("slice of edition 1", case(&plan, &slice_1, true, 1), 16, [36]));
    list.push(fixed("beside a slice of edition 1", case(&plan, &slice_1, false, 1), 24, [64]));
    list
}

pub fn replays() -> Vec<Fixed<ReplayCase>> {
    let mut list = Vec::new();
    type Stuck = Option<(u32, i64, i64, i64)>;
    let mut add = |name: &str, file: &Draft, numbers: &[u16], stuck: Stuck, marking: &[u64]| {
        for more in [0, 1, 4] {
            let len = marking.len() + more;
            let case = ReplayCase { file: lent(file.bytes()), list: lent(numbers), marking: buffer(len) };
            let (number, index, place, amount) = stuck.unwrap_or((0, 0, 0, 0));
            let mut one = fixed(format!("{name}, {more} entries more lent"), case, number, [index, place, amount]);
            one.cells = Some(vec![Cells::Longs(after(len, marking))]);
            list.push(one);
        }
    };
    let short = |index, place, amount| Some((100, index, place, amount));
    let full = |index, place, amount| Some((101, index, place, amount));
    let (plan, slice) = (capped_plan(), capped_safety());
    add("capped kerb, 0,1,0,1", &plan, &[0, 1, 0, 1], full(3, 3, 1), &[0, 0, 1, 1, 0]);
    add("capped kerb, 0,1,0,1,2", &plan, &[0, 1, 0, 1, 2], full(3, 3, 1), &[0, 0, 1, 1, 0]);
    add("capped kerb, 0,1,0", &plan, &[0, 1, 0], None, &[0, 0, 1, 1, 0]);
    add("capped kerb, 0,1,2", &plan, &[0, 1, 2], short(2, 3, 1), &[1, 1, 0, 1, 0]);
    add("capped kerb, no list", &plan, &[], None, &[2, 1, 0, 0, 0]);
    add("its slice, 0,1,0,1", &slice, &[0, 1, 0, 1], full(3, 3, 1), &[0, 0, 1, 1]);
    add("its slice, 0,1,0", &slice, &[0, 1, 0], None, &[0, 0, 1, 1]);
    add("a cap of 2 is reached, not passed", &kerb([0, 0, 0, 2, 0]), &[0, 1, 0, 1, 2], None, &[0, 1, 0, 0, 1]);
    add("edition 2 without caps", &kerb([0; 5]), &[0, 1, 0, 1, 2], None, &[0, 1, 0, 0, 1]);
    add("a cap on a place that is never raised", &kerb([2, 0, 0, 0, 0]), &[3, 0, 1], None, &[0, 1, 0, 1, 0]);
    add("two caps, the lower one is passed", &kerb([0, 0, 1, 1, 0]), &[0, 1, 0, 1], full(3, 3, 1), &[0, 0, 1, 1, 0]);
    add("bay free again is at its cap", &kerb([0, 1, 0, 0, 0]), &[0, 1, 0, 1], None, &[0, 1, 0, 2, 0]);

    // A self loop counts by its effect.
    add("loop, one above", &one(&[1], &[3], 3, 4), &[0], full(0, 0, 1), &[3]);
    add("loop, two above", &one(&[1], &[3], 4, 4), &[0], full(0, 0, 2), &[4]);
    add("loop, at the cap after", &one(&[1], &[3], 3, 5), &[0], None, &[5]);
    add("loop, the second time", &one(&[1], &[3], 3, 5), &[0, 0], full(1, 0, 2), &[5]);
    add("reader at the cap", &one(&[2], &[2], 3, 3), &[0, 0, 0], None, &[3]);
    add("reader of all at the cap", &one(&[3], &[3], 3, 3), &[0], None, &[3]);
    add("lowered at the cap", &one(&[3], &[1], 3, 3), &[0], None, &[1]);
    add("short and above the cap", &one(&[4], &[9], 3, 3), &[0], short(0, 0, 1), &[3]);
    // Parallel arcs count together.
    add("each alone would do", &one(&[], &[2, 2], 0, 3), &[0], full(0, 0, 1), &[0]);
    add("together at the cap", &one(&[], &[2, 2], 0, 4), &[0], None, &[4]);
    add("sums of a loop, above", &one(&[1, 1], &[2, 1, 1], 2, 3), &[0], full(0, 0, 1), &[2]);
    add("sums of a loop, at the cap", &one(&[1, 1], &[1, 1, 1], 2, 3), &[0], None, &[3]);
    add("what is taken makes room", &one(&[3], &[2, 2], 3, 4), &[0], None, &[4]);
    // No cap, and the largest one.
    add("cap 0 binds nothing", &one(&[], &[1], 0, 0), &[0, 0], None, &[2]);
    add("cap 0 binds nothing above 2^32", &one(&[], &[65_535], MOST, 0), &[0], None, &[4_295_032_830]);
    add("the largest cap, full", &one(&[], &[1], MOST, MOST), &[0], full(0, 0, 1), &[4_294_967_295]);
    add("the largest cap, reached", &one(&[], &[1], MOST - 1, MOST), &[0], None, &[4_294_967_295]);
    add("the largest cap, passed", &one(&[], &[1], MOST - 1, MOST), &[0, 0], full(1, 0, 1), &[4_294_967_295]);
    add("the largest cap and weight", &one(&[], &[65_535], MOST - 65_534, MOST), &[0], full(0, 0, 1), &[4_294_901_761]);
    let widest = [65_535; 4_096];
    add("the largest excess", &one(&[], &widest, 1, 1), &[0], full(0, 0, 268_431_360), &[1]);
    add(
        "the largest excess at the largest cap",
        &one(&[], &widest, MOST, MOST),
        &[0],
        full(0, 0, 268_431_360),
        &[4_294_967_295],
    );
    add("4,096 arcs, one above", &one(&[], &widest, 0, 268_431_359), &[0], full(0, 0, 1), &[0]);
    add("4,096 arcs, at the cap", &one(&[], &widest, 0, 268_431_360), &[0], None, &[268_431_360]);
    add(
        "2,048 arcs each way at the cap",
        &one(&[65_535; 2_048], &[65_535; 2_048], MOST, MOST),
        &[0],
        None,
        &[4_294_967_295],
    );

    // Which place is told: a short one before any full one, and the lowest of each.
    let net = |marking: &[u32], caps: &[u32], arcs: &[(u8, usize, u16)]| {
        let arcs = arcs.iter().map(|&(direction, place, weight)| DraftArc::new(0, direction, place, weight));
        Draft::plan(marking.to_vec(), 1, arcs.collect()).with_caps(caps.to_vec())
    };
    let both = net(&[1, 0], &[1, 0], &[(0, 1, 1), (1, 0, 1)]);
    add("short, and a lower place full", &both, &[0], short(0, 1, 1), &[1, 0]);
    let both = net(&[0, 1], &[0, 1], &[(0, 0, 1), (1, 1, 1)]);
    add("short, and a higher place full", &both, &[0], short(0, 0, 1), &[0, 1]);
    let outs = [(1, 0, 1), (1, 1, 2), (1, 2, 9)];
    add("the lowest full place", &net(&[9, 1, 1], &[0, 1, 1], &outs), &[0], full(0, 1, 2), &[9, 1, 1]);
    add("the last is full", &net(&[9, 1, 1], &[10, 3, 9], &outs), &[0], full(0, 2, 1), &[9, 1, 1]);
    add("the first is full", &net(&[9, 1, 1], &[9, 2, 9], &outs), &[0], full(0, 0, 1), &[9, 1, 1]);
    add("none is full", &net(&[9, 1, 1], &[10, 3, 10], &outs), &[0], None, &[10, 3, 10]);
    add("the second time", &net(&[9, 1, 1], &[10, 3, 10], &outs), &[0, 0], full(1, 0, 1), &[10, 3, 10]);
    let moved = net(&[3, 3], &[3, 3], &[(0, 0, 2), (1, 1, 2)]);
    add("what is taken elsewhere makes no room", &moved, &[0], full(0, 1, 2), &[3, 3]);
    let idle = net(&[1, 7], &[0, 7], &[(1, 0, 1)]);
    add("a capped place without arcs", &idle, &[0, 0], None, &[3, 7]);

    // Long lists.
    let waiting = |cap| counted_draft(&kerb([0, 0, 0, cap, 0]), |d| d.marking[0] = 40);
    let turns = [0, 1].repeat(40);
    add("80 firings, a cap of 40", &waiting(40), &turns, None, &[0, 1, 0, 40, 0]);
    add("80 firings, a cap of 39", &waiting(39), &turns, full(79, 3, 1), &[0, 0, 1, 39, 0]);
    add("80 firings, a cap of 20", &waiting(20), &turns, full(41, 3, 1), &[19, 0, 1, 20, 0]);
    add("100 firings, a cap of 2", &waiting(2), &[0, 1, 0, 1, 2].repeat(20), None, &[0, 1, 0, 0, 20]);
    let more = [&[0, 1, 0, 1, 2].repeat(20)[..], &[1]].concat();
    add("100 firings, then short", &waiting(2), &more, short(100, 2, 1), &[0, 1, 0, 0, 20]);
    add("65,535 firings, full at the last", &one(&[], &[1], 0, 65_534), &[0; 65_535], full(65_534, 0, 1), &[65_534]);
    add("65,535 firings, the cap reached", &one(&[], &[1], 0, 65_535), &[0; 65_535], None, &[65_535]);
    add("65,535 firings at the cap", &one(&[1], &[1], 5, 5), &[0; 65_535], None, &[5]);

    for (name, numbers, len, number) in [
        ("capped kerb, unknown number after a full one", &[0, 1, 0, 1, 4][..], 5, 12),
        ("capped kerb, 4 entries lent", &[0], 4, 13),
        ("capped kerb, 65,536 entries", &[0; 65_536], 5, 11),
    ] {
        let case = ReplayCase { file: lent(plan.bytes()), list: lent(numbers), marking: buffer(len) };
        let mut one = fixed(name, case, number, [0; 3]);
        one.cells = Some(vec![Cells::Longs(after(len, &[]))]);
        list.push(one);
    }
    list
}

fn counted_draft(draft: &Draft, change: impl FnOnce(&mut Draft)) -> Draft {
    let mut draft = draft.clone();
    change(&mut draft);
    draft.count();
    draft
}

pub fn cuts(which: Cut) -> Vec<Fixed<CutCase>> {
    let case = |plan: &[u8], q: &[u16], len| CutCase { which, plan: lent(plan), q: lent(q), slice: buffer(len) };
    let mut list = Vec::new();
    let mut written = |name: &str, plan: &[u8], q: &[u16], slice: &Draft| {
        let (file, counts) = (slice.bytes(), [i64::from(slice.places), i64::from(slice.transitions)]);
        for more in [0, 1, 30] {
            let len = file.len() + more;
            let outs = [file.len() as i64, counts[0], counts[1]];
            let mut one = fixed(format!("{name}, {more} bytes more lent"), case(plan, q, len), 0, outs);
            one.cells = Some(vec![Cells::Bytes(after(len, &file))]);
            list.push(one);
        }
        for short in [1, file.len() / 2, file.len()] {
            let len = file.len() - short;
            let mut one = fixed(format!("{name}, {short} bytes too few lent"), case(plan, q, len), 13, [0; 3]);
            one.cells = Some(vec![Cells::Bytes(after(len, &[]))]);
            list.push(one);
        }
    };
    let safety = which == Cut::Safety;
    let either = |of_safety: Draft, of_branching: Draft| if safety { of_safety } else { of_branching };
    let plan = capped_plan().bytes();
    let cut = either(capped_safety(), capped_branching());
    written("capped kerb for {2}", &plan, &[2], &cut);
    written("capped kerb for {3}", &plan, &[3], &cut);
    let all = [0, 1, 2, 3, 4];
    let bell = either(part_of(&capped_plan(), &all, &[0, 1, 2]), part_of(&capped_plan(), &all, &[0, 1, 2, 3]));
    written("capped kerb for {4}", &plan, &[4], &bell);
    written("one place, edition 2", &one_place_plan_2(), &[0], &draft_of(&one_place_slice_2()));
    // Without caps the sets are those of edition 1; the edition stays.
    let plain = either(small_safety(), small_branching());
    written("edition 2 without caps", &kerb([0; 5]).bytes(), &[2], &plain.clone().with_caps(vec![]));
    let bell = kerb([0, 0, 0, 0, 7]).bytes();
    written("a cap that is not met", &bell, &[2], &plain.with_caps(vec![]));
    // Of a capped place all that changes it is kept, in the safety cut too.
    let waiting = kerb([2, 0, 0, 0, 0]).bytes();
    written("a capped input place", &waiting, &[2], &small_branching().with_caps(vec![2, 0, 0]));
    // For no place.
    let nothing = draft_of(&empty_slice_2());
    written("capped kerb for no place", &plan, &[], &nothing);
    let source = one(&[], &[1], 0, 1).bytes();
    written("a transition without inputs, for no place", &source, &[], &nothing);
    // A reader of a capped place is not kept.
    let still = Draft::plan(vec![4], 0, vec![]).with_caps(vec![4]).into_slice(vec![0], vec![]);
    written("reader at a cap", &one(&[2], &[2], 4, 4).bytes(), &[0], &still);
    written("reader at a cap by sums", &one(&[1, 3], &[2, 2], 4, 4).bytes(), &[0], &still);
    // Transition 0 adds to places 0 and 1; 1 takes from 1 and reads 2; 3 adds to 2. What place 1's cap draws in, it draws in by
    // its output arc, and further by what lowers it; the largest cap as any.
    let a = DraftArc::new;
    let arcs = [(0, 1, 0), (0, 1, 1), (1, 0, 1), (1, 0, 2), (1, 1, 2), (2, 0, 3), (3, 1, 2)];
    let fork = Draft::plan(vec![0, 0, 5, 1], 4, arcs.map(|(t, d, p)| a(t, d, p, 1)).to_vec());
    written(
        "outputs, no cap",
        &fork.clone().with_caps(vec![]).bytes(),
        &[0],
        &part_of(&fork.clone().with_caps(vec![]), &[0], &[0]),
    );
    for cap in [1, 9, MOST] {
        let capped = fork.clone().with_caps(vec![0, cap, 0, 0]);
        written(&format!("outputs, a cap of {cap}"), &capped.bytes(), &[0], &part_of(&capped, &[0, 1, 2], &[0, 1, 3]));
    }
    let further = fork.with_caps(vec![0, 1, 5, 1]);
    written("a cap where it is only read", &further.bytes(), &[0], &part_of(&further, &[0, 1, 2], &[0, 1, 3]));
    // A cap on the criterion draws in nothing more: all that changes it is kept anyhow.
    let capped = fork_of_one();
    written("a capped criterion", &capped.bytes(), &[0], &part_of(&capped, &[0, 1], &[0, 1]));
    // As large as a slice can be.
    for caps in [vec![], vec![MOST; 1_024], (0..1_024).map(|p| p % 3).collect()] {
        let ring = ring().with_caps(caps);
        let numbers: Vec<u16> = (0..1_024).collect();
        written("the largest slice", &ring.bytes(), &[700], &part_of(&ring, &numbers, &numbers));
    }

    for (name, q, len, number) in [
        ("capped kerb, place P", &[5][..], 200, 10),
        ("capped kerb, criterion falling", &[2, 1], 200, 10),
        ("capped kerb, criterion before buffer", &[2, 2], 0, 10),
    ] {
        let mut one = fixed(name, case(&plan, q, len), number, [0; 3]);
        one.cells = Some(vec![Cells::Bytes(after(len, &[]))]);
        list.push(one);
    }
    list
}

/// Transition 0 takes from place 1 and adds to place 0, which has a cap; 1 takes from place 0; 2 lowers place 1.
fn fork_of_one() -> Draft {
    let a = DraftArc::new;
    // In the branching cut transition 2 would be kept for place 1, so it reads there.
    let arcs = vec![a(0, 0, 1, 1), a(0, 1, 0, 1), a(1, 0, 0, 1), a(2, 0, 1, 1), a(2, 1, 1, 1)];
    Draft::plan(vec![0, 3], 3, arcs).with_caps(vec![2, 0])
}

pub fn run_cuts() -> Vec<Fixed<RunCutCase>> {
    let case = run_cut_case;
    let mut list = Vec::new();
    // An edition 2 plan without caps is cut; the edition stays.
    let plain = kerb([0; 5]);
    for (name, q, numbers, slice, chosen) in [
        (
            "bell rung",
            &[4][..],
            &[0, 1, 0, 1, 2][..],
            part_of(&plain, &[0, 1, 2, 3, 4], &[0, 1, 2]),
            &[0, 1, 2, 3, 4][..],
        ),
        ("one left", &[3], &[3, 0, 1], part_of(&plain, &[0, 1, 2, 3], &[0, 1]), &[1, 2]),
        ("the empty list", &[2], &[], part_of(&plain, &[2], &[]), &[]),
        ("for no place", &[], &[0, 1], part_of(&plain, &[], &[]), &[]),
    ] {
        let (file, count) = (slice.bytes(), chosen.len());
        for (bytes, entries) in [(file.len(), count), (file.len() + 9, count + 3)] {
            let outs = [file.len(), slice.places.into(), slice.transitions.into(), count, 0, 0, 0].map(|n| n as i64);
            let case = case(&plain.bytes(), q, numbers, bytes, entries);
            let mut one = fixed(format!("edition 2, {name}, {bytes} bytes lent"), case, 0, outs);
            one.cells = Some(vec![Cells::Bytes(after(bytes, &file)), Cells::Halves(after(entries, chosen))]);
            list.push(one);
        }
        let case = case(&plain.bytes(), q, numbers, file.len() - 1, count);
        list.push(fixed(format!("edition 2, {name}, one byte too few"), case, 13, [0; 7]));
    }
    list.push(fixed("edition 2, 3,0,1,0", case(&plain.bytes(), &[4], &[3, 0, 1, 0], 0, 0), 14, [0, 0, 0, 0, 3, 0, 1]));

    let mut refused = |name: &str, plan: &[u8], q: &[u16], numbers: &[u16], (bytes, entries), number: u32| {
        let mut one = fixed(name, case(plan, q, numbers, bytes, entries), number, [0; 7]);
        one.cells = Some(vec![Cells::Bytes(after(bytes, &[])), Cells::Halves(after(entries, &[]))]);
        list.push(one);
    };
    let capped = capped_plan().bytes();
    for room in [(200, 9), (0, 0)] {
        refused("a cap", &capped, &[2], &[0, 1], room, 17);
        refused("a cap, for no place and no list", &capped, &[], &[], room, 17);
        refused("cap before criterion, unknown", &capped, &[5], &[0], room, 17);
        refused("cap before criterion, falling", &capped, &[2, 1], &[0], room, 17);
        refused("cap before list", &capped, &[2], &[4; 65_536], room, 17);
        refused("cap before unknown number", &capped, &[2], &[4], room, 17);
        refused("cap before stuck", &capped, &[2], &[1], room, 17);
    }
    for caps in
        [[1 + MOST / 2, 0, 0, 0, 0], [0, 0, 0, 0, 1], [0, 0, 0, 0, MOST], [0, 256, 0, 0, 0], [0, 0, 1 << 24, 0, 0]]
    {
        refused(&format!("caps {caps:?}"), &kerb(caps).bytes(), &[2], &[0, 1], (200, 9), 17);
    }
    refused("a cap on a place alone", &one_place_plan_2(), &[0], &[], (200, 9), 17);
    refused("16 before 17", &changed(&capped_plan(), |d| d.marking[3] = 2), &[2], &[0], (200, 9), 16);
    refused("6 before 17", &changed(&capped_plan(), |d| d.arcs[0].weight = 0), &[2], &[0], (200, 9), 6);
    refused("7 before 17", &changed(&capped_plan(), |d| d.arcs.swap(0, 1)), &[2], &[0], (200, 9), 7);
    list
}

pub fn shadows() -> Vec<Fixed<ShadowCase>> {
    let case = shadow_case;
    let mut list = Vec::new();
    type Stuck = Option<(u32, i64, i64, i64)>;
    let mut run = |name: &str, files: [&Draft; 2], numbers: &[u16], stuck: Stuck, marking: &[u64], due: &[u16]| {
        let [plan, slice] = files.map(Draft::bytes);
        let (number, index, place, amount) = stuck.unwrap_or((0, 0, 0, 0));
        for (entries, len) in [(0, 0), (5, 9)].map(|(m, o)| (marking.len() + m, due.len() + o)) {
            let name = format!("{name}, {entries} and {len} entries lent");
            let outs = [index, place, amount, due.len() as i64];
            let mut one = fixed(name, case(&plan, &slice, numbers, entries, len), number, outs);
            one.cells = Some(vec![Cells::Longs(after(entries, marking)), Cells::Halves(after(len, due))]);
            list.push(one);
        }
        let (entries, len) = (marking.len(), due.len());
        let mut short = vec![(entries - 1, len)];
        if len > 0 {
            short.push((entries, len - 1));
        }
        for (m, o) in short {
            let case = case(&plan, &slice, numbers, m, o);
            let mut one = fixed(format!("{name}, {m} and {o} lent"), case, 13, [0; 4]);
            one.cells = Some(vec![Cells::Longs(after(m, &[])), Cells::Halves(after(o, &[]))]);
            list.push(one);
        }
    };
    let short = |index, place, amount| Some((100, index, place, amount));
    let full = |index, place, amount| Some((101, index, place, amount));
    let (plan, slice) = (capped_plan(), capped_safety());
    let (small, base) = (small_plan(), small_safety());
    let empty = draft_of(&empty_slice_2());
    run("capped, 0,1,0,1,2", [&plan, &slice], &[0, 1, 0, 1, 2], full(3, 3, 1), &[0, 0, 1, 1, 0], &[0, 1, 0]);
    run("capped, 0,1,0", [&plan, &slice], &[0, 1, 0], None, &[0, 0, 1, 1, 0], &[0, 1, 0]);
    run("capped, 3,0,1,0", [&plan, &slice], &[3, 0, 1, 0], short(3, 0, 1), &[0, 1, 0, 1, 0], &[0, 1]);
    run("capped, 0,1,2", [&plan, &slice], &[0, 1, 2], short(2, 3, 1), &[1, 1, 0, 1, 0], &[0, 1]);
    let wider = capped_branching();
    run("capped, renumbered", [&plan, &wider], &[3, 0, 1, 3], short(3, 0, 1), &[0, 1, 0, 1, 0], &[3, 0, 1]);
    run("a slice of edition 1", [&plan, &base], &[0, 1, 0, 1], full(3, 3, 1), &[0, 0, 1, 1, 0], &[0, 1, 0]);
    run("a plan of edition 1", [&small, &slice], &[0, 1, 0, 1], None, &[0, 1, 0, 2, 0], &[0, 1, 0, 1]);
    run("onto the empty slice of edition 2", [&plan, &empty], &[0, 1, 0, 1], full(3, 3, 1), &[0, 0, 1, 1, 0], &[]);
    let spring = one(&[], &[2], 1, 4);
    let whole = spring.clone().into_slice(vec![0], vec![0]);
    run("full by one", [&spring, &whole], &[0, 0, 0], full(1, 0, 1), &[3], &[0]);
    run("full at once", [&one(&[], &[2], 4, 4), &whole], &[0, 0], full(0, 0, 2), &[4], &[]);
    // Long lists.
    let waiting = counted_draft(&kerb([0, 0, 0, 39, 0]), |d| d.marking[0] = 40);
    let turns = [0, 1].repeat(40);
    let marking = [0, 0, 1, 39, 0];
    run("80 firings, full at the last", [&waiting, &slice], &turns, full(79, 3, 1), &marking, &turns[..79]);
    list
}

pub fn takings() -> Vec<Fixed<TogetherCase>> {
    let case = |plan: &Draft, transition, marking: &[u64], len| TogetherCase {
        plan: lent(plan.bytes()),
        transition,
        marking: lent(marking),
        rest: buffer(len),
    };
    let mut list = Vec::new();
    // Inputs alone count: neither what is added nor what is handed in is held to a cap.
    let mut answered = |name: &str, plan: &Draft, t: u32, marking: &[u64], times: Option<u64>, rest: &[u64]| {
        let number = if times.is_some() { 0 } else { 100 };
        let len = marking.len() + 1;
        let mut one = fixed(name, case(plan, t, marking, len), number, [times.unwrap_or(0)]);
        one.cells = Some(vec![Cells::Longs(after(len, rest))]);
        list.push(one);
    };
    let plan = capped_plan();
    answered("capped kerb, 2 twice, above the cap", &plan, 2, &[0, 0, 0, 5, 0], Some(2), &[0, 0, 0, 1, 0]);
    answered("capped kerb, 1 often, its output capped", &plan, 1, &[0, 0, 7, 1, 0], Some(7), &[0, 0, 0, 1, 0]);
    answered("capped kerb, 0 once", &plan, 0, &[2, 1, 0, 0, 0], Some(1), &[1, 0, 0, 0, 0]);
    answered("no inputs, at the cap", &one(&[], &[1], 1, 1), 0, &[9], None, &[9]);
    answered("2^64 - 1 of 1, a cap of 1", &one(&[1], &[], 1, 1), 0, &[u64::MAX], Some(u64::MAX), &[0]);
    list.push(fixed("capped kerb, 4 entries", case(&plan, 0, &[1; 4], 5), 15, [0]));
    list.push(fixed("capped kerb, transition 4", case(&plan, 4, &[1; 5], 5), 12, [0]));
    list.push(fixed("capped kerb, 4 entries lent", case(&plan, 0, &[1; 5], 4), 13, [0]));
    list
}

/// Cases of the checker, as `judged` has them.
pub fn judged() -> Vec<(String, Vec<u8>, Vec<u8>, Vec<u16>, u32, i64)> {
    let mut list: Vec<(String, Vec<u8>, Vec<u8>, Vec<u16>, u32, i64)> = Vec::new();
    let mut add = |name: &str, plan: &Draft, slice: Vec<u8>, q: &[u16], number, breaking| {
        list.push((format!("caps: {name}"), plan.bytes(), slice, q.to_vec(), number, breaking));
    };
    let a = DraftArc::new;
    let (plan, slice) = (capped_plan(), capped_safety());
    let whole = plan.clone().into_slice((0..5).collect(), (0..4).collect());
    add("safety cut for {2}", &plan, slice.bytes(), &[2], 0, 0);
    add("safety cut for {2} serves {3}", &plan, slice.bytes(), &[3], 0, 0);
    add("branching cut for {2}", &plan, capped_branching().bytes(), &[2], 0, 0);
    add("the whole plan", &plan, whole.bytes(), &[0, 1, 2, 3, 4], 0, 0);
    add("a note", &plan, counted(&slice, |d| d.note = vec![1, 2, 3]), &[2], 0, 0);

    // 3: markings and caps, the lowest place by either.
    let other = |p: usize, cap: u32| changed(&slice, |d| d.caps[p] = cap);
    add("rule 3, a larger cap", &plan, other(3, 2), &[2], 103, 3);
    add("rule 3, the largest cap", &plan, other(3, MOST), &[2], 103, 3);
    add("rule 3, a cap with another high byte", &plan, other(3, 0x0100_0001), &[2], 103, 3);
    add("rule 3, no cap", &plan, other(3, 0), &[2], 103, 3);
    add("rule 3, a cap where there is none", &plan, other(1, 1), &[2], 103, 1);
    add("rule 3, a cap where there is none, not tight", &plan, other(0, MOST), &[2], 103, 0);
    add("rule 3, edition 1", &plan, counted(&slice, |d| d.set_edition(1)), &[2], 103, 3);
    add("rule 3, a marking, then a cap", &plan, changed(&slice, |d| (d.marking[1], d.caps[3]) = (0, 2)), &[2], 103, 1);
    add("rule 3, a cap, then a marking", &plan, changed(&slice, |d| (d.caps[1], d.marking[2]) = (9, 5)), &[2], 103, 1);
    add("rule 3, both at one place", &plan, changed(&slice, |d| (d.caps[3], d.marking[3]) = (9, 5)), &[2], 103, 3);
    add(
        "rule 3, marking and cap exchanged",
        &kerb([3, 0, 0, 0, 0]),
        small_safety_of([3, 1, 0], [2, 0, 0]),
        &[2],
        16,
        0,
    );
    add("rule 2 before 3", &plan, changed(&slice, |d| (d.caps[3], d.transition_origins[2]) = (2, 4)), &[2], 102, 2);
    add("rule 3 before 4", &plan, changed(&slice, |d| (d.caps[3], d.arcs[0].weight) = (2, 2)), &[2], 103, 3);
    let gap = |cap| part_of(&kerb([0, 0, 0, 0, cap]), &[2, 4], &[2]);
    add("rule 3, the plan's number", &kerb([0, 0, 0, 0, 7]), gap(6).bytes(), &[4], 103, 4);
    add("rule 4", &plan, changed(&slice, |d| d.arcs[0].weight = 2), &[2], 104, 0);

    // 9: a kept transition adds to a capped place that is left out.
    let base = small_safety();
    add("rule 9, the base slice", &plan, base.bytes(), &[2], 109, 1);
    add("rule 9, the base slice in edition 2", &plan, base.clone().with_caps(vec![]).bytes(), &[2], 109, 1);
    for cap in [1, 2, MOST] {
        add(&format!("rule 9, a cap of {cap}"), &kerb([0, 0, 0, cap, 0]), base.bytes(), &[2], 109, 1);
    }
    add("a capped place that no kept transition adds to", &kerb([0, 0, 0, 0, 1]), base.bytes(), &[2], 0, 0);
    // Transitions 1, 2 and 4 add to place 1, 3 takes from there; 0 to 2 and 4 raise place 0.
    let arcs = [(0, 0), (1, 0), (1, 1), (2, 0), (2, 1), (4, 0), (4, 1)].map(|(t, p)| a(t, 1, p, 1));
    let mut many = Draft::plan(vec![0, 0], 5, arcs.to_vec());
    many.arcs.insert(5, a(3, 0, 1, 1));
    many.count();
    let many = |cap| many.clone().with_caps(vec![0, cap]);
    add("rule 9, the lowest of three", &many(4), part_of(&many(4), &[0], &[0, 1, 2, 4]).bytes(), &[0], 109, 1);
    add("outputs without a cap", &many(0), part_of(&many(0), &[0], &[0, 1, 2, 4]).bytes(), &[0], 0, 0);
    add("capped outputs kept", &many(4), part_of(&many(4), &[0, 1], &[0, 1, 2, 3, 4]).bytes(), &[0], 0, 0);
    add("rule 9, for no place", &many(4), part_of(&many(4), &[], &[1]).bytes(), &[], 109, 1);
    add("rule 9, for no place, the plan's number", &many(4), part_of(&many(4), &[], &[0, 3, 4]).bytes(), &[], 107, 3);
    add("rule 9, for no place, the lowest kept", &many(4), part_of(&many(4), &[], &[0, 2, 4]).bytes(), &[], 109, 2);
    // Out above 0 counts, not the effect; but then the place is an input place too, and rule 7 comes before.
    let reads = Draft::plan(vec![0, 5], 1, vec![a(0, 0, 1, 1), a(0, 1, 0, 1), a(0, 1, 1, 1)]).with_caps(vec![0, 5]);
    add("rule 7 before 9", &reads, part_of(&reads, &[0], &[0]).bytes(), &[0], 107, 0);
    // Transition 0 adds to place 0 and, capped, to place 1; 1 raises place 0.
    let two = Draft::plan(vec![0, 0], 2, vec![a(0, 1, 0, 1), a(0, 1, 1, 1), a(1, 1, 0, 1)]).with_caps(vec![0, 5]);
    add("rule 8 before 9", &two, part_of(&two, &[0], &[0]).bytes(), &[], 108, 1);
    add("rule 6 before 9", &two, part_of(&two, &[0], &[0]).bytes(), &[0], 106, 1);
    add("rule 5 before 9", &two, part_of(&two, &[], &[0, 1]).bytes(), &[0], 105, 0);

    // 10: a transition left out changes a kept capped place.
    let without = part_of(&plan, &[0, 1, 2, 3], &[0, 1]);
    add("rule 10", &plan, without.bytes(), &[2], 110, 2);
    add("no rule 10 without the cap", &kerb([0; 5]), counted(&without, |d| d.caps = vec![]), &[2], 0, 0);
    add("rule 10, for no place", &plan, part_of(&plan, &[3], &[]).bytes(), &[], 108, 1);
    let waiting = kerb([2, 0, 0, 0, 0]);
    add("rule 10, an input place", &waiting, part_of(&waiting, &[0, 1, 2], &[0, 1]).bytes(), &[2], 110, 3);
    add("rule 10, an input place, kept", &waiting, part_of(&waiting, &[0, 1, 2], &[0, 1, 3]).bytes(), &[2], 0, 0);
    for cap in [2, 3, MOST] {
        let plan = kerb([cap, 0, 0, 0, 0]);
        add(&format!("rule 10, a cap of {cap}"), &plan, part_of(&plan, &[0, 1, 2], &[0, 1]).bytes(), &[2], 110, 3);
    }
    // Transitions 0 and 2 take from place 1, 1 from place 0; 3 reads place 0.
    let arcs = vec![a(0, 0, 1, 1), a(1, 0, 0, 1), a(2, 0, 1, 1), a(3, 0, 0, 2), a(3, 1, 0, 2)];
    let drains = |caps: [u32; 2]| Draft::plan(vec![4, 4], 4, arcs.clone()).with_caps(caps.to_vec());
    let bare = |caps: [u32; 2]| part_of(&drains(caps), &[0, 1], &[]).bytes();
    add("rule 10, the lowest transition", &drains([4, 4]), bare([4, 4]), &[], 110, 0);
    add("rule 10, of the first place alone", &drains([4, 0]), bare([4, 0]), &[], 110, 1);
    add("no cap, lowered from outside", &drains([0, 0]), bare([0, 0]), &[], 0, 0);
    let kept = part_of(&drains([4, 4]), &[0, 1], &[0, 1]).bytes();
    add("rule 10, the lowest left out", &drains([4, 4]), kept, &[], 110, 2);
    let kept = part_of(&drains([4, 4]), &[0, 1], &[0, 1, 2]).bytes();
    add("a reader of a capped place left out", &drains([4, 4]), kept, &[], 0, 0);
    let reader = one(&[1, 3], &[2, 2], 4, 4);
    add("a reader by sums left out", &reader, part_of(&reader, &[0], &[]).bytes(), &[], 0, 0);
    // Transition 0 reads place 0 and takes from place 1, both capped.
    let beyond = Draft::plan(vec![4, 4], 1, vec![a(0, 0, 0, 1), a(0, 0, 1, 1), a(0, 1, 0, 1)]).with_caps(vec![4, 4]);
    add("a capped place is changed that is left out", &beyond, part_of(&beyond, &[0], &[]).bytes(), &[0], 0, 0);
    add("a capped place is changed that is kept", &beyond, part_of(&beyond, &[1], &[]).bytes(), &[], 110, 0);
    let lowers = one(&[1, 3], &[2, 1], 4, 4);
    add("rule 10 by sums", &lowers, part_of(&lowers, &[0], &[]).bytes(), &[], 110, 0);
    add("rule 6 before 10", &lowers, part_of(&lowers, &[0], &[]).bytes(), &[0], 106, 0);
    let raises = one(&[1, 3], &[2, 3], 4, 9);
    add("rule 8 before 10", &raises, part_of(&raises, &[0], &[]).bytes(), &[], 108, 0);
    let both = kerb([2, 0, 0, 1, 0]);
    add("rule 9 before 10", &both, part_of(&both, &[0, 1, 2], &[0, 1]).bytes(), &[2], 109, 1);
    // Transition 0 lowers place 0, capped; 1 adds to place 1, capped and left out: 9 comes first, though by a higher number.
    let crossed = Draft::plan(vec![1, 0], 2, vec![a(0, 0, 0, 1), a(1, 1, 1, 1)]).with_caps(vec![1, 1]);
    add("rule 9 before 10, a higher number", &crossed, part_of(&crossed, &[0], &[1]).bytes(), &[], 109, 1);

    // Editions are not compared.
    let (plain, plain_cut) = (kerb([0; 5]), base.clone().with_caps(vec![]));
    add("edition 2 of edition 2 without caps", &plain, plain_cut.bytes(), &[2], 0, 0);
    add("edition 1 of edition 2", &plain, base.bytes(), &[2], 0, 0);
    add("edition 2 of edition 1", &small_plan(), plain_cut.bytes(), &[2], 0, 0);
    add("edition 2 of edition 1, a cap", &small_plan(), slice.bytes(), &[2], 103, 3);
    for cap in [1, MOST] {
        let bell = kerb([0, 0, 0, 0, cap]);
        add("edition 1 of edition 2, the capped place left out", &bell, base.bytes(), &[2], 0, 0);
    }
    for (edition, empty) in [(1, empty_slice()), (2, empty_slice_2())] {
        let of = |plan: &str| format!("the empty slice of edition {edition} of a plan {plan}");
        add(&of("of edition 1"), &small_plan(), empty.clone(), &[], 0, 0);
        add(&of("of edition 2"), &plan, empty.clone(), &[], 0, 0);
        add(&of("of edition 2, for {3}"), &plan, empty, &[3], 105, 3);
    }
    add("one place", &draft_of(&one_place_plan_2()), one_place_slice_2(), &[0], 0, 0);
    add("one place, edition 1", &draft_of(&one_place_plan_2()), one_place_slice(), &[0], 103, 0);
    let ring = ring().with_caps(vec![MOST; 1_024]);
    let numbers: Vec<u16> = (0..1_024).collect();
    let all = part_of(&ring, &numbers, &numbers);
    add("the largest slice", &ring, all.bytes(), &[700], 0, 0);
    add("the largest slice, its last cap", &ring, changed(&all, |d| d.caps[1_023] = 1), &[700], 103, 1_023);
    add(
        "the largest slice, its last transition left out",
        &ring,
        part_of(&ring, &numbers, &numbers[..1_023]).bytes(),
        &[],
        108,
        1_023,
    );
    add("criterion 5", &plan, slice.bytes(), &[5], 10, 0);
    add("criterion before rules", &plan, other(3, 2), &[2, 2], 10, 0);
    list
}

/// The kerb's base slice for {2} in edition 2, with these tokens and caps.
fn small_safety_of(marking: [u32; 3], caps: [u32; 3]) -> Vec<u8> {
    let mut draft = small_safety().with_caps(caps.to_vec());
    draft.marking = marking.to_vec();
    draft.bytes()
}

#[cfg(test)]
mod tests {
    use super::*;
    use crate::net::Kind;

    /// The request's example, counted by hand.
    #[test]
    fn lengths_told_by_the_request() {
        assert_eq!(capped_plan().bytes().len(), 128);
        assert_eq!((capped_safety().bytes().len(), capped_safety().arcs.len()), (118, 7));
        assert_eq!((capped_branching().bytes().len(), capped_branching().arcs.len()), (128, 8));
        let numbers: Vec<u16> = (0..1_024).collect();
        assert_eq!(part_of(&ring(), &numbers, &numbers).bytes().len(), 45_072);
    }

    #[test]
    fn good_files_are_read() {
        for (file, slice) in good_files() {
            let kind = if slice { Kind::Slice } else { Kind::Plan };
            let read = read(&file, Some(kind));
            assert_eq!(read.map(|net| (net.kind, net.edition)), Ok((kind, 2)), "{}", hex(&file));
        }
    }

    /// Both numbers of a place, low byte first.
    #[test]
    fn caps_are_read() {
        let net = read(&one_place_plan_2(), None).unwrap();
        assert_eq!((net.marking, net.caps), (vec![3], vec![5]));
        let net = read(&capped_safety().bytes(), None).unwrap();
        assert_eq!((net.marking, net.caps), (vec![2, 1, 0, 0], vec![0, 0, 0, 1]));
        assert_eq!(read(&small_plan().bytes(), None).unwrap().caps, [0; 5]);
    }
}
