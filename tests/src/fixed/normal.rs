//! Fixed cases of the normal form (02, A13).

use super::*;

fn case(plan: &[u8], len: usize) -> NormalCase {
    NormalCase { plan: lent(plan), normal: buffer(len) }
}

pub fn normals() -> Vec<Fixed<NormalCase>> {
    let mut list = Vec::new();
    // Written into just as many bytes, and into more; one byte less is refused.
    let mut written = |name: &str, plan: &[u8], normal: &[u8]| {
        let n = normal.len();
        for more in [0, 1, 100] {
            let mut one = fixed(format!("{name}, {more} bytes more lent"), case(plan, n + more), 0, [n as i64]);
            one.cells = Some(vec![Cells::Bytes(after(n + more, normal))]);
            list.push(one);
        }
        for len in [n - 1, 0] {
            let mut one = fixed(format!("{name}, {len} bytes lent"), case(plan, len), 13, [0]);
            one.cells = Some(vec![Cells::Bytes(buffer(len).cells)]);
            list.push(one);
        }
    };
    // By hand: one place of 3 tokens, the cap 0, no arcs.
    written("one place", &one_place_plan(), &from_hex("03000000 00000000 08000000 0100 0000 0000 00 02 42454C4C"));
    let kerb = small_plan().with_caps(vec![]).bytes();
    assert_eq!(kerb.len(), 128);
    written("kerb", &small_plan().bytes(), &kerb);
    written("kerb in edition 2", &kerb, &kerb);
    written("kerb, an arc parted", &parallel_plan().bytes(), &kerb);
    written("kerb with a note", &counted(&parallel_plan(), |d| d.note = vec![7; 33]), &kerb);
    written("kerb with the longest note", &counted(&small_plan(), |d| d.note = vec![0; 65_536 - 108]), &kerb);
    let caps = |d: Draft| d.with_caps(vec![2, 0, 9, u32::MAX, 1]);
    written("caps stay", &caps(parallel_plan()).bytes(), &caps(small_plan()).bytes());
    let second = |draft: Draft| draft.with_caps(vec![]).bytes();
    let nothing = Draft::plan(vec![], 3, vec![]);
    written("no places", &nothing.bytes(), &second(nothing.clone()));
    // Parallel arcs in any order of their weights, in each direction by itself.
    let joined = second(several(&[9], &[7], 5));
    for (ins, outs) in
        [(&[9][..], &[7][..]), (&[4, 5], &[7]), (&[5, 4], &[1, 6]), (&[1, 1, 7], &[3, 1, 3]), (&[9], &[1; 7])]
    {
        written(&format!("{ins:?} in, {outs:?} out"), &several(ins, outs, 5).bytes(), &joined);
    }
    let readers = second(several(&[2], &[2], 0));
    written("a reader stays two arcs", &several(&[1, 1], &[2], 0).bytes(), &readers);
    // As heavy as one arc can be.
    let most = second(several(&[65_535], &[65_535], 1));
    written("65,535 from two", &several(&[65_534, 1], &[1, 65_534], 1).bytes(), &most);
    written("65,535 from itself", &several(&[65_535], &[65_535], 1).bytes(), &most);
    written("4,096 arcs of 1", &several(&[1; 4_096], &[], 0).bytes(), &second(several(&[4_096], &[], 0)));
    written(
        "4,096 arcs of 15, both ways",
        &several(&[15; 2_048], &[15; 2_048], 0).bytes(),
        &second(several(&[30_720], &[30_720], 0)),
    );
    let mut fill = vec![15; 4_096];
    fill[4_095] = 4_110;
    written("4,096 arcs to 65,535", &several(&[], &fill, 0).bytes(), &second(several(&[], &[65_535], 0)));
    written("full net", &full_net().bytes(), &second(full_net()));
    let a = DraftArc::new;
    let three = vec![
        a(0, 0, 0, 1),
        a(0, 0, 0, 2),
        a(0, 0, 1, 4),
        a(0, 1, 0, 8),
        a(1, 0, 0, 16),
        a(1, 0, 0, 32),
        a(2, 1, 1, 64),
    ];
    let parted = Draft::plan(vec![1, 2], 3, three);
    let together = vec![a(0, 0, 0, 3), a(0, 0, 1, 4), a(0, 1, 0, 8), a(1, 0, 0, 48), a(2, 1, 1, 64)];
    written("neighbours of other keys stay apart", &parted.bytes(), &second(Draft::plan(vec![1, 2], 3, together)));

    let mut refused = |name: String, plan: &[u8], len: usize, number: u32| {
        let mut one = fixed(name, case(plan, len), number, [0]);
        one.cells = Some(vec![Cells::Bytes(buffer(len).cells)]);
        list.push(one);
    };
    refused("65,536 from two".into(), &several(&[65_535, 1], &[], 0).bytes(), 100, 25);
    refused("65,536 out".into(), &several(&[], &[1, 65_535], 0).bytes(), 100, 25);
    refused("131,070".into(), &several(&[65_535; 2], &[], 0).bytes(), 100, 25);
    refused("65,536 of 4,096".into(), &several(&[16; 4_096], &[], 0).bytes(), 100, 25);
    // 2 to the 17, and sums whose lower 16 bits are few.
    refused("131,073".into(), &several(&[65_535, 65_535, 3], &[], 0).bytes(), 100, 25);
    refused("the heaviest".into(), &several(&[65_535; 4_096], &[], 0).bytes(), 100, 25);
    refused("too heavy before the buffer".into(), &several(&[65_535, 1], &[], 0).bytes(), 0, 25);
    let last = Draft::plan(vec![0, 0], 2, vec![a(0, 0, 0, 1), a(1, 1, 1, 65_535), a(1, 1, 1, 1)]);
    refused("the last pair".into(), &last.bytes(), 0, 25);
    refused("16 before 25".into(), &several(&[65_535, 1], &[], 5).with_caps(vec![4]).bytes(), 0, 16);
    for (name, bad, number) in bad_plans() {
        refused(name, &bad, 0, number);
    }
    let mut null = case(&small_plan().bytes(), 0);
    null.normal.null = true;
    list.push(fixed("null buffer", null.clone(), 13, [0]));
    null.plan = Lent { null: true, ..lent([]) };
    list.push(fixed("null plan", null, 1, [0]));
    list
}
