//! The papers' examples, edges and refusals one by one, and the published nets, as fixed cases with
//! the answers due. `cargo test` holds the second implementation to them, `compare` the library too.

use crate::cases::*;
use crate::cut::Cut;
use crate::gen::{to_bytes, Draft, DraftArc};
use crate::published;
use crate::read::read;

pub mod capped;
mod normal;
mod pnml;
mod range;
mod starts;

pub use normal::normals;
pub use pnml::{every_form, texts};
pub use range::ranges;
pub use starts::{cuts_from, replays_from, transfers, verdicts_from};

/// A case and the answer that the papers give; `cells` only where the example states them.
pub struct Fixed<C> {
    pub name: String,
    pub case: C,
    pub number: u32,
    pub outs: Vec<i128>,
    pub cells: Option<Vec<Cells>>,
}

impl<C: Case> Fixed<C> {
    /// What the answer has that is not due, if anything.
    pub fn fault(&self, answer: &Answer) -> Option<String> {
        let cells_right = self.cells.as_ref().is_none_or(|cells| *cells == answer.cells);
        if answer.number == self.number && answer.outs == self.outs && cells_right && answer.inputs_kept {
            return None;
        }
        let due = self.cells.as_ref().map_or(String::new(), |cells| format!(" {cells:x?}"));
        Some(format!("due: number {} outs {:?}{due}", self.number, self.outs))
    }
}

fn fixed<C, T: Into<i128>, const N: usize>(name: impl Into<String>, case: C, number: u32, outs: [T; N]) -> Fixed<C> {
    Fixed { name: name.into(), case, number, outs: outs.map(Into::into).into(), cells: None }
}

fn from_hex(text: &str) -> Vec<u8> {
    let digits: Vec<u8> = text.bytes().filter(|c| !c.is_ascii_whitespace()).collect();
    digits.chunks(2).map(|d| u8::from_str_radix(std::str::from_utf8(d).unwrap(), 16).unwrap()).collect()
}

/// The plan of one place with 3 tokens, and its safety cut for place 0, as paper 01 prints them.
pub fn one_place_plan() -> Vec<u8> {
    from_hex("03000000 04000000 0100 0000 0000 00 01 42454C4C")
}

pub fn one_place_slice() -> Vec<u8> {
    from_hex("03000000 0000 06000000 0100 0000 0000 01 01 42454C4C")
}

/// The slice with no places and no transitions: every cut for no place (02, A7).
pub fn empty_slice() -> Vec<u8> {
    from_hex("00000000 0000 0000 0000 01 01 42454C4C")
}

/// The small kerb.
pub fn small_plan() -> Draft {
    let arc = DraftArc::new;
    let arcs = vec![
        arc(0, 0, 0, 1),
        arc(0, 0, 1, 1),
        arc(0, 1, 2, 1),
        arc(1, 0, 2, 1),
        arc(1, 1, 1, 1),
        arc(1, 1, 3, 1),
        arc(2, 0, 3, 2),
        arc(2, 1, 4, 1),
        arc(3, 0, 0, 1),
    ];
    Draft::plan(vec![2, 1, 0, 0, 0], 4, arcs)
}

/// The kerb's safety cut for {2}, put down by hand.
pub fn small_safety() -> Draft {
    let arc = DraftArc::new;
    let arcs = vec![arc(0, 0, 0, 1), arc(0, 0, 1, 1), arc(0, 1, 2, 1), arc(1, 0, 2, 1), arc(1, 1, 1, 1)];
    Draft::plan(vec![2, 1, 0], 2, arcs).into_slice(vec![0, 1, 2], vec![0, 1])
}

/// The kerb's branching cut for {2}, put down by hand.
pub fn small_branching() -> Draft {
    let mut draft = small_safety();
    draft.arcs.push(DraftArc::new(2, 0, 0, 1));
    draft.transition_origins.push(3);
    draft.count();
    draft
}

/// The kerb's safety cut for {3}, put down by hand.
pub fn small_safety_for_3() -> Draft {
    let mut draft = small_plan();
    draft.arcs.retain(|a| a.transition != 3 && a.place != 4);
    draft.marking.pop();
    draft.into_slice(vec![0, 1, 2, 3], vec![0, 1, 2])
}

/// The kerb with the input of transition 2 as two arcs of weight 1.
pub fn parallel_plan() -> Draft {
    let mut draft = small_plan();
    draft.arcs[6].weight = 1;
    draft.arcs.insert(6, draft.arcs[6]);
    draft.count();
    draft
}

/// Its safety cut for {3}, put down by hand.
pub fn parallel_safety_for_3() -> Draft {
    let mut draft = parallel_plan();
    draft.arcs.retain(|a| a.transition != 3 && a.place != 4);
    draft.marking.pop();
    draft.into_slice(vec![0, 1, 2, 3], vec![0, 1, 2])
}

/// One place, one transition, and arcs of these weights from the place, then to it, in this order.
fn several(ins: &[u16], outs: &[u16], tokens: u32) -> Draft {
    let arc = |direction| move |&weight: &u16| DraftArc::new(0, direction, 0, weight);
    Draft::plan(vec![tokens], 1, ins.iter().map(arc(0)).chain(outs.iter().map(arc(1))).collect())
}

fn changed(draft: &Draft, change: impl FnOnce(&mut Draft)) -> Vec<u8> {
    let mut draft = draft.clone();
    change(&mut draft);
    draft.bytes()
}

/// A file with its tables changed, the trailer right again.
fn counted(draft: &Draft, change: impl FnOnce(&mut Draft)) -> Vec<u8> {
    changed(draft, |d| {
        change(d);
        d.count();
    })
}

/// Damaged files that every call refuses with this number, made of the kerb or of its slice.
pub fn bad_files(slice: bool) -> Vec<(String, Vec<u8>, u32)> {
    let good = if slice { small_safety() } else { small_plan() };
    let (p, t, a) = (good.places, good.transitions, good.arc_count);
    let bytes = good.bytes();
    let n = bytes.len();
    let mut files: Vec<(&str, Vec<u8>, u32)> = vec![
        ("no bytes", Vec::new(), 1),
        ("15 bytes", bytes[n - 15..].to_vec(), 1),
        ("65,537 bytes", counted(&good, |d| d.note = vec![7; 65_537 - n]), 1),
        ("edition 0", changed(&good, |d| d.edition = 0), 2),
        ("edition 3", changed(&good, |d| d.edition = 3), 2),
        ("first letter", changed(&good, |d| d.letters[0] = b'b'), 2),
        ("second letter", changed(&good, |d| d.letters[1] = b'F'), 2),
        ("third letter", changed(&good, |d| d.letters[2] = 0), 2),
        ("last letter", changed(&good, |d| d.letters[3] = b'M'), 2),
        ("letters before kind", changed(&good, |d| (d.letters[3], d.kind) = (b'M', 2)), 2),
        ("kind 2", changed(&good, |d| d.kind = 2), 3),
        ("kind 255", changed(&good, |d| d.kind = 255), 3),
        ("kind before counts", changed(&good, |d| (d.kind, d.places) = (2, 1_025)), 3),
        ("P 1,025", changed(&good, |d| d.places = 1_025), 4),
        ("T 1,025", changed(&good, |d| d.transitions = 1_025), 4),
        ("A 4,097", changed(&good, |d| d.arc_count = 4_097), 4),
        ("counts before length", changed(&good, |d| (d.places, d.body_length) = (1_025, 0)), 4),
        ("length one more", changed(&good, |d| d.body_length += 1), 5),
        ("length one less", changed(&good, |d| d.body_length -= 1), 5),
        ("length 2 to the 32 less 1", changed(&good, |d| d.body_length = u32::MAX), 5),
        ("length with bit 16", changed(&good, |d| d.body_length += 65_536), 5),
        ("P one more", changed(&good, |d| d.places = p + 1), 5),
        ("P one less", changed(&good, |d| d.places = p - 1), 5),
        ("A one more", changed(&good, |d| d.arc_count = a + 1), 5),
        ("A one less", changed(&good, |d| d.arc_count = a - 1), 5),
        ("front byte lost", bytes[1..].to_vec(), 5),
        ("trailer alone", bytes[n - 16..].to_vec(), 5),
        ("length before arcs", changed(&good, |d| (d.arcs[0].weight, d.body_length) = (0, 0)), 5),
        ("zero byte 1", changed(&good, |d| d.arcs[0].zero = 1), 6),
        ("zero byte 255, last arc", changed(&good, |d| d.arcs.last_mut().unwrap().zero = 255), 6),
        ("direction 2", changed(&good, |d| d.arcs[1].direction = 2), 6),
        ("place P", changed(&good, |d| d.arcs[1].place = p), 6),
        ("place 65,535", changed(&good, |d| d.arcs[1].place = 65_535), 6),
        ("transition T", changed(&good, |d| d.arcs.last_mut().unwrap().transition = t), 6),
        ("transition 65,535", changed(&good, |d| d.arcs[0].transition = 65_535), 6),
        ("weight 0", changed(&good, |d| d.arcs[3].weight = 0), 6),
        ("6 before 7 in one arc", changed(&good, |d| (d.arcs[0].place, d.arcs[1].weight) = (2, 0)), 6),
        ("6 in an arc before 7", changed(&good, |d| (d.arcs[0].weight, d.arcs[0].place) = (0, 2)), 6),
        ("an arc below two equal ones", changed(&good, |d| (d.arcs[0].place, d.arcs[2]) = (1, d.arcs[0])), 7),
        (
            "a heavier arc below",
            changed(&good, |d| (d.arcs[0].place, d.arcs[1].place, d.arcs[1].weight) = (1, 0, 65_535)),
            7,
        ),
        ("arcs swapped by place", changed(&good, |d| d.arcs.swap(0, 1)), 7),
        ("arcs swapped by direction", changed(&good, |d| d.arcs.swap(1, 2)), 7),
        ("arcs swapped by transition", changed(&good, |d| d.arcs.swap(2, 3)), 7),
        ("7 in an arc before 6", changed(&good, |d| (d.arcs[0].place, d.arcs[2].weight) = (2, 0)), 7),
    ];
    let nothing = Draft::plan(vec![], 0, vec![]);
    let noted = changed(&nothing, |d| d.note = vec![1; 5]);
    let arc = counted(&nothing, |d| (d.kind, d.arcs) = (good.kind, vec![DraftArc::new(0, 0, 0, 1)]));
    let counts = changed(&good, |d| (d.places, d.transitions) = (0, 0));
    if !slice {
        files.extend([
            ("P and T 0", counts, 4),
            ("P and T 0, all right else", nothing.bytes(), 4),
            ("P and T 0, a note", noted, 4),
            ("P and T 0, an arc", arc, 4),
        ]);
    } else {
        files.extend([
            ("P and T 0 over a body", counts, 5),
            ("P and T 0, A 4,097", changed(&nothing, |d| (d.kind, d.arc_count) = (1, 4_097)), 4),
            ("P and T 0, an arc", arc, 6),
            ("T one more", changed(&good, |d| d.transitions = t + 1), 5),
            ("T one less", changed(&good, |d| d.transitions = t - 1), 5),
            ("a plan's length", changed(&good, |d| d.body_length = 4 * u32::from(p) + 8 * u32::from(a)), 5),
            ("place origins equal", changed(&good, |d| d.place_origins[2] = 1), 8),
            ("place origins falling", changed(&good, |d| d.place_origins.swap(0, 1)), 8),
            ("transition origins equal", changed(&good, |d| d.transition_origins[1] = 0), 8),
            ("transition origins falling", changed(&good, |d| d.transition_origins.swap(0, 1)), 8),
            ("arcs before origins", changed(&good, |d| (d.arcs[0].weight, d.place_origins[2]) = (0, 0)), 6),
        ]);
    }
    let files = files.into_iter().map(|(name, bytes, number)| (name.into(), bytes, number));
    files.chain(capped::bad_files(slice)).collect()
}

/// Files that are refused with 3 where the other kind is due.
fn other_kind(slice: bool) -> Vec<(String, Vec<u8>, u32)> {
    let mut files = if slice {
        vec![("the other kind".into(), small_plan().bytes(), 3)]
    } else {
        vec![("the other kind".into(), small_safety().bytes(), 3), ("the empty slice".into(), empty_slice(), 3)]
    };
    files.extend(capped::other_kind(slice));
    files
}

fn bad_plans() -> Vec<(String, Vec<u8>, u32)> {
    bad_files(false).into_iter().chain(other_kind(false)).collect()
}

fn bad_slices() -> Vec<(String, Vec<u8>, u32)> {
    bad_files(true).into_iter().chain(other_kind(true)).collect()
}

/// Files of either kind that calls for either kind refuse.
fn bad_of_either() -> Vec<(String, Vec<u8>, u32)> {
    bad_files(false).into_iter().chain(bad_files(true)).collect()
}

fn lent<T: Copy>(part: impl Into<Vec<T>>) -> Lent<T> {
    Lent::plain(part.into())
}

/// A lent buffer, each entry 0xA5, four more on each side.
fn buffer<T: Copy + From<u8>>(len: usize) -> Lent<T> {
    Lent { cells: vec![T::from(0xA5); len + 8], start: 4, len, null: false }
}

// A case by what is handed over, and the entries that are lent.
fn arcs_case(plan: &[u8], slice: &[u8], of_slice: bool, transition: u32) -> ArcsCase {
    ArcsCase { plan: lent(plan), slice: lent(slice), of_slice, transition }
}

fn shadow_case(plan: &[u8], slice: &[u8], list: &[u16], entries: usize, len: usize) -> ShadowCase {
    ShadowCase { plan: lent(plan), slice: lent(slice), list: lent(list), marking: buffer(entries), out: buffer(len) }
}

fn run_cut_case(plan: &[u8], q: &[u16], list: &[u16], bytes: usize, entries: usize) -> RunCutCase {
    RunCutCase { plan: lent(plan), q: lent(q), list: lent(list), slice: buffer(bytes), positions: buffer(entries) }
}

/// What stands in such a buffer after these entries were written.
fn after<T: Copy + From<u8>>(len: usize, written: &[T]) -> Vec<T> {
    let mut cells = buffer(len).cells;
    cells[4..4 + written.len()].copy_from_slice(written);
    cells
}

/// One place and one transition with a self loop of these weights.
fn loop_net(weight_in: u16, weight_out: u16, tokens: u32) -> Vec<u8> {
    Draft::plan(vec![tokens], 1, vec![DraftArc::new(0, 0, 0, weight_in), DraftArc::new(0, 1, 0, weight_out)]).bytes()
}

/// All counts at their limits; transition t takes two from places t and t + 1 and gives them back.
pub fn full_net() -> Draft {
    let mut arcs = Vec::new();
    for t in 0..1_024 {
        for direction in 0..2 {
            let other = (t + 1) % 1_024;
            for p in [t.min(other), t.max(other)] {
                arcs.push(DraftArc::new(t, direction, p, 65_535));
            }
        }
    }
    Draft::plan(vec![u32::MAX; 1_024], 1_024, arcs)
}

pub fn effects() -> Vec<Fixed<EffectCase>> {
    let case = |file: &[u8], place, transition| EffectCase { file: lent(file), place, transition };
    let mut list = Vec::new();
    let small = small_plan().bytes();
    let due: [[i64; 4]; 5] = [[-1, 0, 0, -1], [-1, 1, 0, 0], [1, -1, 0, 0], [0, 1, -2, 0], [0, 0, 1, 0]];
    for p in 0..5 {
        for t in 0..4 {
            let effect = due[p as usize][t as usize];
            list.push(fixed(format!("kerb, effect of {t} on {p}"), case(&small, p, t), 0, [effect]));
        }
    }
    let numbers = [(5, 0, 10), (65_535, 0, 10), (0, 4, 12), (4, 65_535, 12), (5, 4, 10)];
    // Their low 16 bits are numbers of the net.
    let wide = [(65_539, 2, 10), (3, 65_538, 12), (65_539, 65_538, 10), (1 << 31, 0, 10), (0, 1 << 31, 12)];
    let most = [(u32::MAX, 0, 10), (0, u32::MAX, 12), (u32::MAX - 65_535, 0, 10), (0, u32::MAX - 65_535, 12)];
    for (p, t, number) in numbers.into_iter().chain(wide).chain(most) {
        list.push(fixed(format!("kerb, effect of {t} on {p}"), case(&small, p, t), number, [0]));
    }
    let nets = [
        ("reader", loop_net(3, 3, 0), 0),
        ("loop, more out", loop_net(1, 3, 0), 2),
        ("loop, more in", loop_net(3, 1, 0), -2),
        ("weight 65,535 in, 1 out", loop_net(65_535, 1, 0), -65_534),
        ("weight 65,535 both", loop_net(65_535, 65_535, 0), 0),
        ("65,535 in", Draft::plan(vec![0], 1, vec![DraftArc::new(0, 0, 0, 65_535)]).bytes(), -65_535),
        ("65,535 out", Draft::plan(vec![0], 1, vec![DraftArc::new(0, 1, 0, 65_535)]).bytes(), 65_535),
        ("slice", small_safety().bytes(), -1),
        ("full net", full_net().bytes(), 0),
        ("equal arcs", several(&[3, 3], &[], 0).bytes(), -6),
        ("equal arcs in a slice", several(&[], &[3, 3], 0).into_slice(vec![7], vec![9]).bytes(), 6),
        ("parallel, weights rising and falling", several(&[1, 9, 4], &[65_535, 2], 0).bytes(), 65_523),
        ("reader by sums", several(&[1, 1], &[2], 0).bytes(), 0),
        ("4,096 of 65,535 in", several(&[65_535; 4_096], &[], 0).bytes(), -268_431_360),
        ("4,096 of 65,535 out", several(&[], &[65_535; 4_096], 0).bytes(), 268_431_360),
        ("2,048 of 65,535 both", several(&[65_535; 2_048], &[65_535; 2_048], 0).bytes(), 0),
    ];
    for (name, file, effect) in nets {
        list.push(fixed(name, case(&file, 0, 0), 0, [effect]));
    }
    let edges = [
        ("one place, no transition", one_place_plan(), 12),
        ("one place, no transition, as a slice", one_place_slice(), 12),
        ("16 bytes, one transition and no place", Draft::plan(vec![], 1, vec![]).bytes(), 10),
        ("the empty slice", empty_slice(), 10),
    ];
    for (name, file, number) in edges {
        list.push(fixed(name, case(&file, 0, 0), number, [0]));
    }
    let mut longest = self::small_plan();
    longest.note = vec![9; 65_536 - 108];
    list.push(fixed("65,536 bytes", case(&longest.bytes(), 3, 2), 0, [-2]));
    for (name, file, number) in bad_of_either() {
        list.push(fixed(name, case(&file, 0, 0), number, [0]));
    }
    let mut null = case(&[], 0, 0);
    null.file.null = true;
    list.push(fixed("null file", null, 1, [0]));
    list.extend(capped::effects());
    list
}

pub fn arc_runs() -> Vec<Fixed<ArcsCase>> {
    let case = arcs_case;
    let mut list = Vec::new();
    let (plan, slice) = (small_plan().bytes(), small_safety().bytes());
    // Length and start: the kerb's arcs start at 20, those of its slice at 12.
    let runs = [
        (false, 0, 24, 20),
        (false, 1, 24, 44),
        (false, 2, 16, 68),
        (false, 3, 8, 84),
        (false, 4, 0, 0),
        (false, 65_535, 0, 0),
        (false, 65_536, 0, 0),
        (false, 65_538, 0, 0),
        (false, u32::MAX, 0, 0),
        (true, 0, 24, 12),
        (true, 1, 16, 36),
        (true, 2, 0, 0),
        (true, 3, 0, 0),
        (true, 65_537, 0, 0),
        (true, 1 << 31, 0, 0),
    ];
    for (of_slice, t, length, start) in runs {
        let which = if of_slice { "slice" } else { "kerb" };
        list.push(fixed(format!("{which}, transition {t}"), case(&plan, &slice, of_slice, t), length, [start]));
    }
    let mut noted = small_plan();
    noted.note = vec![1; 7];
    list.push(fixed("a note moves the run", case(&noted.bytes(), &slice, false, 1), 24, [51]));
    let mut noted = small_safety();
    noted.note = vec![1; 3];
    list.push(fixed("a note moves the slice's run", case(&plan, &noted.bytes(), true, 1), 16, [39]));
    let bare = Draft::plan(vec![1], 2, vec![DraftArc::new(1, 0, 0, 1)]).bytes();
    list.push(fixed("transition without arcs", case(&bare, &slice, false, 0), 0, [0]));
    list.push(fixed("after one without arcs", case(&bare, &slice, false, 1), 8, [4]));
    let (parallel, parallel_cut) = (parallel_plan().bytes(), parallel_safety_for_3().bytes());
    list.push(fixed("parallel arcs", case(&parallel, &parallel_cut, false, 2), 24, [68]));
    list.push(fixed("after parallel arcs", case(&parallel, &parallel_cut, false, 3), 8, [92]));
    list.push(fixed("parallel arcs in the slice", case(&parallel, &parallel_cut, true, 2), 16, [64]));
    let widest = several(&[65_535; 4_096], &[], 0).bytes();
    list.push(fixed("4,096 parallel arcs", case(&widest, &slice, false, 0), 32_768, [4]));
    let nothing = empty_slice();
    list.push(fixed("the empty slice", case(&plan, &nothing, true, 0), 0, [0]));
    list.push(fixed("beside the empty slice", case(&plan, &nothing, false, 1), 24, [44]));
    let full = full_net().bytes();
    list.push(fixed("last run of the full net", case(&full, &slice, false, 1_023), 32, [4_096 + 32_736]));
    for (name, bad, _) in bad_plans() {
        list.push(fixed(format!("plan: {name}"), case(&bad, &slice, true, 0), 0, [0]));
        list.push(fixed(format!("plan: {name}"), case(&bad, &slice, false, 0), 0, [0]));
    }
    for (name, bad, _) in bad_slices() {
        list.push(fixed(format!("slice: {name}"), case(&plan, &bad, false, 0), 0, [0]));
        list.push(fixed(format!("slice: {name}"), case(&plan, &bad, true, 0), 0, [0]));
    }
    let mut null = case(&[], &[], false, 0);
    (null.plan.null, null.slice.null) = (true, true);
    list.push(fixed("null files", null, 0, [0]));
    for net in published::nets() {
        let transitions = net.plan[net.plan.len() - 10];
        let mut at = net.plan.len() - 16 - 8 * usize::from(net.plan[net.plan.len() - 8]);
        if net.plan[net.plan.len() - 7] > 0 {
            continue;
        }
        for t in 0..transitions {
            let run = net.plan[at..net.plan.len() - 16].chunks(8).take_while(|a| a[0] == t).count();
            let start = if run == 0 { 0 } else { at as i64 };
            let case = case(&net.plan, &slice, false, u32::from(t));
            list.push(fixed(format!("{}, transition {t}", net.name), case, 8 * run as u32, [start]));
            at += 8 * run;
        }
    }
    list.extend(capped::arc_runs());
    list
}

pub fn replays() -> Vec<Fixed<ReplayCase>> {
    let case = |file: &[u8], list: &[u16], len| ReplayCase { file: lent(file), list: lent(list), marking: buffer(len) };
    let mut list = Vec::new();
    let mut add =
        |name: String, file: &[u8], numbers: &[u16], len: usize, number, stuck: (i64, i64, i64), marking: &[u64]| {
            let mut one = fixed(name, case(file, numbers, len), number, [stuck.0, stuck.1, stuck.2]);
            one.cells = Some(vec![Cells::Longs(after(len, marking))]);
            list.push(one);
        };
    let small = small_plan().bytes();
    for len in [5, 6, 9] {
        let name = |list: &str| format!("kerb, {list}, {len} entries lent");
        add(name("0,1,0,1,2"), &small, &[0, 1, 0, 1, 2], len, 0, (0, 0, 0), &[0, 1, 0, 0, 1]);
        add(name("the empty list"), &small, &[], len, 0, (0, 0, 0), &[2, 1, 0, 0, 0]);
        add(name("0,0"), &small, &[0, 0], len, 100, (1, 1, 1), &[1, 0, 1, 0, 0]);
        add(name("3,3,0"), &small, &[3, 3, 0], len, 100, (2, 0, 1), &[0, 1, 0, 0, 0]);
        add(name("1 at once"), &small, &[1], len, 100, (0, 2, 1), &[2, 1, 0, 0, 0]);
    }
    add("3,0,1 leaves waiting 0".into(), &small, &[3, 0, 1], 5, 0, (0, 0, 0), &[0, 1, 0, 1, 0]);
    add("its projection leaves waiting 1".into(), &small_safety().bytes(), &[0, 1], 3, 0, (0, 0, 0), &[1, 1, 0]);
    add("in a slice, the T of the slice".into(), &small_safety().bytes(), &[2], 3, 12, (0, 0, 0), &[]);
    add("unknown number".into(), &small, &[0, 4], 5, 12, (0, 0, 0), &[]);
    add("unknown after a stuck one".into(), &small, &[1, 65_535], 5, 12, (0, 0, 0), &[]);
    add("4 entries lent".into(), &small, &[0], 4, 13, (0, 0, 0), &[]);
    add("none lent".into(), &small, &[0], 0, 13, (0, 0, 0), &[]);
    add("list before buffer".into(), &small, &[4], 4, 12, (0, 0, 0), &[]);
    add("65,536 firings".into(), &small, &[0; 65_536], 5, 11, (0, 0, 0), &[]);
    add("length before numbers".into(), &small, &[4; 65_536], 5, 11, (0, 0, 0), &[]);
    add("65,535 firings stick".into(), &small, &[0; 65_535], 5, 100, (1, 1, 1), &[1, 0, 1, 0, 0]);
    let full = changed(&small_plan(), |d| d.marking[0] = 40);
    let turns = [0, 1].repeat(40);
    for more in [&[][..], &[0], &[1, 0], &[3, 2], &[2, 2, 0]] {
        // All forty have left: waiting is empty, and 2 fires.
        let fired = more.iter().take_while(|&&t| t == 2).count();
        let left = 40 - 2 * fired as u64;
        let (number, stuck) = match more.get(fired) {
            None => (0, (0, 0, 0)),
            Some(&t) => (100, (80 + fired as i64, if t == 1 { 2 } else { 0 }, 1)),
        };
        let list = [&turns[..], more].concat();
        add(format!("80 firings, then {more:?}"), &full, &list, 5, number, stuck, &[0, 1, 0, left, fired as u64]);
    }
    let well = Draft::plan(vec![u32::MAX], 1, vec![DraftArc::new(0, 1, 0, 65_535)]).bytes();
    let most = 4_294_967_295 + 65_535 * 65_535;
    add("the most tokens there can be".into(), &well, &[0; 65_535], 1, 0, (0, 0, 0), &[most]);
    // 65,535 firings that add 4,096 × 65,535 each.
    for tokens in [0, u32::MAX] {
        let spring = several(&[], &[65_535; 4_096], tokens).bytes();
        let most = 17_591_649_177_600 + u64::from(tokens);
        add(format!("the most with parallel arcs, from {tokens}"), &spring, &[0; 65_535], 1, 0, (0, 0, 0), &[most]);
    }
    let drain = |tokens| several(&[65_535; 4_096], &[], tokens).bytes();
    add("4,096 inputs, enough".into(), &drain(268_431_360), &[0], 1, 0, (0, 0, 0), &[0]);
    add("4,096 inputs, one too few".into(), &drain(268_431_359), &[0], 1, 100, (0, 0, 1), &[268_431_359]);
    add("4,096 inputs, 16 times".into(), &drain(u32::MAX), &[0; 70], 1, 100, (16, 0, 268_365_825), &[65_535]);
    let parallel = parallel_plan().bytes();
    add("parallel kerb, 0,1,0,1,2".into(), &parallel, &[0, 1, 0, 1, 2], 5, 0, (0, 0, 0), &[0, 1, 0, 0, 1]);
    add("parallel kerb, 0,1,2".into(), &parallel, &[0, 1, 2], 5, 100, (2, 3, 1), &[1, 1, 0, 1, 0]);
    add("each alone would do".into(), &several(&[2, 3], &[], 4).bytes(), &[0], 1, 100, (0, 0, 1), &[4]);
    add("together they do".into(), &several(&[2, 3], &[1, 1], 5).bytes(), &[0], 1, 0, (0, 0, 0), &[2]);
    add("exactly enough".into(), &loop_net(65_535, 1, 65_535), &[0], 1, 0, (0, 0, 0), &[1]);
    add("one too few".into(), &loop_net(65_535, 1, 65_534), &[0], 1, 100, (0, 0, 1), &[65_534]);
    add("three too few".into(), &loop_net(5, 1, 2), &[0], 1, 100, (0, 0, 3), &[2]);
    add("a reader needs its tokens".into(), &loop_net(2, 2, 1), &[0], 1, 100, (0, 0, 1), &[1]);
    add("no places".into(), &Draft::plan(vec![], 2, vec![]).bytes(), &[0, 1, 1], 0, 0, (0, 0, 0), &[]);
    add("no transitions".into(), &one_place_plan(), &[], 1, 0, (0, 0, 0), &[3]);
    add("no transitions, a list".into(), &one_place_plan(), &[0], 1, 12, (0, 0, 0), &[]);
    for len in [0, 3] {
        add(format!("the empty slice, {len} entries lent"), &empty_slice(), &[], len, 0, (0, 0, 0), &[]);
        add(format!("the empty slice, a list, {len} entries lent"), &empty_slice(), &[0], len, 12, (0, 0, 0), &[]);
    }
    let two = Draft::plan(vec![0; 3], 1, vec![DraftArc::new(0, 0, 1, 1), DraftArc::new(0, 0, 2, 1)]).bytes();
    add("the lowest place short".into(), &two, &[0], 3, 100, (0, 1, 1), &[0, 0, 0]);
    let parallel = |marking: &[u32]| {
        let input = |(place, weight)| DraftArc::new(0, 0, place, weight);
        Draft::plan(marking.to_vec(), 1, [(0, 2), (0, 1), (1, 1), (1, 2), (1, 3), (2, 9)].map(input).to_vec()).bytes()
    };
    add("parallel arcs, enough".into(), &parallel(&[3, 6, 9]), &[0], 3, 0, (0, 0, 0), &[0, 0, 0]);
    add("the second arc of three sticks".into(), &parallel(&[3, 2, 0]), &[0], 3, 100, (0, 1, 4), &[3, 2, 0]);
    add("the first arc of two sticks".into(), &parallel(&[1, 0, 0]), &[0], 3, 100, (0, 0, 2), &[1, 0, 0]);
    add("the last arc of three sticks".into(), &parallel(&[3, 5, 9]), &[0], 3, 100, (0, 1, 1), &[3, 5, 9]);
    add("the amount is of that place alone".into(), &parallel(&[2, 0, 0]), &[0], 3, 100, (0, 0, 1), &[2, 0, 0]);
    let widest = |held| Draft::plan(vec![held], 1, vec![DraftArc::new(0, 0, 0, 65_535); 4096]).bytes();
    let most = 65_535 * 4096;
    add("the largest shortage".into(), &widest(0), &[0], 1, 100, (0, 0, i64::from(most)), &[0]);
    add("the largest sum, one short".into(), &widest(most - 1), &[0], 1, 100, (0, 0, 1), &[u64::from(most) - 1]);
    add("the largest sum, enough".into(), &widest(most), &[0], 1, 0, (0, 0, 0), &[0]);
    add("the largest sum, the second time".into(), &widest(most), &[0, 0], 1, 100, (1, 0, i64::from(most)), &[0]);
    for (name, bad, number) in bad_of_either() {
        add(name, &bad, &[0], 5, number, (0, 0, 0), &[]);
    }
    for net in published::nets() {
        for l in &net.lists {
            let (number, stuck) = l.stuck.map_or((0, (0, 0, 0)), |(index, place)| {
                let plan = read(&net.plan, None).unwrap();
                let (ins, _) = plan.in_and_out(usize::from(l.list[index as usize]));
                let need: i64 = ins.iter().filter(|a| i64::from(a.place) == place).map(|a| i64::from(a.weight)).sum();
                (100, (index, place, need - l.marking[place as usize] as i64))
            });
            add(
                format!("{}, {:?}", net.name, l.list),
                &net.plan,
                &l.list,
                l.marking.len() + 1,
                number,
                stuck,
                &l.marking,
            );
        }
    }
    list.extend(capped::replays());
    list
}

pub fn cuts(which: Cut) -> Vec<Fixed<CutCase>> {
    let case = |plan: &[u8], q: &[u16], len| CutCase { which, plan: lent(plan), q: lent(q), slice: buffer(len) };
    let mut list = Vec::new();
    let small = small_plan().bytes();
    let mut written = |name: &str, plan: &[u8], q: &[u16], slice: &[u8], places, transitions| {
        for more in [0, 1, 30] {
            let len = slice.len() + more;
            let outs = [slice.len() as i64, places, transitions];
            let mut one = fixed(format!("{name}, {more} bytes more lent"), case(plan, q, len), 0, outs);
            one.cells = Some(vec![Cells::Bytes(after(len, slice))]);
            list.push(one);
        }
        for short in [1, slice.len() / 2, slice.len()] {
            let len = slice.len() - short;
            let mut one = fixed(format!("{name}, {short} bytes too few lent"), case(plan, q, len), 13, [0; 3]);
            one.cells = Some(vec![Cells::Bytes(after(len, &[]))]);
            list.push(one);
        }
    };
    written("one place", &one_place_plan(), &[0], &one_place_slice(), 1, 0);
    match which {
        Cut::Safety => {
            written("kerb for {2}", &small, &[2], &small_safety().bytes(), 3, 2);
            written("kerb for {3}", &small, &[3], &small_safety_for_3().bytes(), 4, 3);
            written("parallel kerb for {3}", &parallel_plan().bytes(), &[3], &parallel_safety_for_3().bytes(), 4, 3);
        }
        Cut::Branching => written("kerb for {2}", &small, &[2], &small_branching().bytes(), 3, 3),
    }
    // For no place: the empty slice, of every plan.
    let nothing = empty_slice();
    written("kerb for no place", &small, &[], &nothing, 0, 0);
    written("no place, for no place", &Draft::plan(vec![], 1, vec![]).bytes(), &[], &nothing, 0, 0);
    written("full net for no place", &full_net().bytes(), &[], &nothing, 0, 0);
    let source = Draft::plan(vec![0], 1, vec![DraftArc::new(0, 1, 0, 1)]);
    written("a transition without inputs, for no place", &source.bytes(), &[], &nothing, 0, 0);
    // A transition that only reads a place of Q is not kept.
    let reader = Draft::plan(vec![4], 0, vec![]).into_slice(vec![0], vec![]).bytes();
    written("reader", &loop_net(2, 2, 4), &[0], &reader, 1, 0);
    // In a loop with unequal weights it is kept, both arcs with it.
    let kept = Draft::plan(vec![4], 1, vec![DraftArc::new(0, 0, 0, 2), DraftArc::new(0, 1, 0, 1)]);
    written("unequal loop", &kept.clone().bytes(), &[0], &kept.into_slice(vec![0], vec![0]).bytes(), 1, 1);
    // With parallel arcs the sums decide, and all arcs go with the transition.
    written("reader by sums", &several(&[1, 3], &[2, 2], 4).bytes(), &[0], &reader, 1, 0);
    for (ins, outs) in [(&[2, 1][..], &[2][..]), (&[2], &[2, 1]), (&[1, 65_535, 1], &[65_535, 1])] {
        let kept = several(ins, outs, 4);
        let slice = kept.clone().into_slice(vec![0], vec![0]).bytes();
        written("unequal sums", &kept.bytes(), &[0], &slice, 1, 1);
    }
    // An arc to a kept place that is no input stays; an arc to one left out goes.
    let a = DraftArc::new;
    let fork = Draft::plan(vec![1, 0, 0], 1, vec![a(0, 0, 0, 1), a(0, 1, 1, 1), a(0, 1, 2, 1)]).bytes();
    let slice = Draft::plan(vec![1, 0], 1, vec![a(0, 0, 0, 1), a(0, 1, 1, 1)]).into_slice(vec![0, 2], vec![0]);
    written("fork", &fork, &[2], &slice.bytes(), 2, 1);
    // More than one round: a chain numbered backwards, all of it kept.
    let mut arcs = Vec::new();
    for t in 0..1_023 {
        arcs.extend([a(t, 0, t + 1, 1), a(t, 1, t, 1)]);
    }
    let chain = Draft::plan(vec![1; 1_024], 1_023, arcs);
    let all = chain.clone().into_slice((0..1_024).collect(), (0..1_023).collect()).bytes();
    written("chain backwards", &chain.bytes(), &[0], &all, 1_024, 1_023);

    let mut refused = |name: String, plan: &[u8], q: &[u16], len, number| {
        let mut one = fixed(name, case(plan, q, len), number, [0; 3]);
        one.cells = Some(vec![Cells::Bytes(after(len, &[]))]);
        list.push(one);
    };
    refused("no place".into(), &Draft::plan(vec![], 1, vec![]).bytes(), &[0], 200, 10);
    refused("place P".into(), &small, &[5], 200, 10);
    refused("place 65,535 last".into(), &small, &[0, 65_535], 200, 10);
    refused("criterion equal".into(), &small, &[2, 2], 200, 10);
    refused("criterion falling".into(), &small, &[2, 1], 200, 10);
    refused("criterion before buffer".into(), &small, &[5], 0, 10);
    for (name, bad, number) in bad_plans() {
        refused(name, &bad, &[], 0, number);
    }
    for net in published::nets() {
        for c in &net.cuts {
            let sets = if which == Cut::Safety { &c.safety } else { &c.branching };
            let outs = [sets.bytes as i64, sets.places.len() as i64, sets.transitions.len() as i64];
            list.push(fixed(format!("{} for {:?}", net.name, c.q), case(&net.plan, &c.q, sets.bytes + 9), 0, outs));
        }
    }
    list.extend(capped::cuts(which));
    list
}

pub fn shadows() -> Vec<Fixed<ShadowCase>> {
    let case = shadow_case;
    let (plan, slice, branching) = (small_plan().bytes(), small_safety().bytes(), small_branching().bytes());
    let mut list = Vec::new();
    // Into exactly the entries that are written and into more; and with one too few, if any is.
    type Stuck = Option<(i64, i64, i64)>;
    let mut run = |name: &str, files: [&[u8]; 2], numbers: &[u16], stuck: Stuck, marking: &[u64], due: &[u16]| {
        let [plan, slice] = files;
        for (entries, len) in [(0, 0), (1, 0), (0, 1), (5, 9)].map(|(m, o)| (marking.len() + m, due.len() + o)) {
            let number = if stuck.is_some() { 100 } else { 0 };
            let (index, place, amount) = stuck.unwrap_or((0, 0, 0));
            let name = format!("{name}, {entries} and {len} entries lent");
            let case = case(plan, slice, numbers, entries, len);
            let mut one = fixed(name, case, number, [index, place, amount, due.len() as i64]);
            one.cells = Some(vec![Cells::Longs(after(entries, marking)), Cells::Halves(after(len, due))]);
            list.push(one);
        }
        let (entries, len) = (marking.len(), due.len());
        let short = [(entries.wrapping_sub(1), len), (0, len), (entries, len.wrapping_sub(1)), (entries, 0)];
        for (m, o) in short.into_iter().filter(|&(m, o)| m < entries || o < len).filter(|&(m, o)| m.max(o) < 70_000) {
            let mut one = fixed(format!("{name}, {m} and {o} lent"), case(plan, slice, numbers, m, o), 13, [0; 4]);
            one.cells = Some(vec![Cells::Longs(after(m, &[])), Cells::Halves(after(o, &[]))]);
            list.push(one);
        }
    };
    let (kerb, wider) = ([&plan[..], &slice], [&plan[..], &branching]);
    run("3,0,1,2", kerb, &[3, 0, 1, 2], Some((3, 3, 1)), &[0, 1, 0, 1, 0], &[0, 1]);
    run("3,0,1", kerb, &[3, 0, 1], None, &[0, 1, 0, 1, 0], &[0, 1]);
    run("0,1,0,1,2", kerb, &[0, 1, 0, 1, 2], None, &[0, 1, 0, 0, 1], &[0, 1, 0, 1]);
    run("the empty list", kerb, &[], None, &[2, 1, 0, 0, 0], &[]);
    run("0,0,1,1 needs room for one", kerb, &[0, 0, 1, 1], Some((1, 1, 1)), &[1, 0, 1, 0, 0], &[0]);
    run("stuck at once", kerb, &[1, 0, 1], Some((0, 2, 1)), &[2, 1, 0, 0, 0], &[]);
    run("all dropped", kerb, &[3, 3], None, &[0, 1, 0, 0, 0], &[]);
    run("all dropped, then stuck at one that stays", kerb, &[3, 3, 0], Some((2, 0, 1)), &[0, 1, 0, 0, 0], &[]);
    run("stuck at one that is dropped", kerb, &[0, 2, 1], Some((1, 3, 2)), &[1, 0, 1, 0, 0], &[0]);
    run("the T of the plan", kerb, &[3], None, &[1, 1, 0, 0, 0], &[]);
    run("renumbered", wider, &[3, 3], None, &[0, 1, 0, 0, 0], &[2, 2]);
    run("renumbered, stuck", wider, &[3, 0, 1, 3, 2], Some((3, 0, 1)), &[0, 1, 0, 1, 0], &[2, 0, 1]);
    run("65,535 entries, stuck", kerb, &[0; 65_535], Some((1, 1, 1)), &[1, 0, 1, 0, 0], &[0]);
    let beyond = counted(&small_safety(), |d| d.transition_origins = vec![2, 9]);
    run("origins beyond the plan", [&plan, &beyond], &[0, 1, 0, 1, 2], None, &[0, 1, 0, 0, 1], &[0]);
    // A slice of another plan: only its origins are looked at.
    run("a slice of no plan", [&plan, &one_place_slice()], &[0, 1], None, &[1, 1, 0, 1, 0], &[]);
    let nothing = empty_slice();
    run("onto the empty slice", [&plan, &nothing], &[3, 0, 1], None, &[0, 1, 0, 1, 0], &[]);
    run("onto the empty slice, stuck", [&plan, &nothing], &[3, 0, 1, 2], Some((3, 3, 1)), &[0, 1, 0, 1, 0], &[]);
    let parallel = [&parallel_plan().bytes()[..], &parallel_safety_for_3().bytes()];
    run("parallel arcs", parallel, &[0, 1, 0, 1, 2], None, &[0, 1, 0, 0, 1], &[0, 1, 0, 1, 2]);
    run("parallel arcs, stuck", parallel, &[0, 1, 2, 0], Some((2, 3, 1)), &[1, 1, 0, 1, 0], &[0, 1]);
    let still = [&loop_net(1, 1, 1)[..], &several(&[1], &[1], 1).into_slice(vec![0], vec![0]).bytes()];
    run("65,535 firings", still, &[0; 65_535], None, &[1], &[0; 65_535]);
    // Long lists are fired by another way.
    let full = changed(&small_plan(), |d| d.marking[0] = 40);
    let turns = [0, 1].repeat(40);
    run("80 firings", [&full, &slice], &turns, None, &[0, 1, 0, 40, 0], &turns);
    let more = [&turns[..], &[2, 2, 0, 1]].concat();
    run("80 firings, then 2,2,0,1", [&full, &slice], &more, Some((82, 0, 1)), &[0, 1, 0, 36, 2], &turns);
    run("no places", [&Draft::plan(vec![], 2, vec![]).bytes(), &slice], &[0, 1, 1], None, &[], &[0, 1, 1]);

    let mut refused = |name: String, plan: &[u8], slice: &[u8], numbers: &[u16], (m, o): (usize, usize), number| {
        let mut one = fixed(name, case(plan, slice, numbers, m, o), number, [0; 4]);
        one.cells = Some(vec![Cells::Longs(after(m, &[])), Cells::Halves(after(o, &[]))]);
        list.push(one);
    };
    refused("unknown number".into(), &plan, &slice, &[0, 4], (5, 5), 12);
    refused("unknown number after a stuck one".into(), &plan, &slice, &[1, 65_535], (5, 5), 12);
    refused("a number of the slice alone".into(), &one_place_plan(), &slice, &[0], (5, 5), 12);
    refused("list before buffers".into(), &plan, &slice, &[0, 4], (0, 0), 12);
    refused("65,536 entries".into(), &plan, &slice, &[0; 65_536], (5, 65_536), 11);
    refused("length before numbers".into(), &plan, &slice, &[4; 65_536], (0, 0), 11);
    refused("onto the empty slice, unknown number".into(), &plan, &nothing, &[4], (0, 0), 12);
    for (name, bad, number) in bad_plans() {
        refused(format!("plan: {name}"), &bad, &slice, &[9], (0, 0), number);
        refused(format!("plan before slice: {name}"), &bad, &[], &[9], (0, 0), number);
    }
    for (name, bad, number) in bad_slices() {
        refused(format!("slice: {name}"), &plan, &bad, &[9], (0, 0), number);
    }
    list.extend(capped::shadows());
    list
}

pub fn run_cuts() -> Vec<Fixed<RunCutCase>> {
    let case = run_cut_case;
    let mut list = Vec::new();
    // Into exactly the room that it takes and into more; and into too little for the one, the other or both.
    let mut run = |name: &str, plan: &[u8], q: &[u16], numbers: &[u16], slice: &Draft, chosen: &[u16]| {
        let (file, count) = (slice.bytes(), chosen.len());
        let (places, transitions) = (i64::from(slice.places), i64::from(slice.transitions));
        for (bytes, entries) in [(0, 0), (1, 0), (0, 1), (30, 9)].map(|(b, e)| (file.len() + b, count + e)) {
            let name = format!("{name}, {bytes} bytes and {entries} entries lent");
            let outs = [file.len() as i64, places, transitions, count as i64, 0, 0, 0];
            let mut one = fixed(name, case(plan, q, numbers, bytes, entries), 0, outs);
            one.cells = Some(vec![Cells::Bytes(after(bytes, &file)), Cells::Halves(after(entries, chosen))]);
            list.push(one);
        }
        let mut short = vec![(file.len() - 1, count), (0, count + 5), (0, 0)];
        if count > 0 {
            short.extend([(file.len(), count - 1), (file.len() + 5, 0), (file.len() - 1, count - 1)]);
        }
        for (bytes, entries) in short {
            let name = format!("{name}, {bytes} bytes and {entries} entries lent");
            let mut one = fixed(name, case(plan, q, numbers, bytes, entries), 13, [0; 7]);
            one.cells = Some(vec![Cells::Bytes(after(bytes, &[])), Cells::Halves(after(entries, &[]))]);
            list.push(one);
        }
    };
    let (a, plan) = (DraftArc::new, small_plan().bytes());
    let of_kerb = |places: &[u16], transitions: &[u16]| part_of(&small_plan(), places, transitions);
    let alone = |place: u16| of_kerb(&[place], &[]);
    run("bell rung", &plan, &[4], &[0, 1, 0, 1, 2], &of_kerb(&[0, 1, 2, 3, 4], &[0, 1, 2]), &[0, 1, 2, 3, 4]);
    run("one left", &plan, &[3], &[3, 0, 1], &of_kerb(&[0, 1, 2, 3], &[0, 1]), &[1, 2]);
    run("one was in the bay", &plan, &[2], &[3, 0, 1], &of_kerb(&[0, 1, 2], &[0]), &[1]);
    run("both places", &plan, &[2, 3], &[3, 0, 1], &of_kerb(&[0, 1, 2, 3], &[0, 1]), &[1, 2]);
    run("fired after it is of no use", &plan, &[2], &[0, 3], &of_kerb(&[0, 1, 2], &[0]), &[0]);
    run("fed again and again", &plan, &[1], &[0, 1, 0, 1], &of_kerb(&[0, 1, 2], &[0, 1]), &[0, 1, 2, 3]);
    run("nothing raised it", &plan, &[4], &[0, 1, 3], &alone(4), &[]);
    run("only lowered", &plan, &[0], &[3, 0], &alone(0), &[]);
    run("the empty list", &plan, &[2], &[], &alone(2), &[]);
    let nothing = of_kerb(&[], &[]);
    run("for no place", &plan, &[], &[0, 1, 0, 1, 2], &nothing, &[]);
    run("for no place, the empty list", &plan, &[], &[], &nothing, &[]);
    run("no place in the plan", &Draft::plan(vec![], 2, vec![]).bytes(), &[], &[0, 1, 1], &nothing, &[]);
    // Raised is by the effect, of parallel arcs by their sums; all arcs go with the transition.
    let still = Draft::plan(vec![4], 0, vec![]).into_slice(vec![0], vec![]);
    run("a reader", &loop_net(2, 2, 4), &[0], &[0, 0], &still, &[]);
    run("a loop that lowers", &loop_net(3, 2, 4), &[0], &[0, 0], &still, &[]);
    run("a reader by sums", &several(&[1, 3], &[2, 2], 4).bytes(), &[0], &[0], &still, &[]);
    for (ins, outs) in [(&[2][..], &[3][..]), (&[1, 1], &[1, 2]), (&[2], &[1, 1, 1]), (&[], &[1])] {
        let growing = several(ins, outs, 4);
        let all = growing.clone().into_slice(vec![0], vec![0]);
        run("a loop that raises", &growing.bytes(), &[0], &[0, 0, 0], &all, &[0, 1, 2]);
    }
    // Transition 0 raises place 0, its own input; 1 takes from there for place 1. W is looked at before the own inputs join it.
    let own = Draft::plan(vec![2, 0], 2, vec![a(0, 0, 0, 1), a(0, 1, 0, 2), a(1, 0, 0, 1), a(1, 1, 1, 1)]);
    run("before", &own.bytes(), &[1], &[0, 1], &part_of(&own, &[0, 1], &[0, 1]), &[0, 1]);
    run("after", &own.bytes(), &[1], &[1, 0], &part_of(&own, &[0, 1], &[1]), &[0]);
    run("before and after", &own.bytes(), &[1], &[0, 1, 0], &part_of(&own, &[0, 1], &[0, 1]), &[0, 1]);
    // An arc to a place of W that is no input goes with its transition, though that place was not what it was chosen for.
    let fork = Draft::plan(vec![1, 0, 0], 1, vec![a(0, 0, 0, 1), a(0, 1, 1, 1), a(0, 1, 2, 1)]);
    run("fork, one end", &fork.bytes(), &[2], &[0], &part_of(&fork, &[0, 2], &[0]), &[0]);
    run("fork, both ends", &fork.bytes(), &[1, 2], &[0], &part_of(&fork, &[0, 1, 2], &[0]), &[0]);
    // Long lists and large nets.
    let full = counted(&small_plan(), |d| d.marking[0] = 40);
    let of_full = |places: &[u16], transitions: &[u16]| {
        let mut draft = small_plan();
        draft.marking[0] = 40;
        part_of(&draft, places, transitions)
    };
    let turns = [0, 1].repeat(40);
    let upto = |n: u16| (0..n).collect::<Vec<u16>>();
    run("80 firings", &full, &[3], &turns, &of_full(&[0, 1, 2, 3], &[0, 1]), &upto(80));
    run("79 of 80", &full, &[2], &turns, &of_full(&[0, 1, 2], &[0, 1]), &upto(79));
    let spring = several(&[], &[65_535], u32::MAX);
    let all = spring.clone().into_slice(vec![0], vec![0]);
    run("65,535 firings", &spring.bytes(), &[0], &[0; 65_535], &all, &upto(65_535));
    let spring = several(&[65_535; 2_047], &[65_535; 2_049], u32::MAX);
    let all = spring.clone().into_slice(vec![0], vec![0]);
    run("4,096 arcs", &spring.bytes(), &[0], &[0; 70], &all, &upto(70));
    let arcs = (0..1_023).flat_map(|t| [a(t, 0, t + 1, 1), a(t, 1, t, 1)]).collect();
    let chain = Draft::plan(vec![1; 1_024], 1_023, arcs);
    let all = part_of(&chain, &upto(1_024), &upto(1_023));
    let down: Vec<u16> = (0..1_023).rev().collect();
    run("a chain", &chain.bytes(), &[0], &down, &all, &upto(1_023));
    run("a chain the wrong way", &chain.bytes(), &[0], &upto(1_023), &part_of(&chain, &[0, 1], &[0]), &[0]);
    for net in published::nets() {
        for c in &net.run_cuts {
            let draft = Draft::of(&read(&net.plan, None).unwrap());
            let slice = part_of(&draft, &c.places, &c.transitions);
            run(&format!("{}, {:?}", net.name, c.list), &net.plan, &c.q, &c.list, &slice, &c.chosen);
        }
    }

    let mut refused =
        |name: String, plan: &[u8], q: &[u16], numbers: &[u16], (bytes, entries), number, stuck: [i64; 3]| {
            let outs = [0, 0, 0, 0, stuck[0], stuck[1], stuck[2]];
            let mut one = fixed(name, case(plan, q, numbers, bytes, entries), number, outs);
            one.cells = Some(vec![Cells::Bytes(after(bytes, &[])), Cells::Halves(after(entries, &[]))]);
            list.push(one);
        };
    for room in [(200, 9), (0, 0)] {
        refused(format!("3,0,1,0, {room:?} lent"), &plan, &[4], &[3, 0, 1, 0], room, 14, [3, 0, 1]);
        refused(format!("0,1,2, {room:?} lent"), &plan, &[], &[0, 1, 2, 2], room, 14, [2, 3, 1]);
        refused(format!("stuck at once, {room:?} lent"), &plan, &[0], &[2], room, 14, [0, 3, 2]);
        let parallel = several(&[2, 3], &[9], 1).bytes();
        refused(format!("a sum is short, {room:?} lent"), &parallel, &[0], &[0], room, 14, [0, 0, 4]);
    }
    let mut stuck = turns.clone();
    stuck.push(0);
    refused("80 firings, then 0".into(), &full, &[3], &stuck, (200, 100), 14, [80, 0, 1]);
    let drain = several(&[65_535; 4_096], &[], 0).bytes();
    refused("the largest shortage".into(), &drain, &[0], &[0], (200, 9), 14, [0, 0, 268_431_360]);
    let ample = (200, 9);
    refused("place P".into(), &plan, &[5], &[], ample, 10, [0; 3]);
    refused("criterion equal".into(), &plan, &[2, 2], &[], ample, 10, [0; 3]);
    refused("criterion falling".into(), &plan, &[2, 1], &[], ample, 10, [0; 3]);
    refused("criterion before list".into(), &plan, &[5], &[4; 65_536], (0, 0), 10, [0; 3]);
    refused("65,536 entries".into(), &plan, &[2], &[0; 65_536], (200, 65_536), 11, [0; 3]);
    refused("length before numbers".into(), &plan, &[2], &[4; 65_536], (0, 0), 11, [0; 3]);
    refused("unknown number".into(), &plan, &[2], &[0, 4], ample, 12, [0; 3]);
    refused("unknown number after a stuck one".into(), &plan, &[2], &[1, 65_535], (0, 0), 12, [0; 3]);
    for (name, bad, number) in bad_plans() {
        refused(name, &bad, &[9], &[9], (0, 0), number, [0; 3]);
    }
    let mut null = case(&[], &[], &[], 0, 0);
    (null.plan.null, null.q.null, null.list.null, null.slice.null, null.positions.null) =
        (true, true, true, true, true);
    list.push(fixed("null pointers", null.clone(), 1, [0; 7]));
    (null.plan, null.slice) = (lent(plan), buffer(16));
    list.push(fixed("null criterion, list and positions", null, 0, [16, 0, 0, 0, 0, 0, 0]));
    list.extend(capped::run_cuts());
    list
}

/// The slice of a plan with these places and transitions, both rising, and every arc between them, in the plan's edition, put
/// down by hand.
fn part_of(plan: &Draft, places: &[u16], transitions: &[u16]) -> Draft {
    let number = |kept: &[u16], n: u16| kept.iter().position(|&k| k == n);
    let marking = places.iter().map(|&p| plan.marking[usize::from(p)]).collect();
    let arcs = plan.arcs.iter().filter_map(|a| {
        let (t, p) = (number(transitions, a.transition)?, number(places, a.place)?);
        Some(DraftArc::new(t, a.direction, p, a.weight))
    });
    let mut slice =
        Draft::plan(marking, transitions.len(), arcs.collect()).into_slice(places.to_vec(), transitions.to_vec());
    slice.caps = places.iter().map(|&p| plan.cap(usize::from(p))).collect();
    slice.set_edition(plan.edition);
    slice
}

pub fn takings() -> Vec<Fixed<TogetherCase>> {
    let case = |plan: &[u8], transition, marking: &[u64], len| TogetherCase {
        plan: lent(plan),
        transition,
        marking: lent(marking),
        rest: buffer(len),
    };
    let mut list = Vec::new();
    const MOST: u64 = u64::MAX;
    // Written into as many entries as there are places, and into more.
    let mut answered = |name: &str, plan: &[u8], t: u32, marking: &[u64], times: Option<u64>, rest: &[u64]| {
        for more in [0, 1, 7] {
            let len = marking.len() + more;
            let number = if times.is_some() { 0 } else { 100 };
            let case = case(plan, t, marking, len);
            let mut one = fixed(format!("{name}, {more} entries more lent"), case, number, [times.unwrap_or(0)]);
            one.cells = Some(vec![Cells::Longs(after(len, rest))]);
            list.push(one);
        }
    };
    let small = small_plan().bytes();
    answered("kerb, 0 once", &small, 0, &[2, 1, 0, 0, 0], Some(1), &[1, 0, 0, 0, 0]);
    answered("kerb, 2 twice", &small, 2, &[0, 0, 0, 5, 0], Some(2), &[0, 0, 0, 1, 0]);
    answered("kerb, 3 twice", &small, 3, &[2, 1, 0, 0, 0], Some(2), &[0, 1, 0, 0, 0]);
    answered("kerb, 1 never", &small, 1, &[2, 1, 0, 0, 0], Some(0), &[2, 1, 0, 0, 0]);
    answered("kerb, by the first place", &small, 0, &[3, 9, 4, 4, 4], Some(3), &[0, 6, 4, 4, 4]);
    answered("kerb, by the second place", &small, 0, &[MOST, 9, 4, 4, MOST], Some(9), &[MOST - 9, 0, 4, 4, MOST]);
    answered("outputs do not count", &loop_net(1, 3, 0), 0, &[7], Some(7), &[0]);
    answered("a reader's tokens", &loop_net(2, 2, 9), 0, &[7], Some(3), &[1]);
    answered("the plan's own marking is another", &loop_net(1, 1, 9), 0, &[0], Some(0), &[0]);
    let a = DraftArc::new;
    let source = Draft::plan(vec![0, 0], 2, vec![a(0, 1, 1, 3)]).bytes();
    answered("no inputs", &source, 0, &[MOST, 0], None, &[MOST, 0]);
    answered("no arcs", &source, 1, &[0, 5], None, &[0, 5]);
    answered("no places", &Draft::plan(vec![], 2, vec![]).bytes(), 1, &[], None, &[]);
    // As many as there can be.
    let one = |weight| several(&[weight], &[], 0).bytes();
    answered("2^64 - 1 of 1", &one(1), 0, &[MOST], Some(MOST), &[0]);
    answered("2^64 - 1 of 2", &one(2), 0, &[MOST], Some(MOST / 2), &[1]);
    answered("2^64 - 1 of 65,535", &one(65_535), 0, &[MOST], Some(281_479_271_743_489), &[0]);
    answered("2^64 - 2 of 65,535", &one(65_535), 0, &[MOST - 1], Some(281_479_271_743_488), &[65_534]);
    answered("2^63 of 1", &one(1), 0, &[1 << 63], Some(1 << 63), &[0]);
    answered("2^32 of 1", &one(1), 0, &[1 << 32], Some(1 << 32), &[0]);
    answered("none of 1", &one(1), 0, &[0], Some(0), &[0]);
    answered("one too few", &one(65_535), 0, &[65_534], Some(0), &[65_534]);
    // Parallel arcs are taken together: by their sum, not by one of them.
    answered("parallel kerb, 2 twice", &parallel_plan().bytes(), 2, &[0, 0, 0, 5, 0], Some(2), &[0, 0, 0, 1, 0]);
    answered("2 and 3", &several(&[2, 3], &[1, 1], 0).bytes(), 0, &[14], Some(2), &[4]);
    answered("each alone would do", &several(&[2, 3], &[], 0).bytes(), 0, &[4], Some(0), &[4]);
    let drain = several(&[65_535; 4_096], &[], 0).bytes();
    answered("4,096 arcs, enough", &drain, 0, &[268_431_360], Some(1), &[0]);
    answered("4,096 arcs, one too few", &drain, 0, &[268_431_359], Some(0), &[268_431_359]);
    answered("4,096 arcs, 2^64 - 1", &drain, 0, &[MOST], Some(68_720_525_328), &[65_535]);
    let twice = Draft::plan(vec![0; 3], 1, vec![a(0, 0, 0, 2), a(0, 0, 1, 1), a(0, 0, 1, 3), a(0, 0, 2, 1)]).bytes();
    answered("by the place in the middle", &twice, 0, &[9, 11, 9], Some(2), &[5, 3, 7]);
    answered("by the last place", &twice, 0, &[MOST, MOST, 3], Some(3), &[MOST - 6, MOST - 12, 0]);
    answered("by the first of three", &twice, 0, &[1, MOST, MOST], Some(0), &[1, MOST, MOST]);
    // All places are inputs; the one in the middle decides.
    let ins = (0..1_024).map(|p| a(0, 0, p, 3)).collect();
    let wide = Draft::plan(vec![0; 1_024], 1, ins).bytes();
    let tokens = |p: usize| if p == 512 { 3_000_000_001 } else { MOST };
    let (held, left): (Vec<u64>, Vec<u64>) = (0..1_024).map(|p| (tokens(p), tokens(p) - 3_000_000_000)).unzip();
    answered("1,024 inputs", &wide, 0, &held, Some(1_000_000_000), &left);

    let mut refused = |name: String, plan: &[u8], t: u32, marking: &[u64], len: usize, number| {
        let mut one = fixed(name, case(plan, t, marking, len), number, [0]);
        one.cells = Some(vec![Cells::Longs(after(len, &[]))]);
        list.push(one);
    };
    let five = [2, 1, 0, 0, 0];
    refused("transition T".into(), &small, 4, &five, 5, 12);
    for t in [65_535, 65_536, 65_539, 1 << 31, u32::MAX] {
        refused(format!("transition {t}"), &small, t, &five, 5, 12);
    }
    refused("no transitions".into(), &one_place_plan(), 0, &[3], 1, 12);
    refused("4 entries".into(), &small, 0, &five[..4], 5, 15);
    refused("6 entries".into(), &small, 0, &[2, 1, 0, 0, 0, 0], 6, 15);
    refused("no entries".into(), &small, 0, &[], 5, 15);
    refused("65,541 entries".into(), &small, 0, &[9; 65_541], 5, 15);
    refused("1,029 entries".into(), &small, 0, &[9; 1_029], 5, 15);
    refused("no places, an entry".into(), &Draft::plan(vec![], 1, vec![]).bytes(), 0, &[0], 1, 15);
    refused("4 entries lent".into(), &small, 0, &five, 4, 13);
    refused("none lent".into(), &small, 0, &five, 0, 13);
    refused("no inputs, 1 entry lent".into(), &source, 0, &[0, 0], 1, 13);
    refused("transition before marking".into(), &small, 4, &[], 5, 12);
    refused("marking before buffer".into(), &small, 0, &[], 0, 15);
    refused("transition before buffer".into(), &small, 4, &five, 0, 12);
    for (name, bad, number) in bad_plans() {
        refused(name, &bad, 9, &[], 0, number);
    }
    let mut null = case(&small, 0, &[], 0);
    (null.marking.null, null.rest.null) = (true, true);
    list.push(fixed("null marking", null.clone(), 15, [0]));
    null.plan = Lent { null: true, ..lent([]) };
    list.push(fixed("null plan", null, 1, [0]));
    list.extend(capped::takings());
    list
}

/// Cases of the checker: a name, the three parts, the answer and its number.
fn judged() -> Vec<(String, Vec<u8>, Vec<u8>, Vec<u16>, u32, i64)> {
    let mut list: Vec<(String, Vec<u8>, Vec<u8>, Vec<u16>, u32, i64)> = Vec::new();
    let (plan, slice) = (small_plan(), small_safety());
    let mut add = |name: &str, plan: &Draft, slice: Vec<u8>, q: &[u16], number, breaking| {
        list.push((name.into(), plan.bytes(), slice, q.to_vec(), number, breaking));
    };
    let whole = small_plan().into_slice((0..5).collect(), (0..4).collect());
    add("safety cut for {2}", &plan, slice.bytes(), &[2], 0, 0);
    add("branching cut for {2}", &plan, small_branching().bytes(), &[2], 0, 0);
    add("safety cut for {3}", &plan, small_safety_for_3().bytes(), &[3], 0, 0);
    add("safety cut for {3} serves {2}", &plan, small_safety_for_3().bytes(), &[2], 0, 0);
    add("the whole plan", &plan, whole.bytes(), &[0, 1, 2, 3, 4], 0, 0);
    add("a note", &plan, counted(&slice, |d| d.note = vec![1, 2, 3]), &[2], 0, 0);
    add("rule 1", &plan, changed(&slice, |d| d.place_origins[2] = 5), &[2], 101, 2);
    add("rule 1, two of them", &plan, changed(&slice, |d| d.place_origins = vec![0, 6, 7]), &[2], 101, 1);
    add("rule 1, 65,535", &plan, changed(&slice, |d| d.place_origins[2] = 65_535), &[2], 101, 2);
    add("rule 2", &plan, changed(&slice, |d| d.transition_origins[1] = 4), &[2], 102, 1);
    add("rule 2, both", &plan, changed(&slice, |d| d.transition_origins = vec![4, 5]), &[2], 102, 0);
    add(
        "rule 1 before 2",
        &plan,
        changed(&slice, |d| (d.place_origins[2], d.transition_origins[1]) = (5, 4)),
        &[2],
        101,
        2,
    );
    add("rule 3", &plan, changed(&slice, |d| d.marking[1] = 2), &[2], 103, 1);
    add("rule 3, two of them", &plan, changed(&slice, |d| d.marking = vec![2, 0, 1]), &[2], 103, 1);
    add("rule 3, the plan's number", &plan, small_with_gap(|d| d.marking[1] = 9), &[4], 103, 4);
    add("rule 4, weight", &plan, changed(&slice, |d| d.arcs[0].weight = 2), &[2], 104, 0);
    add("rule 4, weight, later", &plan, changed(&slice, |d| d.arcs[4].weight = 2), &[2], 104, 1);
    add("rule 4, arc lost", &plan, counted(&slice, |d| d.arcs.truncate(4)), &[2], 104, 1);
    add("rule 4, arc added", &plan, counted(&slice, |d| d.arcs.insert(2, DraftArc::new(0, 0, 2, 1))), &[2], 104, 0);
    add("rule 4, direction", &plan, changed(&slice, |d| d.arcs[1].direction = 1), &[2], 104, 0);
    add("rule 4, place", &plan, changed(&slice, |d| d.arcs[4].place = 0), &[2], 104, 1);
    add("rule 4, the plan's number", &plan, changed(&slice, |d| d.transition_origins[1] = 3), &[2], 104, 3);
    add("rule 5", &plan, slice.bytes(), &[3], 105, 3);
    add("rule 5, the lowest", &plan, slice.bytes(), &[2, 3, 4], 105, 3);
    let left_out = |t: u16| {
        let mut d = small_safety();
        d.arcs.retain(|a| a.transition != t);
        d.arcs.iter_mut().for_each(|a| a.transition = 0);
        d.transition_origins = vec![1 - t];
        d.count();
        d.bytes()
    };
    add("rule 6, transition 0", &plan, left_out(0), &[2], 106, 0);
    add("rule 6, transition 1", &plan, left_out(1), &[2], 106, 1);
    let bare = Draft::plan(vec![0], 0, vec![]).into_slice(vec![2], vec![]);
    add("rule 6, the lowest", &plan, bare.bytes(), &[2], 106, 0);
    add("rule 6, lowering is changing", &plan, slice.bytes(), &[0], 106, 3);
    let a = DraftArc::new;
    let no_input = Draft::plan(vec![2, 0], 2, vec![a(0, 0, 0, 1), a(0, 1, 1, 1), a(1, 0, 1, 1)])
        .into_slice(vec![0, 2], vec![0, 1]);
    add("rule 7", &plan, no_input.bytes(), &[2], 107, 0);
    add("rule 7, the plan's number", &plan, small_with_gap(|_| ()), &[4], 107, 2);
    let source = Draft::plan(vec![0, 0], 1, vec![a(0, 0, 0, 2), a(0, 1, 1, 1)]).into_slice(vec![3, 4], vec![2]);
    add("rule 8", &plan, source.bytes(), &[4], 108, 1);
    // Lowering a kept place from outside is no fault, reading neither.
    let lowered = Draft::plan(vec![1, 0], 2, vec![a(0, 0, 0, 1), a(0, 1, 1, 1), a(1, 0, 0, 1)]);
    let kept = Draft::plan(vec![1, 0], 1, vec![a(0, 0, 0, 1), a(0, 1, 1, 1)]).into_slice(vec![0, 1], vec![0]);
    add("left out, lowers a kept place", &lowered, kept.bytes(), &[1], 0, 0);
    let read = Draft::plan(vec![1], 1, vec![a(0, 0, 0, 3), a(0, 1, 0, 3)]);
    add("left out, reads Q", &read, one_place_of(1), &[0], 0, 0);
    let grows = Draft::plan(vec![1], 1, vec![a(0, 0, 0, 3), a(0, 1, 0, 4)]);
    add("left out, raises Q in a loop", &grows, one_place_of(1), &[0], 106, 0);
    // Parallel arcs: with their repeats, in order, for rule 4; by sums for rules 6 and 8.
    let parallel = parallel_plan();
    add("parallel arcs", &parallel, parallel_safety_for_3().bytes(), &[3], 0, 0);
    add("parallel arcs joined", &parallel, small_safety_for_3().bytes(), &[3], 104, 2);
    add("an arc parted", &plan, parallel_safety_for_3().bytes(), &[3], 104, 2);
    add("one of two lost", &parallel, counted(&parallel_safety_for_3(), |d| d.arcs.truncate(7)), &[3], 104, 2);
    let three = several(&[1, 2, 1], &[5], 0);
    let slice_of_three = three.clone().into_slice(vec![0], vec![0]);
    add("three parallel arcs", &three, slice_of_three.bytes(), &[0], 0, 0);
    add("three permuted", &three, changed(&slice_of_three, |d| d.arcs.swap(0, 1)), &[0], 104, 0);
    add("three, another sum", &three, changed(&slice_of_three, |d| d.arcs[2].weight = 2), &[0], 104, 0);
    add("left out, reads Q by sums", &several(&[1, 3], &[2, 2], 1), one_place_of(1), &[0], 0, 0);
    add("left out, changes Q by sums", &several(&[2, 2], &[2, 1], 1), one_place_of(1), &[0], 106, 0);
    let raiser =
        Draft::plan(vec![1, 0], 2, vec![a(0, 0, 0, 1), a(0, 1, 1, 1), a(1, 0, 0, 2), a(1, 1, 0, 1), a(1, 1, 0, 2)]);
    let without = Draft::plan(vec![1, 0], 1, vec![a(0, 0, 0, 1), a(0, 1, 1, 1)]).into_slice(vec![0, 1], vec![0]);
    add("left out, raises by sums", &raiser, without.bytes(), &[1], 108, 1);
    // Harmless extras: a transition without arcs, a place without arcs.
    let spare = Draft::plan(vec![1, 5], 2, vec![a(1, 0, 0, 1)]);
    let all = spare.clone().into_slice(vec![0, 1], vec![0, 1]);
    add("spare place and transition", &spare, all.bytes(), &[0], 0, 0);

    // For no place: the empty slice is accepted, a larger one too; rules 1 to 4, 7 and 8 bind.
    add("for no place", &plan, empty_slice(), &[], 0, 0);
    add("for no place, a note", &plan, [&[1, 2, 3], &empty_slice()[..]].concat(), &[], 0, 0);
    add("for no place, no place in the plan", &Draft::plan(vec![], 1, vec![]), empty_slice(), &[], 0, 0);
    add("for no place, the full net", &full_net(), empty_slice(), &[], 0, 0);
    add("for {2}, the empty slice", &plan, empty_slice(), &[2], 105, 2);
    add("for no place, the cut for {2}", &plan, slice.bytes(), &[], 0, 0);
    add("for no place, the whole plan", &plan, whole.bytes(), &[], 0, 0);
    add("for no place, rule 1", &plan, changed(&slice, |d| d.place_origins[2] = 5), &[], 101, 2);
    add("for no place, rule 2", &plan, changed(&slice, |d| d.transition_origins[1] = 4), &[], 102, 1);
    add("for no place, rule 3", &plan, changed(&slice, |d| d.marking[1] = 2), &[], 103, 1);
    add("for no place, rule 4", &plan, changed(&slice, |d| d.arcs[0].weight = 2), &[], 104, 0);
    add("for no place, rule 7", &plan, no_input.bytes(), &[], 107, 0);
    add("for no place, rule 8", &plan, bare.bytes(), &[], 108, 0);
    let lowered = Draft::plan(vec![2], 0, vec![]).into_slice(vec![0], vec![]);
    add("for no place, rule 6 is of no place", &plan, lowered.bytes(), &[], 0, 0);
    add("for place 0, rule 6", &plan, lowered.bytes(), &[0], 106, 0);
    add("criterion 5", &plan, slice.bytes(), &[5], 10, 0);
    add("criterion equal", &plan, slice.bytes(), &[2, 2], 10, 0);
    add("criterion falling", &plan, slice.bytes(), &[2, 1], 10, 0);
    add("criterion before rules", &plan, changed(&slice, |d| d.place_origins[2] = 9), &[5], 10, 0);
    for (name, bad, number) in bad_plans() {
        list.push((format!("plan: {name}"), bad.clone(), slice.bytes(), vec![], number, 0));
        list.push((format!("plan before slice: {name}"), bad, vec![], vec![2], number, 0));
    }
    for (name, bad, number) in bad_slices() {
        list.push((format!("slice: {name}"), plan.bytes(), bad, vec![], number, 0));
    }
    list.extend(capped::judged());
    list
}

/// Place 2 and 4 and transition 2 of the kerb, changed: bell is raised, its input is not there.
fn small_with_gap(change: impl FnOnce(&mut Draft)) -> Vec<u8> {
    let gap = Draft::plan(vec![0, 0], 1, vec![DraftArc::new(0, 1, 1, 1)]).into_slice(vec![2, 4], vec![2]);
    changed(&gap, change)
}

fn one_place_of(tokens: u32) -> Vec<u8> {
    Draft::plan(vec![tokens], 0, vec![]).into_slice(vec![0], vec![]).bytes()
}

pub fn verdicts() -> Vec<Fixed<VerdictCase>> {
    let case = |(name, plan, slice, q, number, breaking): (String, Vec<u8>, Vec<u8>, Vec<u16>, u32, i64)| {
        let case = VerdictCase { plan: lent(plan), slice: lent(slice), q: lent(q) };
        fixed(name, case, number, [breaking])
    };
    judged().into_iter().map(case).collect()
}

pub fn checks() -> Vec<Fixed<CheckCase>> {
    let case =
        |plan: Vec<u8>, slice: Vec<u8>, q: Vec<u8>| CheckCase { plan: lent(plan), slice: lent(slice), q: lent(q) };
    let mut list: Vec<Fixed<CheckCase>> = judged()
        .into_iter()
        .map(|(name, plan, slice, q, number, _)| fixed(name, case(plan, slice, to_bytes(&q)), number, [0; 0]))
        .collect();
    let (plan, slice) = (small_plan().bytes(), small_safety().bytes());
    let odd: [(&str, &[u8]); 4] = [
        ("one byte", &[2]),
        ("three bytes", &[2, 0, 3]),
        ("odd, and 10 too", &[9, 9, 9]),
        ("odd and falling", &[2, 0, 1, 0, 0]),
    ];
    for (name, q) in odd {
        list.push(fixed(name, case(plan.clone(), slice.clone(), q.to_vec()), 9, [0; 0]));
    }
    let mut none = case(plan.clone(), empty_slice(), vec![]);
    none.q.null = true;
    list.push(fixed("no bytes at null", none, 0, [0; 0]));
    list.push(fixed("one byte, the empty slice", case(plan.clone(), empty_slice(), vec![0]), 9, [0; 0]));
    list.push(fixed("high byte", case(plan, slice, vec![2, 1]), 10, [0; 0]));
    let mut null = case(vec![], vec![], vec![]);
    (null.plan.null, null.slice.null, null.q.null) = (true, true, true);
    list.push(fixed("null pointers", null, 1, [0; 0]));
    list
}

#[cfg(test)]
mod tests {
    use super::*;
    use crate::net::Kind;
    use crate::read::read;

    fn hold<C: Case>(list: Vec<Fixed<C>>) {
        for one in &list {
            let answer = one.case.second();
            if let Some(due) = one.fault(&answer) {
                panic!("{}\n{}answer: {}\n{due}", one.name, one.case.show(), answer.show());
            }
        }
    }

    #[test]
    fn lengths_told_by_the_paper() {
        assert_eq!(small_plan().bytes().len(), 108);
        assert_eq!((small_safety().bytes().len(), small_safety().arcs.len()), (78, 5));
        assert_eq!((small_branching().bytes().len(), small_branching().arcs.len()), (88, 6));
        assert_eq!((small_safety_for_3().bytes().len(), small_safety_for_3().arcs.len()), (102, 7));
        assert_eq!(parallel_plan().bytes().len(), 116);
        assert_eq!((parallel_safety_for_3().bytes().len(), parallel_safety_for_3().arcs.len()), (110, 8));
    }

    #[test]
    fn good_files_are_read() {
        let mut longest = small_plan();
        longest.note = vec![0; 65_536 - 108];
        let files = [
            (one_place_plan(), Kind::Plan),
            (one_place_slice(), Kind::Slice),
            (empty_slice(), Kind::Slice),
            ([&[0; 65_520], &empty_slice()[..]].concat(), Kind::Slice),
            (small_plan().bytes(), Kind::Plan),
            (longest.bytes(), Kind::Plan),
            (Draft::plan(vec![], 1, vec![]).bytes(), Kind::Plan),
            (full_net().bytes(), Kind::Plan),
            (parallel_plan().bytes(), Kind::Plan),
            (parallel_safety_for_3().bytes(), Kind::Slice),
            (several(&[9, 1, 9, 9], &[2, 65_535, 1], 0).bytes(), Kind::Plan),
            (full_net().into_slice((0..1_024).collect(), (0..1_024).collect()).bytes(), Kind::Slice),
        ];
        for (file, kind) in files {
            assert_eq!(read(&file, Some(kind)).map(|net| net.kind), Ok(kind));
            assert_eq!(read(&file, None).map(|net| net.kind), Ok(kind));
        }
    }

    #[test]
    fn refusals_of_files() {
        for (name, file, number) in bad_plans() {
            assert_eq!(read(&file, Some(Kind::Plan)).err(), Some(number), "plan: {name}");
        }
        for (name, file, number) in bad_slices() {
            assert_eq!(read(&file, Some(Kind::Slice)).err(), Some(number), "slice: {name}");
        }
        for (name, file, number) in bad_of_either() {
            assert_eq!(read(&file, None).err(), Some(number), "either: {name}");
        }
    }

    #[test]
    fn effect_examples() {
        hold(effects());
    }

    #[test]
    fn arc_run_examples() {
        hold(arc_runs());
    }

    #[test]
    fn replay_examples() {
        hold(replays());
    }

    #[test]
    fn safety_examples() {
        hold(cuts(Cut::Safety));
    }

    #[test]
    fn branching_examples() {
        hold(cuts(Cut::Branching));
    }

    #[test]
    fn shadow_examples() {
        hold(shadows());
    }

    #[test]
    fn run_cut_examples() {
        hold(run_cuts());
    }

    /// The lengths of the request's own examples, counted by hand.
    #[test]
    fn run_cuts_are_of_the_length_told() {
        let lengths = |name: &str| {
            let cases = run_cuts().into_iter().filter(|one| one.name.starts_with(name) && one.number == 0);
            cases.map(|one| one.outs[..4].to_vec()).next().expect("a case")
        };
        assert_eq!(lengths("bell rung"), [116, 5, 3, 5]);
        assert_eq!(lengths("one left"), [92, 4, 2, 2]);
        assert_eq!(lengths("one was in the bay"), [60, 3, 1, 1]);
        assert_eq!(lengths("for no place"), [16, 0, 0, 0]);
    }

    #[test]
    fn taking_examples() {
        hold(takings());
    }

    #[test]
    fn range_examples() {
        hold(ranges());
    }

    #[test]
    fn normal_examples() {
        hold(normals());
    }

    #[test]
    fn transfer_examples() {
        hold(transfers());
    }

    #[test]
    fn examples_from_a_start() {
        hold(replays_from());
        hold(cuts_from(Cut::Safety));
        hold(cuts_from(Cut::Branching));
        hold(verdicts_from());
    }

    #[test]
    fn text_examples() {
        hold(texts());
    }

    #[test]
    fn verdict_examples() {
        hold(verdicts());
    }

    #[test]
    fn check_examples() {
        hold(checks());
    }
}
