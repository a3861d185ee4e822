//! The nets that are timed, each with a criterion, its safety cut and a list that fires.

use nesfoal_tests::cut::{kept, Cut, Kept};
use nesfoal_tests::gen::{to_bytes, Draft, DraftArc};
use nesfoal_tests::net::{Direction, Kind, Net, MAX_LIST};
use nesfoal_tests::read::read;
use nesfoal_tests::replay::{fire, initial};
use nesfoal_tests::rng::Rng;
use nesfoal_tests::write::slice_bytes;

/// What the calls get: one net.
pub struct Input {
    pub name: String,
    pub plan: Vec<u8>,
    pub q: Vec<u16>,
    pub q_bytes: Vec<u8>,
    /// The safety cut of the plan for the criterion.
    pub slice: Vec<u8>,
    /// What the check answers.
    pub checked: u32,
    /// Firings of the plan that all fire.
    pub list: Vec<u16>,
    /// The criterion of the run cut: the first place that the list's last firing to raise any raises.
    pub fed: Vec<u16>,
    /// An arc's place and transition.
    pub place: u32,
    pub transition: u32,
    /// A transition with inputs, and a marking from which they are taken: any 64-bit numbers.
    pub taking: u32,
    pub tokens: Vec<u64>,
    /// The upper end of a range of markings: the plan's own, so that the list fires from all of it.
    pub upper: Vec<u32>,
    /// Places, transitions and arcs of the plan and of the slice.
    pub counts: [[usize; 3]; 2],
    /// The plan has caps, so that there is no run cut and no range.
    pub capped: bool,
}

impl Input {
    fn new(name: &str, draft: Draft, q: Option<u16>, firings: usize) -> Input {
        let plan = draft.bytes();
        let net = read(&plan, Some(Kind::Plan)).expect("a good plan");
        // Without a place told: the first one whose safety cut keeps half of the places at least.
        let large = |q: &u16| 2 * kept(&net, Cut::Safety, &[*q]).place_count() >= net.places();
        let q = vec![q.or_else(|| (0..net.places() as u16).find(large)).expect("a large cut")];
        let slice = slice_bytes(&net, &kept(&net, Cut::Safety, &q));
        Input::with(name, net, plan, q, slice, firings)
    }

    fn with(name: &str, net: Net, plan: Vec<u8>, q: Vec<u16>, slice: Vec<u8>, firings: usize) -> Input {
        let slice_net = read(&slice, Some(Kind::Slice)).expect("a good slice");
        let counts = [&net, &slice_net].map(|n| [n.places(), n.transitions(), n.arcs.len()]);
        let half = net.arcs.len() / 2;
        let (middle, input) =
            (net.arcs[half], net.arcs[half..].iter().chain(&net.arcs).find(|a| a.direction == Direction::In));
        let mut rng = Rng::new(6);
        let list = firing_list(&net, firings);
        Input {
            name: name.into(),
            plan,
            q_bytes: to_bytes(&q),
            q,
            slice,
            checked: 0,
            fed: last_raised(&net, &list),
            list,
            place: middle.place.into(),
            transition: middle.transition.into(),
            taking: input.expect("a transition with inputs").transition.into(),
            tokens: (0..net.places()).map(|_| rng.next()).collect(),
            upper: net.marking.clone(),
            counts,
            capped: net.has_caps(),
        }
    }

    pub fn describe(&self) -> String {
        let [[p, t, a], [kept_p, kept_t, kept_a]] = self.counts;
        let (name, q, bytes, firings) = (&self.name, self.q[0], self.plan.len(), self.list.len());
        format!(
            "{name}: {p} places, {t} transitions, {a} arcs, {bytes} bytes; safety cut for place {q}: {kept_p}, {kept_t}, \
             {kept_a}, {} bytes; {firings} firings",
            self.slice.len()
        )
    }
}

/// The first place that the list's last firing to raise any raises; none if there is no such firing.
fn last_raised(net: &Net, list: &[u16]) -> Vec<u16> {
    let raised = |&t: &u16| {
        let mut first = None;
        net.each_effect(usize::from(t), |p, effect| {
            if effect > 0 && first.is_none() {
                first = Some(p as u16);
            }
        });
        first
    };
    list.iter().rev().find_map(raised).into_iter().collect()
}

/// So many firings: each time a random transition, or the next one that is enabled. Fewer if none is.
fn firing_list(net: &Net, firings: usize) -> Vec<u16> {
    let mut rng = Rng::new(5);
    let mut marking = initial(net);
    let count = net.transitions();
    let mut list = Vec::with_capacity(firings);
    while list.len() < firings {
        let first = rng.below(count);
        let fired = (0..count).map(|i| (first + i) % count).find(|&t| fire(net, t, &mut marking).is_ok());
        match fired {
            Some(t) => list.push(t as u16),
            None => break,
        }
    }
    list
}

/// The nine nets.
pub fn nine() -> Vec<Input> {
    NINE.iter().map(|make| make()).collect()
}

const NINE: [fn() -> Input; 9] = [
    || small(2, 5),
    || random(100, 11),
    || random(1_000, 11),
    || chain(1_024),
    || wide(1_024),
    || readers_writers(22),
    || doubles(1_000, 11),
    || parallel(4_096),
    || capped(1_000, 11),
];

/// The first of the nine, then of the checks, whose name starts so; those after it are not made.
pub fn named(start: &str) -> Option<Input> {
    let starts = |input: &Input| input.name.starts_with(start);
    NINE.iter().map(|make| make()).find(starts).or_else(|| checks().into_iter().find(starts))
}

/// Random nets of one kind, so many that the branches of none are learnt by heart when they are taken in turn.
pub fn many(kind: fn(usize, u64) -> Input, size: usize) -> Vec<Input> {
    let mut many: Vec<Input> = (11..27).map(|seed| kind(size, seed)).collect();
    many[0].name = format!("{} {}", many.len(), many[0].name);
    many
}

/// Checks of plans with 4,096 arcs, by what they answer; nearly all of the arcs are in the slice.
pub fn checks() -> Vec<Input> {
    let last = ARCS - 1;
    let readers = (0..SIZE).filter(|&i| !stays(i)).flat_map(|t| [0, 1].map(|d| DraftArc::new(t, d, 0, 1)));
    vec![
        check("accepted", Vec::new(), 0, |_| ()),
        check("rule 4 broken at the last arc", Vec::new(), 104, |slice| slice.arcs[last].weight ^= 3),
        check("rule 8 broken at the last transition", vec![DraftArc::new(SIZE - 1, 1, 1, 1)], 108, |_| ()),
        check("accepted, 64 transitions left out read Q", readers.collect(), 0, |_| ()),
    ]
}

const SIZE: usize = 1_024;
const ARCS: usize = 4_096;

/// Every sixteenth place and transition is left out.
fn stays(i: usize) -> bool {
    i % 16 != 15
}

/// The arcs told, and the others between what stays, at random; the slice for place 0 is changed as told.
fn check(name: &str, mut arcs: Vec<DraftArc>, checked: u32, change: impl Fn(&mut Draft)) -> Input {
    let mut rng = Rng::new(11);
    let kept: Vec<usize> = (0..SIZE).filter(|&i| stays(i)).collect();
    for (t, d, p) in keys(&mut rng, kept.len(), ARCS - arcs.len()) {
        arcs.push(DraftArc::new(kept[t], d, kept[p], rng.range(1, 2) as u16));
    }
    arcs.sort_by_key(|a| (a.transition, a.direction, a.place));
    let marking = (0..SIZE).map(|_| rng.range(50, 500) as u32).collect();
    let plan = Draft::plan(marking, SIZE, arcs).bytes();
    let net = read(&plan, Some(Kind::Plan)).expect("a good plan");
    let places: Vec<bool> = (0..SIZE).map(stays).collect();
    let slice = slice_bytes(&net, &Kept { transitions: places.clone(), places });
    let mut draft = Draft::of(&read(&slice, Some(Kind::Slice)).expect("a good slice"));
    change(&mut draft);
    let mut input = Input::with(name, net, plan, vec![0], draft.bytes(), 0);
    input.checked = checked;
    input
}

/// Paper 01's worked example, with so many tokens waiting and so many firings.
pub fn small(waiting: u32, firings: usize) -> Input {
    let arcs = [
        (0, 0, 0, 1),
        (0, 0, 1, 1),
        (0, 1, 2, 1),
        (1, 0, 2, 1),
        (1, 1, 1, 1),
        (1, 1, 3, 1),
        (2, 0, 3, 2),
        (2, 1, 4, 1),
        (3, 0, 0, 1),
    ];
    let arcs = arcs.iter().map(|&(t, d, p, w)| DraftArc::new(t, d, p, w)).collect();
    let draft = Draft::plan(vec![waiting, 1, 0, 0, 0], 4, arcs);
    let mut input = Input::new("small", draft, Some(2), firings);
    if waiting == 2 {
        (input.list, input.fed) = (vec![0, 1, 0, 1, 2], vec![4]);
    } else {
        input.name = "small, refilled".into();
    }
    input
}

/// So many places and transitions, four arcs for each on average: transition, direction and place at random.
pub fn random(size: usize, seed: u64) -> Input {
    let mut rng = Rng::new(seed);
    let keys = keys(&mut rng, size, 4 * size);
    weighted(&mut rng, &format!("random {size}"), size, &keys)
}

/// The same with parallel arcs: for each transition three arcs and one of them again on average.
pub fn doubles(size: usize, seed: u64) -> Input {
    let mut rng = Rng::new(seed);
    let mut keys = keys(&mut rng, size, 3 * size);
    for _ in 0..size {
        keys.push(keys[rng.below(3 * size)]);
    }
    keys.sort();
    weighted(&mut rng, &format!("doubles {size}"), size, &keys)
}

/// Random nets in edition 2: some three places of ten have a cap, which is met before long.
pub fn capped(size: usize, seed: u64) -> Input {
    let mut rng = Rng::new(seed);
    let keys = keys(&mut rng, size, 4 * size);
    let draft = weights(&mut rng, size, &keys);
    let cap = |&held: &u32| if rng.percent(30) { held + rng.below(100) as u32 } else { 0 };
    let caps = draft.marking.iter().map(cap).collect();
    Input::new(&format!("capped {size}"), draft.with_caps(caps), None, MAX_LIST)
}

/// Transition, direction and place.
type Key = (usize, u8, usize);

/// So many of them, in order, each once.
fn keys(rng: &mut Rng, size: usize, count: usize) -> Vec<Key> {
    let mut keys = Vec::new();
    while keys.len() < count {
        while keys.len() < count {
            keys.push((rng.below(size), rng.below(2) as u8, rng.below(size)));
        }
        keys.sort();
        keys.dedup();
    }
    keys
}

fn weighted(rng: &mut Rng, name: &str, size: usize, keys: &[Key]) -> Input {
    Input::new(name, weights(rng, size, keys), None, MAX_LIST)
}

fn weights(rng: &mut Rng, size: usize, keys: &[Key]) -> Draft {
    let arcs = keys.iter().map(|&(t, d, p)| DraftArc::new(t, d, p, rng.range(1, 2) as u16)).collect();
    let marking = (0..size).map(|_| rng.range(50, 500) as u32).collect();
    Draft::plan(marking, size, arcs)
}

/// One place and one transition: half of the arcs take, the others give one token more.
pub fn parallel(arcs: usize) -> Input {
    let half = arcs / 2;
    let ins = (0..half).map(|_| DraftArc::new(0, 0, 0, 1));
    let outs = (0..half).map(|i| DraftArc::new(0, 1, 0, if i + 1 == half { 2 } else { 1 }));
    let draft = Draft::plan(vec![half as u32], 1, ins.chain(outs).collect());
    Input::new(&format!("parallel {arcs}"), draft, Some(0), MAX_LIST)
}

/// A chain of places, numbered backwards: transition t moves a token from place t + 1 to place t.
pub fn chain(places: usize) -> Input {
    let mut arcs = Vec::new();
    for t in 0..places - 1 {
        arcs.push(DraftArc::new(t, 0, t + 1, 1));
        arcs.push(DraftArc::new(t, 1, t, 1));
    }
    let mut marking = vec![0; places];
    // A token makes places - 1 moves.
    marking[places - 1] = (2 * MAX_LIST / (places - 1)) as u32;
    Input::new(&format!("chain {places}"), Draft::plan(marking, places - 1, arcs), Some(0), MAX_LIST)
}

/// One transition with an arc from and to every place; it raises three of four places and reads the fourth.
pub fn wide(places: usize) -> Input {
    let ins = (0..places).map(|p| DraftArc::new(0, 0, p, 1));
    let outs = (0..places).map(|p| DraftArc::new(0, 1, p, if p % 4 == 0 { 1 } else { 2 }));
    let draft = Draft::plan(vec![1; places], 1, ins.chain(outs).collect());
    Input::new(&format!("wide {}", 2 * places), draft, Some(1), MAX_LIST)
}

/// Rakow's readers and writers: n readers, n writers, a counter of the reading ones and a place for a writing one.
pub fn readers_writers(n: usize) -> Input {
    let (start, counter, writing) = (0, 1, n + 2);
    let (reader, writer) = (n + 3, 3 * n + 3);
    let mut arcs = vec![DraftArc::new(0, 0, start, 1), DraftArc::new(0, 1, counter, 1)];
    let mut t = 1;
    // A transition and its reverse: from the two places to the two others and back.
    let mut pair = |from: [usize; 2], to: [usize; 2]| {
        for (takes, gives) in [(from, to), (to, from)] {
            takes.iter().for_each(|&p| arcs.push(DraftArc::new(t, 0, p, 1)));
            gives.iter().for_each(|&p| arcs.push(DraftArc::new(t, 1, p, 1)));
            t += 1;
        }
    };
    for i in 0..n {
        let (idle, active) = (reader + 2 * i, reader + 2 * i + 1);
        for j in 0..n {
            pair([counter + j, idle], [counter + j + 1, active]);
        }
        let (idle, active) = (writer + 2 * i, writer + 2 * i + 1);
        pair([counter, idle], [writing, active]);
    }
    let mut marking = vec![0; 5 * n + 3];
    marking[start] = 1;
    (0..2 * n).for_each(|i| marking[reader + 2 * i] = 1);
    Input::new(&format!("rw({n})"), Draft::plan(marking, t, arcs), Some(counter as u16), MAX_LIST)
}

#[cfg(test)]
mod tests {
    use super::*;

    #[test]
    fn readers_writers_are_as_published() {
        let published = nesfoal_tests::published::nets();
        let net = published.iter().find(|n| n.name == "rakow-rw-6").unwrap();
        assert_eq!(readers_writers(6).plan, net.plan);
        assert_eq!(readers_writers(22).counts[0], [113, 1_013, 4_050]);
    }

    /// Three of ten places have a cap, and the list meets it: without caps the same choice of transitions fires otherwise.
    #[test]
    fn caps_are_met() {
        let input = capped(1_000, 11);
        let net = read(&input.plan, Some(Kind::Plan)).unwrap();
        let count = net.caps.iter().filter(|&&cap| cap > 0).count();
        assert!((270..330).contains(&count), "{count}");
        let uncapped = Net { caps: vec![0; 1_000], ..net.clone() };
        assert_ne!(firing_list(&uncapped, MAX_LIST), input.list);
        let slice = read(&input.slice, Some(Kind::Slice)).unwrap();
        assert_eq!((net.edition, slice.edition), (2, 2));
        assert!(slice.has_caps());
    }

    #[test]
    fn checks_answer_as_told() {
        for input in checks() {
            let number = nesfoal_tests::check::check_number(&input.plan, &input.slice, &input.q_bytes);
            assert_eq!(number, input.checked, "{}", input.name);
            assert_eq!(input.counts[0], [SIZE, SIZE, ARCS]);
        }
        let arcs: Vec<usize> = checks().iter().map(|input| input.counts[1][2]).collect();
        assert_eq!(arcs, [4_096, 4_096, 4_095, 3_968]);
    }

    #[test]
    fn nets_are_of_the_size_told() {
        let nets = nine();
        let counts: Vec<[usize; 3]> = nets.iter().map(|n| n.counts[0]).collect();
        let wide = [1_024, 1, 2_048];
        assert_eq!(counts[..3], [[5, 4, 9], [100, 100, 400], [1_000, 1_000, 4_000]]);
        assert_eq!(counts[3..6], [[1_024, 1_023, 2_046], wide, [113, 1_013, 4_050]]);
        assert_eq!(counts[6..], [[1_000, 1_000, 4_000], [1, 1, 4_096], [1_000, 1_000, 4_000]]);
        assert!(nets[1..].iter().all(|n| n.list.len() == MAX_LIST));
        assert_eq!(nets.iter().filter(|n| n.capped).count(), 1);
        assert_eq!(small(2, 5).plan.len(), 108);
    }
}
