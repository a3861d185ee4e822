//! The checker's guarantee, tried: for slices that the library accepts, lists of the plan are run with their
//! shadow, and lists that fire in the slice are replayed in both.
//!
//! The shadow of a list, of one that sticks too, fires in the slice; tokens on a kept place are then at
//! least those that the run in the plan left, and the same on Q. A list that fires in the slice fires in the plan
//! and leaves the same tokens on every kept place. And every accepted slice has all that our safety cut has. Firing is by the
//! caps, where there are any.
//!
//! Of our branching cut: it is accepted and leaves out nothing that changes a kept place; a list that fires
//! in the plan leaves the plan's tokens on all its places (`exact`); and every accepted slice that leaves
//! out nothing that changes a kept place has all that it has (`contained`).

use crate::both::replay;
use crate::frame::{on_threads, print_histogram, Found, Settings};
use crate::library;
use nesfoal_tests::cases::*;
use nesfoal_tests::cut::{kept, Cut};
use nesfoal_tests::gen::{guarantee_case, GuaranteeCase};
use nesfoal_tests::net::{changes, Kind, Net};
use nesfoal_tests::read::read;
use nesfoal_tests::replay::{fire_list, Replayed};
use nesfoal_tests::rng::Rng;
use nesfoal_tests::write::slice_bytes;
use std::sync::atomic::{AtomicU64, Ordering};
use std::time::Instant;

const NAME: &str = "guarantee";
const EXACT: &str = "exact";
const CONTAINED: &str = "contained";

pub fn compare(settings: &Settings) -> bool {
    let start = Instant::now();
    let found = [NAME, EXACT, CONTAINED].map(|name| (name, Found::default()));
    let [accepted, others, changers, other_changers, capped, full] = [(); 6].map(|()| AtomicU64::new(0));
    println!("compare {NAME}: {} random cases", settings.cases);
    let histogram = on_threads(settings.cases, |number, histogram| {
        let mut rng = Rng::for_case(settings.seed, NAME, number);
        let case = guarantee_case(&mut rng);
        let verdict = library_verdict(&case, &case.slice);
        if verdict == 0 {
            let seen = Accepted::of(&case);
            for (count, counts) in [
                (&accepted, true),
                (&others, seen.safety != case.slice),
                (&changers, seen.keeps_changers),
                (&other_changers, seen.keeps_changers && seen.branching != case.slice),
                (&capped, seen.slice.has_caps()),
                (&full, seen.slice.has_caps() && seen.is_full()),
            ] {
                count.fetch_add(u64::from(counts), Ordering::Relaxed);
            }
            let faults = [Accepted::guaranteed, Accepted::exact, Accepted::contained]
                .map(|held| held(&seen, settings.broken).err());
            for ((name, found), fault) in found.iter().zip(faults) {
                if let Some(fault) = fault {
                    let at = format!("seed {} case {number}", settings.seed);
                    found.difference(name, &at, || format!("{}  {fault}", show(&case)));
                }
            }
        }
        *histogram.entry(verdict.to_string()).or_insert(0) += 1;
    });
    print_histogram(NAME, &histogram);
    let [accepted, others, changers, other_changers, capped, full] =
        [accepted, others, changers, other_changers, capped, full].map(AtomicU64::into_inner);
    println!("  accepted slices: {accepted}, of which {others} are not our own safety cut");
    println!(
        "  {changers} keep all that changes their places, of which {other_changers} are not our own branching cut"
    );
    println!("  {capped} have caps; for {full} of them the plan's list finds a place full");
    let seconds = start.elapsed().as_secs_f64();
    for (name, found) in &found {
        println!("compare {name}: {} cases, {} differences ({seconds:.1} s)", settings.cases, found.count());
    }
    found.iter().all(|(_, found)| found.count() == 0)
}

fn library_verdict(case: &GuaranteeCase, slice: &[u8]) -> u32 {
    let (plan, slice) = (Lent::plain(case.plan.clone()), Lent::plain(slice.to_vec()));
    library::verdict(&VerdictCase { plan, slice, q: Lent::plain(case.q.clone()) }).number
}

/// An accepted slice, read, with our two cuts of the plan.
struct Accepted<'a> {
    case: &'a GuaranteeCase,
    plan: Net,
    slice: Net,
    keeps_changers: bool,
    safety: Vec<u8>,
    branching: Vec<u8>,
}

impl Accepted<'_> {
    fn of(case: &GuaranteeCase) -> Accepted<'_> {
        let plan = read(&case.plan, Some(Kind::Plan)).expect("the generator's plan");
        let slice = read(&case.slice, Some(Kind::Slice)).expect("the generator's slice");
        let keeps_changers = keeps_changers(&plan, &slice);
        let (safety, branching) = (our_cut(case, &plan, Cut::Safety), our_cut(case, &plan, Cut::Branching));
        Accepted { case, plan, slice, keeps_changers, safety, branching }
    }

    /// Whether the plan's list finds a place full.
    fn is_full(&self) -> bool {
        matches!(fire_list(&self.plan, &self.case.plan_list).0, Replayed::Stuck { why, .. } if why.full)
    }

    /// Fails where the checker's guarantee does.
    fn guaranteed(&self, broken: bool) -> Result<(), String> {
        let (case, plan, slice) = (self.case, &self.plan, &self.slice);
        // From the plan to the slice.
        for (origin, there, here) in self.shadow(&case.slice)? {
            // The error to expect: taking all kept places as equal.
            let equal_due = case.q.contains(&origin) || broken;
            if here < there || (equal_due && here != there) {
                return Err(format!("plan's list: {there} tokens on place {origin}, {here} in the slice"));
            }
        }

        // From the slice to the plan.
        let in_slice = replay(slice, &case.slice, &case.slice_list)?.ok_or("the slice's list does not fire")?;
        let lifted: Vec<u16> = case.slice_list.iter().map(|&t| slice.transition_origins[usize::from(t)]).collect();
        let in_plan = replay(plan, &case.plan, &lifted)?.ok_or("the slice's list does not fire in the plan")?;
        for (number, &origin) in slice.place_origins.iter().enumerate() {
            let (there, here) = (in_plan[usize::from(origin)], in_slice[number]);
            if here != there {
                return Err(format!("slice's list: {there} tokens on place {origin}, {here} in the slice"));
            }
        }

        // Our safety cut is the smallest.
        let cut = read_cut(&self.safety)?;
        contains(slice, &cut).ok_or("our safety cut has something that the accepted slice has not".into())
    }

    /// Fails where the tokens on a place of our branching cut are not the plan's.
    fn exact(&self, broken: bool) -> Result<(), String> {
        // The error to expect: taking the safety cut for exact.
        let file = if broken { &self.safety } else { &self.branching };
        match self.shadow(file)?.into_iter().find(|(_, there, here)| here != there) {
            Some((origin, there, here)) => Err(format!("{there} tokens on place {origin}, {here} in our cut")),
            None => Ok(()),
        }
    }

    /// Fails where our branching cut is not the smallest accepted slice that keeps what changes its places.
    fn contained(&self, broken: bool) -> Result<(), String> {
        let cut = read_cut(&self.branching)?;
        if library_verdict(self.case, &self.branching) != 0 {
            return Err("our branching cut is not accepted".into());
        }
        if !keeps_changers(&self.plan, &cut) {
            return Err("our branching cut leaves out what changes a kept place".into());
        }
        // The error to expect: asking it of every accepted slice.
        if !self.keeps_changers && !broken {
            return Ok(());
        }
        contains(&self.slice, &cut).ok_or("our branching cut has something that the accepted slice has not".into())
    }

    /// The plan's list in the plan, as far as it fires, and its shadow in a slice: for each place of the slice its
    /// origin, the tokens in the plan and those in the slice.
    fn shadow(&self, file: &[u8]) -> Result<Vec<(u16, u64, u64)>, String> {
        let slice = read_cut(file)?;
        let (in_plan, shadow) = shadow(&self.plan, self.case, file)?;
        let in_slice = replay(&slice, file, &shadow)?.ok_or("the shadow does not fire in the slice")?;
        let there = slice.place_origins.iter().map(|&origin| (origin, in_plan[usize::from(origin)]));
        Ok(there.zip(in_slice).map(|((origin, there), here)| (origin, there, here)).collect())
    }
}

fn read_cut(file: &[u8]) -> Result<Net, String> {
    read(file, Some(Kind::Slice)).map_err(|n| format!("the slice is refused with {n}"))
}

/// Whether every transition that changes a kept place is kept.
fn keeps_changers(plan: &Net, slice: &Net) -> bool {
    let mut places = vec![false; plan.places()];
    slice.place_origins.iter().for_each(|&p| places[usize::from(p)] = true);
    (0..plan.transitions())
        .all(|t| slice.transition_origins.contains(&(t as u16)) || !plan.has_effect(t, &places, changes))
}

/// Some where the slice has all places and transitions of the cut, and at least as many of each.
pub fn contains(slice: &Net, cut: &Net) -> Option<()> {
    let within = |some: &[u16], all: &[u16]| some.iter().all(|n| all.contains(n));
    let members =
        within(&cut.place_origins, &slice.place_origins) && within(&cut.transition_origins, &slice.transition_origins);
    let counts = cut.places() <= slice.places() && cut.transitions() <= slice.transitions();
    (members && counts).then_some(())
}

/// The marking that the plan's list leaves and its shadow, by the second implementation and, where it is on, by the library.
fn shadow(plan: &Net, case: &GuaranteeCase, file: &[u8]) -> Result<(Vec<u64>, Vec<u16>), String> {
    let case = ShadowCase {
        plan: Lent::plain(case.plan.clone()),
        slice: Lent::plain(file.to_vec()),
        list: Lent::plain(case.plan_list.clone()),
        marking: Lent::plain(vec![0; plan.places()]),
        out: Lent::plain(vec![0; case.plan_list.len()]),
    };
    let answer = case.second();
    #[cfg(feature = "shadow")]
    let answer = {
        let library = library::shadow(&case);
        if library != answer {
            return Err(format!("shadows differ: library {}", library.show()));
        }
        library
    };
    let count = answer.outs[3] as usize;
    match &answer.cells[..] {
        [Cells::Longs(marking), Cells::Halves(out)] => Ok((marking.clone(), out[..count].to_vec())),
        _ => Err("a marking and a list are due".into()),
    }
}

/// The file of one of our cuts: the library's where it is on.
fn our_cut(case: &GuaranteeCase, plan: &Net, which: Cut) -> Vec<u8> {
    let cut = slice_bytes(plan, &kept(plan, which, &case.q));
    let (lent, q) = (Lent::plain(vec![0; cut.len()]), Lent::plain(case.q.clone()));
    let case = CutCase { which, plan: Lent::plain(case.plan.clone()), q, slice: lent };
    let answer: Option<Answer> = match case.which {
        #[cfg(feature = "safety")]
        Cut::Safety => Some(library::safety(&case)),
        #[cfg(feature = "branching")]
        Cut::Branching => Some(library::branching(&case)),
        #[allow(unreachable_patterns)]
        _ => None,
    };
    match answer.and_then(|mut answer| answer.cells.pop()) {
        Some(Cells::Bytes(bytes)) => bytes,
        _ => cut,
    }
}

fn show(case: &GuaranteeCase) -> String {
    format!(
        "  plan: {}\n  slice: {}\n  criterion {:?}\n  plan's list {:?}\n  slice's list {:?}\n",
        hex(&case.plan),
        hex(&case.slice),
        case.q,
        case.plan_list,
        case.slice_list
    )
}
