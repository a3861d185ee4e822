//! What each verb is asked, and what it has to say by the second implementation.

use nesfoal_tests::cases::*;
use nesfoal_tests::check::{verdict, verdict_from, Verdict};
use nesfoal_tests::cut::{cut, cut_from, Cut, Written};
use nesfoal_tests::fixed::{self, Fixed};
use nesfoal_tests::net::{Arc, Direction, Kind, Net, Refusal, MAX_FILE, MAX_LIST, MAX_PLACES};
use nesfoal_tests::normal::{normal, too_heavy};
use nesfoal_tests::pnml::{from_pnml, ids};
use nesfoal_tests::range::{range, Extent};
use nesfoal_tests::read::read;
use nesfoal_tests::replay::{hindrance, replay, replay_from, Hindrance, Replayed};
use nesfoal_tests::rng::Rng;
use nesfoal_tests::run_cut::{run_cut, RunCut};
use nesfoal_tests::shadow::{shadow, strike_out};
use nesfoal_tests::start::most;
use nesfoal_tests::together::{together, Together};
use nesfoal_tests::transfer::{carried, transfer, NO_PLACE};
use nesfoal_tests::{arcs, effect, gen};

/// The file that a cut writes.
pub const OUT: &str = "out";
const LIST: &str = "list";
const CRITERION: &str = "criterion";
const MARKING: &str = "marking";
const UPPER: &str = "upper";
const TABLE: &str = "table";

#[derive(Clone)]
pub struct Due {
    /// The case of the answer: a word, the number of a refusal, 100 plus a rule's.
    pub outcome: String,
    /// What is said: all of it where it ends in a line feed, else the start of its one line.
    pub says: String,
    /// What stands in OUT afterwards; None where it stays as it was.
    pub written: Option<Vec<u8>>,
}

impl Due {
    fn new(outcome: impl ToString, says: String) -> Due {
        Due { outcome: outcome.to_string(), says, written: None }
    }

    pub fn is_said(&self, said: &str) -> bool {
        if self.says.ends_with('\n') {
            return said == self.says;
        }
        said.ends_with('\n') && said.lines().count() == 1 && said.starts_with(&self.says)
    }
}

pub struct Asked {
    pub files: Vec<(&'static str, Vec<u8>)>,
    pub words: Vec<String>,
    pub due: Due,
}

impl Asked {
    fn new(words: &[&str], files: &[(&'static str, &Lent<u8>)], due: Due) -> Asked {
        let files = files.iter().map(|(name, lent)| (*name, lent.part().to_vec())).collect();
        Asked { files, words: words.iter().map(|w| w.to_string()).collect(), due }
    }

    /// A list of transitions at the end.
    fn list(self, list: &[u16]) -> Asked {
        self.list_in(LIST, "t", list)
    }

    /// A criterion at the end.
    fn criterion(self, q: &Criterion) -> Asked {
        self.list_in(CRITERION, "p", &q.given)
    }

    /// A list as words, or as a file of that name where it is long or of some lengths. Of others the numbers have the letter before
    /// them, or commas between them.
    fn list_in(mut self, file: &'static str, letter: &str, list: &[u16]) -> Asked {
        let numbers = |letter: &str| list.iter().map(|n| format!("{letter}{n}")).collect::<Vec<_>>();
        match list.len() % 8 {
            _ if list.len() > 1_000 => self.file_of(file, list),
            5 => self.file_of(file, list),
            2 => self.words.push(numbers("").join(",")),
            3 => self.words.extend(numbers(letter)),
            _ => self.words.extend(numbers("")),
        }
        self
    }

    fn file_of(&mut self, file: &'static str, list: &[u16]) {
        self.files.push((file, gen::to_bytes(list)));
        self.words.push(format!("@{file}"));
    }

    /// A marking at the end: as words, or as a file where it has no entry or some lengths; none now and then where it is the plan's own.
    fn marking(mut self, marking: &[u64], own: bool) -> Asked {
        if own && marking.len() % 2 == 1 {
            return self;
        }
        if marking.is_empty() || marking.len() % 8 == 5 {
            self.files.push((MARKING, marking.iter().flat_map(|n| n.to_le_bytes()).collect()));
            self.words.push(format!("@{MARKING}"));
        } else {
            self.words.extend(marking.iter().map(|n| n.to_string()));
        }
        self
    }

    pub fn show(&self) -> String {
        let files: Vec<String> = self.files.iter().map(|(name, bytes)| format!("  {name}: {}\n", hex(bytes))).collect();
        format!("  nesfoal {}\n{}", self.words.join(" "), files.concat())
    }
}

/// The places of a criterion as they are given, and rising, as the library's calls take them: the command sorts.
struct Criterion {
    given: Vec<u16>,
    rising: Vec<u16>,
}

impl Criterion {
    /// Given backwards where it has some lengths.
    fn new(q: &[u16]) -> Criterion {
        let (mut given, mut rising) = (q.to_vec(), q.to_vec());
        if q.len() % 4 >= 2 {
            given.reverse();
        }
        rising.sort_unstable();
        Criterion { given, rising }
    }

    /// What an answer for no place ends in.
    fn for_none(&self) -> &'static str {
        if self.given.is_empty() {
            ", for no place"
        } else {
            ""
        }
    }

    /// The refusal of it, in whole: the first entry that is no place, or that stands before.
    fn refused(&self, plan: &[u8]) -> Due {
        let places = read(plan, Some(Kind::Plan)).expect("a good plan").places();
        let before = |i: usize| (0..i).find(|&j| self.given[j] == self.given[i]);
        let wrong = |i: usize| match (self.given[i], before(i)) {
            (n, _) if usize::from(n) >= places => Some(format!("entry {i} is {n}: no such place; P is {places}")),
            (n, Some(j)) => Some(format!("entry {i} is {n}, and so is entry {j}")),
            (_, None) => None,
        };
        let why = (0..self.given.len()).find_map(wrong).expect("an entry is wrong");
        Due::new(10, format!("refused 10: criterion: {why}\n"))
    }
}

pub struct Verb {
    pub name: &'static str,
    /// The cases of the answer that the fixed cases have to reach.
    pub outcomes: &'static str,
    pub fixed: fn() -> Vec<(String, Asked)>,
    pub random: fn(&mut Rng) -> Asked,
    /// Small changes of what is due, each by its name, for `--break`.
    pub spoils: &'static [Spoil],
}

pub type Spoil = (&'static str, fn(&mut Due));

pub fn all() -> Vec<Verb> {
    vec![
        Verb {
            name: "effect",
            outcomes: "by 1 2 3 4 5 6 7 8 10 12 16",
            fixed: || each(fixed::effects(), of_effect),
            random: |rng| of_effect(&gen::effect_case(rng)),
            spoils: &[("sign", |due| replace(due, "effect ", "effect -")), WHOSE, ABOVE],
        },
        Verb {
            name: "arcs",
            outcomes: "run none unknown 1 2 3 4 5 6 7 8 16",
            fixed: || each(fixed::arc_runs(), of_arcs),
            random: |rng| of_arcs(&gen::arcs_case(rng)),
            spoils: &[("direction", |due| replace(due, "takes", "adds")), ABOVE],
        },
        Verb {
            name: "arcs_of_plan",
            outcomes: "run none unknown 1 2 3 4 5 6 7 16",
            fixed: || each(fixed::arc_runs(), of_arcs_of_plan),
            random: |rng| of_arcs_of_plan(&gen::arcs_case(rng)),
            spoils: &[("direction", |due| replace(due, "takes", "adds")), ABOVE],
        },
        Verb {
            name: "replay",
            outcomes: "fired stuck full 1 2 3 4 5 6 7 8 11 12 16",
            fixed: || each(fixed::replays(), of_replay),
            random: |rng| of_replay(&gen::replay_case(rng)),
            spoils: &[
                ("amount", |due| replace(due, "short of ", "short of 0")),
                ("can_fire", |due| replace(due, "can fire there: transition", "can fire there: no transition")),
                ("none_can_fire", |due| replace(due, "no transition\n", "transition 0\n")),
                ("also_short", |due| replace(due, "also short: ", "also over: ")),
                ("also_over", |due| replace(due, "also over: ", "also short: ")),
                ("not_looked_at", |due| replace(due, "were not looked at", "are good")),
                MARKING_THERE,
                WHOSE,
                EXCESS,
                ABOVE,
            ],
        },
        Verb {
            name: "together",
            outcomes: "taken unlimited 1 2 3 4 5 6 7 12 15 16",
            fixed: || each(fixed::takings(), of_together),
            random: |rng| of_together(&gen::together_case(rng)),
            spoils: &[("times", |due| replace(due, "taken ", "taken 1")), ABOVE],
        },
        Verb {
            name: "need",
            outcomes: "always sometimes never 1 2 3 4 5 6 7 11 12 16 17 21",
            fixed: || each(fixed::ranges(), of_need),
            random: |rng| of_need(&gen::range_case(rng)),
            spoils: &[
                ("some", |due| replace(due, "sometimes", "always")),
                ("needs", |due| replace(due, "needs ", "needs 1")),
                ("upper", |due| replace(due, "refused 21", "refused 15")),
                ABOVE,
            ],
        },
        Verb {
            name: "safety",
            outcomes: "written 1 2 3 4 5 6 7 10 16",
            fixed: || each(fixed::cuts(Cut::Safety), of_cut),
            random: |rng| of_cut(&gen::cut_case(rng, Cut::Safety)),
            spoils: &[("letter", another_letter), OF_HOW_MANY, NO_PLACE_SAID, TWICE, ABOVE],
        },
        Verb {
            name: "branching",
            outcomes: "written 1 2 3 4 5 6 7 10 16",
            fixed: || each(fixed::cuts(Cut::Branching), of_cut),
            random: |rng| of_cut(&gen::cut_case(rng, Cut::Branching)),
            spoils: &[("letter", another_letter), OF_HOW_MANY, NO_PLACE_SAID, TWICE, ABOVE],
        },
        Verb {
            name: "run",
            outcomes: "written 1 2 3 4 5 6 7 10 11 12 14 16 17",
            fixed: || each(fixed::run_cuts(), of_run),
            random: |rng| of_run(&gen::run_cut_case(rng)),
            spoils: &[
                ("first", |due| replace(due, "chosen positions 0", "chosen positions")),
                ("own_list", |due| replace(due, "the slice's list 0", "the slice's list")),
                OF_HOW_MANY,
                NO_PLACE_SAID,
                TWICE,
                ("capped", |due| replace(due, "refused 17", "refused 10")),
                ABOVE,
            ],
        },
        Verb {
            name: "shadow",
            outcomes: "fired stuck full 1 2 3 4 5 6 7 8 11 12 16",
            fixed: || each(fixed::shadows(), of_shadow),
            random: |rng| of_shadow(&gen::shadow_case(rng)),
            spoils: &[("first", |due| replace(due, "shadow 0", "shadow")), MARKING_THERE, EXCESS, ABOVE],
        },
        Verb {
            name: "replay_from",
            outcomes: "fired stuck full 1 2 3 4 5 6 7 8 11 12 16 22 24",
            fixed: || each(fixed::replays_from(), of_replay_from),
            random: |rng| of_replay_from(&gen::replay_from_case(rng)),
            spoils: &[
                ("amount", |due| replace(due, "short of ", "short of 0")),
                MARKING_THERE,
                ENTRIES,
                TOKENS,
                EXCESS,
            ],
        },
        Verb {
            name: "safety_from",
            outcomes: "written 1 2 3 4 5 6 7 10 16 22 24",
            fixed: || each(fixed::cuts_from(Cut::Safety), of_cut_from),
            random: |rng| of_cut_from(&gen::cut_from_case(rng, Cut::Safety)),
            spoils: &[("letter", another_letter), ENTRIES, TOKENS],
        },
        Verb {
            name: "branching_from",
            outcomes: "written 1 2 3 4 5 6 7 10 16 22 24",
            fixed: || each(fixed::cuts_from(Cut::Branching), of_cut_from),
            random: |rng| of_cut_from(&gen::cut_from_case(rng, Cut::Branching)),
            spoils: &[("letter", another_letter), ENTRIES, TOKENS],
        },
        Verb {
            name: "check_from",
            outcomes: "accepted 1 2 3 4 5 6 7 8 10 16 22 24 101 102 103 104 105 106 107 108 109 110",
            fixed: || each(fixed::verdicts_from(), of_verdict_from),
            random: |rng| of_verdict_from(&gen::verdict_from_case(rng)),
            spoils: &[("rule_3", |due| forget(due, "103")), ENTRIES, TOKENS],
        },
        Verb {
            name: "transfer",
            outcomes: "carried 1 2 3 4 5 6 7 16 22 23 24",
            fixed: || each(fixed::transfers(), of_transfer),
            random: |rng| of_transfer(&gen::transfer_case(rng)),
            spoils: &[
                ("total", |due| replace(due, "carried ", "carried 1")),
                ("stranded", |due| replace(due, "refused 23", "refused 22")),
                ENTRIES,
                TOKENS,
            ],
        },
        Verb {
            name: "normal",
            outcomes: "written 1 2 3 4 5 6 7 16 25",
            fixed: || each(fixed::normals(), of_normal),
            random: |rng| of_normal(&gen::normal_case(rng)),
            spoils: &[
                ("letter", another_letter),
                ("heavy", |due| replace(due, "refused 25", "refused 13")),
                ("arcs", |due| replace(due, " arc", " bow")),
                ABOVE,
            ],
        },
        Verb {
            name: "pnml",
            outcomes: "written 1 18 19 20",
            fixed: || each(fixed::texts(), of_pnml),
            random: |rng| of_pnml(&gen::pnml_case(rng)),
            spoils: &[
                ("letter", another_letter),
                ("ids", |due| replace(due, "\nplaces", "\nplaces x")),
                ("profile", |due| replace(due, "refused 18", "refused 19")),
                ("number", |due| replace(due, "refused 20", "refused 18")),
            ],
        },
        Verb {
            name: "check",
            outcomes: "accepted 1 2 3 4 5 6 7 8 10 16 101 102 103 104 105 106 107 108 109 110",
            fixed: || each(fixed::verdicts(), of_verdict),
            random: |rng| of_verdict(&gen::verdict_case(rng)),
            spoils: &[
                ("rule_8", |due| forget(due, "108")),
                ("rule_9", |due| forget(due, "109")),
                ("rule_10", |due| forget(due, "110")),
                ("whose", |due| replace(due, "the plan's ", "")),
                NO_PLACE_SAID,
                TWICE,
                ABOVE,
            ],
        },
    ]
}

/// Another refusal than 16, and other tokens above a cap.
const ABOVE: Spoil = ("above", |due| replace(due, "refused 16", "refused 6"));
const EXCESS: Spoil = ("excess", |due| replace(due, "over by ", "over by 0"));

/// The marking where a list stops, whose number it is, of how many, for no place, an entry that stands twice: otherwise.
const MARKING_THERE: Spoil = ("marking_there", |due| replace(due, "marking there: ", "marking there: 1"));
const WHOSE: Spoil = ("whose", |due| replace(due, "the slice's ", ""));
const OF_HOW_MANY: Spoil = ("of_how_many", |due| replace(due, " of ", " of 1"));
const NO_PLACE_SAID: Spoil = ("no_place", |due| replace(due, ", for no place", ""));
const TWICE: Spoil = ("twice", |due| replace(due, ", and so is entry ", ", and so is entry 1"));

/// The two refusals of a start, and of a transfer, are others.
const ENTRIES: Spoil = ("entries", |due| replace(due, "refused 22", "refused 15"));
const TOKENS: Spoil = ("tokens", |due| replace(due, "refused 24", "refused 16"));

/// Other words, where these are said.
fn replace(due: &mut Due, from: &str, to: &str) {
    due.says = due.says.replacen(from, to, 1);
}

/// A broken rule is forgotten.
fn forget(due: &mut Due, rule: &str) {
    if due.outcome == rule {
        due.says = "accepted\n".into();
    }
}

/// The written file ends otherwise.
fn another_letter(due: &mut Due) {
    if let Some(bytes) = &mut due.written {
        *bytes.last_mut().unwrap() ^= 1;
    }
}

fn each<C>(cases: Vec<Fixed<C>>, asked: fn(&C) -> Asked) -> Vec<(String, Asked)> {
    cases.into_iter().map(|one| (one.name.clone(), asked(&one.case))).collect()
}

/// `1 place`, `5 places`.
fn counted(count: usize, thing: &str) -> String {
    format!("{count} {thing}{}", if count == 1 { "" } else { "s" })
}

/// Each after a space.
fn spaced(numbers: impl IntoIterator<Item = impl std::fmt::Display>) -> String {
    numbers.into_iter().map(|n| format!(" {n}")).collect()
}

/// `place 3`; in a slice `the slice's place 1 (the plan's 3)`.
fn place(net: &Net, number: usize) -> String {
    named("place", number, &net.place_origins)
}

fn transition(net: &Net, number: usize) -> String {
    named("transition", number, &net.transition_origins)
}

fn named(what: &str, number: usize, origins: &[u16]) -> String {
    match origins.get(number) {
        Some(origin) => format!("the slice's {what} {number} (the plan's {origin})"),
        None => format!("{what} {number}"),
    }
}

/// A refusal of a file, a criterion or a list that came with it.
fn refused(number: Refusal, file: &str) -> Due {
    let what = match number {
        1..=8 | 16..=20 | 25 => file,
        10 => "criterion",
        _ => "list",
    };
    Due::new(number, format!("refused {number}: {what}: "))
}

/// The same of two files: the plan comes first.
fn refused_of_two(number: Refusal, plan: &[u8]) -> Due {
    refused(number, if read(plan, Some(Kind::Plan)).is_err() { "plan" } else { "slice" })
}

fn of_effect(case: &EffectCase) -> Asked {
    let (file, p, t) = (case.file.part(), case.place, case.transition);
    let count = |of: fn(&nesfoal_tests::net::Net) -> usize| read(file, None).map_or(0, |net| of(&net));
    let due = match effect::effect(file, p, t) {
        Ok(by) => {
            let net = read(file, None).expect("a good file");
            let (on, of) = (place(&net, p as usize), transition(&net, t as usize));
            Due::new("by", format!("effect {by} on {on} of {of}\n"))
        }
        Err(10) => Due::new(10, format!("refused 10: unknown place {p}; P is {}\n", count(|net| net.places()))),
        Err(12) => {
            Due::new(12, format!("refused 12: unknown transition {t}; T is {}\n", count(|net| net.transitions())))
        }
        Err(n) => refused(n, "file"),
    };
    Asked::new(&["effect", "file", &p.to_string(), &t.to_string()], &[("file", &case.file)], due)
}

fn of_arcs(case: &ArcsCase) -> Asked {
    let (plan, slice, t) = (case.plan.part(), case.slice.part(), case.transition);
    let which = if case.of_slice { "slice" } else { "plan" };
    let due = match (read(plan, Some(Kind::Plan)), read(slice, Some(Kind::Slice))) {
        (Err(n), _) => refused(n, "plan"),
        (_, Err(n)) => refused(n, "slice"),
        (Ok(plan_net), Ok(slice_net)) => {
            let count = if case.of_slice { slice_net.transitions() } else { plan_net.transitions() };
            match t as usize >= count {
                true => no_transition(which, t, count),
                false => {
                    run_of_arcs(which, t, arcs::arcs(plan, slice, case.of_slice, t).1.chunks(8).map(arc).collect())
                }
            }
        }
    };
    Asked::new(&["arcs", "plan", "slice", which, &t.to_string()], &[("plan", &case.plan), ("slice", &case.slice)], due)
}

/// The plan's arcs, with no slice beside it.
fn of_arcs_of_plan(case: &ArcsCase) -> Asked {
    let t = case.transition;
    let due = match read(case.plan.part(), Some(Kind::Plan)) {
        Err(n) => refused(n, "plan"),
        Ok(net) if t as usize >= net.transitions() => no_transition("plan", t, net.transitions()),
        Ok(net) => run_of_arcs("plan", t, net.arcs_of(t as usize).iter().map(arc_of).collect()),
    };
    Asked::new(&["arcs", "plan", &format!("t{t}")], &[("plan", &case.plan)], due)
}

fn no_transition(which: &str, t: u32, count: usize) -> Due {
    let it = counted(count, "transition");
    Due::new("unknown", format!("error: the {which} has no transition {t}: it has {it}, numbered from 0\n"))
}

fn run_of_arcs(which: &str, t: u32, words: Vec<String>) -> Due {
    let end = if words.is_empty() { String::new() } else { format!(": {}", words.join(", ")) };
    let outcome = if words.is_empty() { "none" } else { "run" };
    Due::new(outcome, format!("arcs {} of transition {t} in the {which}{end}\n", words.len()))
}

fn arc_of(arc: &Arc) -> String {
    match arc.direction {
        Direction::In => format!("takes {} from place {}", arc.weight, arc.place),
        Direction::Out => format!("adds {} to place {}", arc.weight, arc.place),
    }
}

/// `takes 1 from place 0`, `adds 1 to place 2`.
fn arc(bytes: &[u8]) -> String {
    let two = |at: usize| u16::from_le_bytes([bytes[at], bytes[at + 1]]);
    let (place, weight) = (two(4), two(6));
    if bytes[2] == 0 {
        format!("takes {weight} from place {place}")
    } else {
        format!("adds {weight} to place {place}")
    }
}

fn of_replay(case: &ReplayCase) -> Asked {
    let (file, list) = (case.file.part(), case.list.part());
    let mut marking = vec![0; MAX_PLACES];
    let due = match replay(file, list, &mut marking) {
        Ok(answer) => replayed(&answer, file, list, &marking),
        Err(n) => refused(n, "file"),
    };
    Asked::new(&["replay", "file"], &[("file", &case.file)], due).list(list)
}

/// The lines of a replay; where it stops, with what stands around.
fn replayed(answer: &Replayed, file: &[u8], list: &[u16], marking: &[u64]) -> Due {
    let net = read(file, None).expect("a good file");
    let marking = &marking[..net.places()];
    match *answer {
        Replayed::Fired => {
            let count = counted(list.len(), "transition");
            Due::new("fired", format!("fired {count}, ending{}\n", spaced(marking)))
        }
        Replayed::Stuck { index, why } => {
            let outcome = if why.full { "full" } else { "stuck" };
            Due::new(outcome, stopped(&net, list, index, why) + &around(&net, list[index].into(), why, marking))
        }
    }
}

/// The line of a list that stops.
fn stopped(net: &Net, list: &[u16], index: usize, why: Hindrance) -> String {
    let (t, p) = (transition(net, list[index].into()), place(net, why.place.into()));
    match why.full {
        false => format!("stuck at index {index}: {t}, {p} is short of {}\n", why.amount),
        true => format!("full at index {index}: {t}, {p} is over by {}\n", why.amount),
    }
}

/// The lines below it: the other places that are short, or over; the marking there; what can fire there.
fn around(net: &Net, t: usize, why: Hindrance, marking: &[u64]) -> String {
    let (taken, added) = (net.inputs(t), outputs(net, t));
    let most = |p: usize| net.cap(p).unwrap_or(u64::MAX);
    let by = |p: usize| match why.full {
        false => taken[p].saturating_sub(marking[p]),
        true => (marking[p] + added[p] - taken[p]).saturating_sub(most(p)),
    };
    let mut hindering: Vec<usize> = (0..net.places()).filter(|&p| by(p) > 0).collect();
    assert_eq!((hindering[0], by(hindering[0])), (why.place.into(), why.amount));
    // Nothing is looked for above a place whose cap is below what the transition takes from it, or adds to it.
    let (mut lines, asked) = (String::new(), if why.full { &added } else { &taken });
    let last = hindering.iter().position(|&p| asked[p] > most(p));
    hindering.truncate(last.map_or(hindering.len(), |i| i + 1));
    let also: Vec<String> = hindering[1..].iter().map(|&p| format!("{} by {}", place(net, p), by(p))).collect();
    if !also.is_empty() {
        lines += &format!("also {}: {}\n", if why.full { "over" } else { "short" }, also.join(", "));
    }
    if let Some(p) = last.map(|i| hindering[i]).filter(|p| p + 1 < net.places()) {
        lines += &format!("places above {p} were not looked at\n");
    }
    lines += &format!("marking there:{}\n", spaced(marking));
    let can_fire: Vec<usize> = (0..net.transitions()).filter(|&t| hindrance(net, t, marking).is_none()).collect();
    let whose = if net.kind == Kind::Slice { "the slice's " } else { "" };
    lines
        + &match can_fire.len() {
            0 => "can fire there: no transition\n".into(),
            1 => format!("can fire there: {whose}transition {}\n", can_fire[0]),
            _ => format!("can fire there: {whose}transitions{}\n", spaced(can_fire)),
        }
}

/// out(p,t) for each place p.
fn outputs(net: &Net, t: usize) -> Vec<u64> {
    let mut added = vec![0; net.places()];
    for arc in net.in_and_out(t).1 {
        added[usize::from(arc.place)] += u64::from(arc.weight);
    }
    added
}

/// A call from a start: the plain verb's words, then `from` and the marking.
fn and_from(mut asked: Asked, start: &[u64]) -> Asked {
    asked.words.push("from".into());
    asked.marking(start, false)
}

/// A refusal of a start, for a file that is good, in whole.
fn wrong_start(number: Refusal, start: &[u64], file: &[u8]) -> Due {
    let net = read(file, None).expect("a good file");
    let why = match number {
        22 => format!("{}; P is {}", how_many(start.len()), net.places()),
        _ => too_many(&start.iter().map(|&n| u128::from(n)).collect::<Vec<_>>(), "has", &net),
    };
    Due::new(number, format!("refused {number}: marking: {why}\n"))
}

/// The first place that has, or gets, more tokens than it can have.
fn too_many(tokens: &[u128], verb: &str, net: &Net) -> String {
    let above = |p: &usize| tokens[*p] > u128::from(most(net, *p));
    let p = (0..tokens.len()).find(above).expect("a place has too many");
    let limit = match net.cap(p) {
        Some(cap) => format!("its cap is {}", grouped(cap.into())),
        None => "at most 4,294,967,295".into(),
    };
    let s = if tokens[p] == 1 { "" } else { "s" };
    format!("place {p} {verb} {} token{s}; {limit}", grouped(tokens[p]))
}

fn of_replay_from(case: &ReplayFromCase) -> Asked {
    let (file, list, start) = (case.plain.file.part(), case.plain.list.part(), case.start.part());
    let mut marking = vec![0; MAX_PLACES];
    let due = match replay_from(file, start, list, &mut marking) {
        Ok(answer) => replayed(&answer, file, list, &marking),
        Err(n @ (22 | 24)) => wrong_start(n, start, file),
        Err(n) => refused(n, "file"),
    };
    and_from(Asked::new(&["replay", "file"], &[("file", &case.plain.file)], due).list(list), start)
}

fn of_cut_from(case: &CutFromCase) -> Asked {
    let (plan, q, start) = (case.plain.plan.part(), Criterion::new(case.plain.q.part()), case.start.part());
    let mut buffer = vec![0; MAX_FILE];
    let due = match cut_from(case.plain.which, plan, start, &q.rising, &mut buffer) {
        Ok(w) => written(&w, buffer, plan, &q),
        Err(10) => q.refused(plan),
        Err(n @ (22 | 24)) => wrong_start(n, start, plan),
        Err(n) => refused(n, "plan"),
    };
    let asked = Asked::new(&[cut_verb(case.plain.which), "plan", OUT], &[("plan", &case.plain.plan)], due);
    and_from(asked.criterion(&q), start)
}

fn of_verdict_from(case: &VerdictFromCase) -> Asked {
    let VerdictCase { plan, slice, q } = &case.plain;
    let (start, q) = (case.start.part(), Criterion::new(q.part()));
    let due = match verdict_from(plan.part(), slice.part(), start, &q.rising) {
        Ok(verdict) => judged(&verdict, &q),
        Err(10) => q.refused(plan.part()),
        Err(n @ (22 | 24)) => wrong_start(n, start, plan.part()),
        Err(n) => refused_of_two(n, plan.part()),
    };
    let asked = Asked::new(&["check", "plan", "slice"], &[("plan", plan), ("slice", slice)], due);
    and_from(asked.criterion(&q), start)
}

fn of_transfer(case: &TransferCase) -> Asked {
    let (old, new) = (case.old.part(), case.new.part());
    let (running, table) = (case.running.part(), case.table.part());
    let mut marking = vec![0; MAX_PLACES];
    let due = match transfer(old, new, running, table, &mut marking) {
        Ok(places) => {
            let tokens: String = marking[..places].iter().map(|m| format!(" {m}")).collect();
            let total = counted(marking[..places].iter().sum::<u64>() as usize, "token");
            Due::new("carried", format!("carried {total}, ending{tokens}\n"))
        }
        Err(n @ 22..=24) => Due::new(n, format!("refused {n}: {}\n", wrong_transfer(n, case))),
        Err(n) => refused(n, if read(old, Some(Kind::Plan)).is_err() { "old" } else { "new" }),
    };
    let asked = Asked::new(&["transfer", "old", "new"], &[("old", &case.old), ("new", &case.new)], due);
    // `none` is a word for an entry of the table.
    let mut asked = asked.list_in(TABLE, "", table);
    if table.len() % 3 == 1 {
        asked.words.iter_mut().skip(3).filter(|word| *word == "65535").for_each(|word| *word = "none".into());
    }
    asked.words.push("with".into());
    asked.marking(running, false)
}

/// Why a transfer of two good plans is refused.
fn wrong_transfer(number: Refusal, case: &TransferCase) -> String {
    let [old, new] = [&case.old, &case.new].map(|file| read(file.part(), Some(Kind::Plan)).expect("a good plan"));
    let (running, table) = (case.running.part(), case.table.part());
    let of_length =
        |what: &str, n: usize| format!("{what}: {}; the old plan has {}", how_many(n), counted(old.places(), "place"));
    match number {
        22 if running.len() != old.places() => of_length("marking", running.len()),
        22 if table.len() != old.places() => of_length("table", table.len()),
        22 => {
            let wrong = |to: &u16| *to != NO_PLACE && usize::from(*to) >= new.places();
            let i = table.iter().position(wrong).expect("an entry is wrong");
            let has = counted(new.places(), "place");
            format!("table: entry {i} is {}: no such place; the new plan has {has}", table[i])
        }
        23 => {
            let p = (0..table.len()).find(|&p| table[p] == NO_PLACE && running[p] > 0).expect("a place is stranded");
            let s = if running[p] == 1 { "" } else { "s" };
            format!("table: entry {p} is none, and place {p} has {} token{s}", grouped(running[p].into()))
        }
        _ => format!("new plan: {}", too_many(&carried(running, table, new.places()), "gets", &new)),
    }
}

fn of_together(case: &TogetherCase) -> Asked {
    let (plan, t, marking) = (case.plan.part(), case.transition, case.marking.part());
    let net = read(plan, Some(Kind::Plan));
    let own = net.as_ref().is_ok_and(|net| net.marking.iter().map(|&m| u64::from(m)).eq(marking.iter().copied()));
    let mut rest = vec![0; MAX_PLACES];
    let answer = together(plan, t, marking, &mut rest);
    let places = net.as_ref().map_or(0, |net| net.places());
    let left: String = rest[..places].iter().map(|m| format!(" {m}")).collect();
    let due = match answer {
        Ok(Together::Times(1)) => Due::new("taken", format!("taken 1 time, leaving{left}\n")),
        Ok(Together::Times(k)) => Due::new("taken", format!("taken {k} times, leaving{left}\n")),
        Ok(Together::Unlimited) => Due::new("unlimited", format!("unlimited, leaving{left}\n")),
        Err(12) => {
            let count = net.map_or(0, |net| net.transitions());
            Due::new(12, format!("refused 12: unknown transition {t}; T is {count}\n"))
        }
        Err(15) if marking.len() > MAX_PLACES => {
            Due::new(15, format!("refused 15: marking: more than 1,024 numbers; P is {places}\n"))
        }
        Err(15) => {
            let given = counted(marking.len(), "number");
            Due::new(15, format!("refused 15: marking: {given}; P is {places}\n"))
        }
        Err(n) => refused(n, "plan"),
    };
    Asked::new(&["together", "plan", &t.to_string()], &[("plan", &case.plan)], due).marking(marking, own)
}

fn of_need(case: &RangeCase) -> Asked {
    let (plan, list, upper) = (case.plan.part(), case.list.part(), case.upper.part());
    let net = read(plan, Some(Kind::Plan));
    let own = net.as_ref().map_or(Vec::new(), |net| net.marking.clone());
    let mut need = vec![0; MAX_PLACES];
    let due = match range(plan, list, upper, &mut need) {
        Ok(extent) => {
            let need = &need[..own.len()];
            let tokens: String = need.iter().map(|n| format!(" {n}")).collect();
            // The lowest place that may have too few, or, where the list never fires, that has.
            let scarce = |held: &[u32]| {
                let p = (0..need.len()).find(|&p| need[p] > u64::from(held[p])).expect("a place has too few");
                let to = if own[p] < upper[p] { format!(" to {}", upper[p]) } else { String::new() };
                format!(": place {p} has {}{to} and needs {}", own[p], need[p])
            };
            match extent {
                Extent::Every => Due::new("always", format!("always fires; needed{tokens}\n")),
                Extent::SomeNotAll => {
                    Due::new("sometimes", format!("sometimes fires{}; needed{tokens}\n", scarce(&own)))
                }
                Extent::Never => Due::new("never", format!("never fires{}; needed{tokens}\n", scarce(upper))),
            }
        }
        Err(21) => Due::new(21, format!("refused 21: upper list: {}\n", wrong_upper(upper, &own))),
        Err(n) => refused(n, "plan"),
    };
    let mut asked = Asked::new(&["need", "plan"], &[("plan", &case.plan)], due).list(list);
    // Without an upper list the range is the plan's own marking alone.
    if net.is_ok() && own == upper && own.len() % 2 == 1 {
        return asked;
    }
    asked.words.push("upto".into());
    if upper.is_empty() || upper.len() % 8 == 5 {
        asked.files.push((UPPER, upper.iter().flat_map(|n| n.to_le_bytes()).collect()));
        asked.words.push(format!("@{UPPER}"));
    } else {
        asked.words.extend(upper.iter().map(|n| n.to_string()));
    }
    asked
}

/// Why an upper list is refused.
fn wrong_upper(upper: &[u32], own: &[u32]) -> String {
    if upper.len() != own.len() {
        return format!("{}; P is {}", how_many(upper.len()), own.len());
    }
    let p = (0..own.len()).find(|&p| upper[p] < own[p]).expect("an entry is below");
    format!("entry {p} is {}: below the plan's {}", upper[p], own[p])
}

/// How many numbers a list has that should have one for each place.
fn how_many(count: usize) -> String {
    if count > MAX_PLACES {
        return "more than 1,024 numbers".into();
    }
    counted(count, "number")
}

fn of_cut(case: &CutCase) -> Asked {
    let (plan, q) = (case.plan.part(), Criterion::new(case.q.part()));
    let mut buffer = vec![0; MAX_FILE];
    let due = match cut(case.which, plan, &q.rising, &mut buffer) {
        Ok(w) => written(&w, buffer, plan, &q),
        Err(10) => q.refused(plan),
        Err(n) => refused(n, "plan"),
    };
    Asked::new(&[cut_verb(case.which), "plan", OUT], &[("plan", &case.plan)], due).criterion(&q)
}

fn cut_verb(which: Cut) -> &'static str {
    if which == Cut::Safety {
        "safety"
    } else {
        "branching"
    }
}

/// The line of a cut, and the file.
fn written(w: &Written, mut buffer: Vec<u8>, plan: &[u8], q: &Criterion) -> Due {
    let net = read(plan, Some(Kind::Plan)).expect("a good plan");
    let places = format!("{} of {}", w.places, counted(net.places(), "place"));
    let transitions = format!("{} of {}", w.transitions, counted(net.transitions(), "transition"));
    buffer.truncate(w.length);
    let says = format!("written {OUT}: {}, {places}, {transitions}{}\n", counted(w.length, "byte"), q.for_none());
    Due { written: Some(buffer), ..Due::new("written", says) }
}

fn of_normal(case: &NormalCase) -> Asked {
    let plan = case.plan.part();
    let mut buffer = vec![0; MAX_FILE];
    let due = match normal(plan, &mut buffer) {
        Ok(length) => written_plan(&buffer[..length]),
        // The first pair in the order of arcs is told.
        Err(25) => {
            let heavy = read(plan, Some(Kind::Plan)).ok().and_then(|net| too_heavy(&net)).expect("a pair is too heavy");
            Due::new(25, format!("refused 25: plan: {}", heavy_pair(heavy)))
        }
        Err(n) => refused(n, "plan"),
    };
    Asked::new(&["normal", "plan", OUT], &[("plan", &case.plan)], due)
}

fn of_pnml(case: &PnmlCase) -> Asked {
    let text = case.text.part();
    let mut buffer = vec![0; MAX_FILE];
    let due = match from_pnml(text, &mut buffer) {
        Ok(length) => {
            let mut due = written_plan(&buffer[..length]);
            let [places, transitions] = ids(text).expect("a text in the profile").map(|ids| {
                let words: Vec<String> = ids.iter().map(|id| format!(" {id}")).collect();
                words.concat()
            });
            due.says += &format!("places{places}\ntransitions{transitions}\n");
            due
        }
        Err(n) => refused(n, "text"),
    };
    Asked::new(&["pnml", "text", OUT], &[("text", &case.text)], due)
}

/// `the arcs from place 1 to transition 0 weigh 65,536 together; at most 65,535`.
fn heavy_pair(((transition, direction, place), sum): ((u16, Direction, u16), u64)) -> String {
    let between = match direction {
        Direction::In => format!("from place {place} to transition {transition}"),
        Direction::Out => format!("from transition {transition} to place {place}"),
    };
    format!("the arcs {between} weigh {} together; at most 65,535\n", grouped(sum.into()))
}

/// A number with commas.
fn grouped(n: u128) -> String {
    let digits = n.to_string();
    let parts: Vec<&str> = digits.as_bytes().rchunks(3).rev().map(|d| std::str::from_utf8(d).unwrap()).collect();
    parts.join(",")
}

/// The line of a plan that is written, and the file.
fn written_plan(file: &[u8]) -> Due {
    let net = read(file, Some(Kind::Plan)).expect("a plan");
    let counts = [
        counted(file.len(), "byte"),
        counted(net.places(), "place"),
        counted(net.transitions(), "transition"),
        counted(net.arcs.len(), "arc"),
    ];
    Due { written: Some(file.to_vec()), ..Due::new("written", format!("written {OUT}: {}\n", counts.join(", "))) }
}

fn of_run(case: &RunCutCase) -> Asked {
    let (plan, q, list) = (case.plan.part(), Criterion::new(case.q.part()), case.list.part());
    let (mut buffer, mut positions) = (vec![0; MAX_FILE], vec![0; MAX_LIST]);
    let due = match run_cut(plan, &q.rising, list, &mut buffer, &mut positions) {
        Ok(RunCut::Written(w, count)) => {
            let slice = read(&buffer[..w.length], Some(Kind::Slice)).expect("a slice");
            let chosen = &positions[..count];
            let fired: Vec<u16> = chosen.iter().map(|&i| list[usize::from(i)]).collect();
            let own = strike_out(&slice.transition_origins, &fired);
            assert_eq!(own.len(), count);
            let mut due = written(&w, buffer, plan, &q);
            due.says += &format!("chosen positions{}\nthe slice's list{}\n", spaced(chosen), spaced(own));
            due
        }
        Ok(RunCut::Sticks { index, place, amount }) => {
            let (net, why) = (read(plan, None).expect("a good plan"), Hindrance { full: false, place, amount });
            Due::new(14, format!("refused 14: list: {}", stopped(&net, list, index, why)))
        }
        Err(10) => q.refused(plan),
        Err(n) => refused(n, "plan"),
    };
    let asked = Asked::new(&["run", "plan", OUT], &[("plan", &case.plan)], due);
    let mut asked = asked.list(list);
    asked.words.push("for".into());
    asked.criterion(&q)
}

fn of_shadow(case: &ShadowCase) -> Asked {
    let (plan, slice, list) = (case.plan.part(), case.slice.part(), case.list.part());
    let (mut marking, mut out) = (vec![0; MAX_PLACES], vec![0; MAX_LIST]);
    let due = match shadow(plan, slice, list, &mut marking, &mut out) {
        Ok((answer, count)) => {
            let mut due = replayed(&answer, plan, list, &marking);
            let numbers: Vec<String> = out[..count].iter().map(|n| format!(" {n}")).collect();
            due.says += &format!("shadow{}\n", numbers.concat());
            due
        }
        Err(n) => refused_of_two(n, plan),
    };
    Asked::new(&["shadow", "plan", "slice"], &[("plan", &case.plan), ("slice", &case.slice)], due).list(list)
}

fn of_verdict(case: &VerdictCase) -> Asked {
    let (plan, slice, q) = (case.plan.part(), case.slice.part(), Criterion::new(case.q.part()));
    let due = match verdict(plan, slice, &q.rising) {
        Ok(verdict) => judged(&verdict, &q),
        Err(10) => q.refused(plan),
        Err(n) => refused_of_two(n, plan),
    };
    Asked::new(&["check", "plan", "slice"], &[("plan", &case.plan), ("slice", &case.slice)], due).criterion(&q)
}

/// The line of a verdict, up to the reason.
fn judged(verdict: &Verdict, q: &Criterion) -> Due {
    match *verdict {
        Verdict::Accepted => Due::new("accepted", format!("accepted{}\n", q.for_none())),
        Verdict::Broken { rule, number } => {
            let what = match rule {
                1 => "the slice's place",
                2 => "the slice's transition",
                3 | 5 => "the plan's place",
                _ => "the plan's transition",
            };
            Due::new(100 + rule, format!("rule {rule} broken by {what} {number}: "))
        }
    }
}
