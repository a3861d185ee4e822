//! A case of each call: what is handed in, and the whole answer of the second implementation.

use crate::check::Verdict;
use crate::cut::{cut, cut_from, Cut, Written};
use crate::net::Refusal;
use crate::range::Extent;
use crate::replay::{Hindrance, Replayed};
use crate::run_cut::RunCut;
use crate::together::Together;
use crate::{arcs, check, effect, normal, pnml, range, replay, run_cut, shadow, together, transfer};
use std::fmt::Write;

/// Entries that are lent to a call, standing inside a larger piece of memory.
/// The entries before and after are a guard zone.
#[derive(Clone, PartialEq, Eq, Debug)]
pub struct Lent<T> {
    pub cells: Vec<T>,
    pub start: usize,
    pub len: usize,
    /// Lend a null pointer; only where the length is 0.
    pub null: bool,
}

impl<T: Copy> Lent<T> {
    pub fn plain(cells: Vec<T>) -> Lent<T> {
        let len = cells.len();
        Lent { cells, start: 0, len, null: false }
    }

    pub fn part(&self) -> &[T] {
        &self.cells[self.start..self.start + self.len]
    }

    pub fn part_mut(&mut self) -> &mut [T] {
        &mut self.cells[self.start..self.start + self.len]
    }

    pub fn pointer(&self) -> *const T {
        if self.null && self.len == 0 {
            return std::ptr::null();
        }
        self.cells[self.start..].as_ptr()
    }

    pub fn pointer_mut(&mut self) -> *mut T {
        if self.null && self.len == 0 {
            return std::ptr::null_mut();
        }
        self.cells[self.start..].as_mut_ptr()
    }
}

/// A lent buffer after the call, guard zone included.
#[derive(Clone, PartialEq, Eq, Debug)]
pub enum Cells {
    Bytes(Vec<u8>),
    Halves(Vec<u16>),
    Longs(Vec<u64>),
}

/// Everything that a call can be seen to do.
#[derive(Clone, PartialEq, Eq, Debug)]
pub struct Answer {
    pub number: u32,
    /// The values handed back through pointers, in order.
    pub outs: Vec<i128>,
    /// The lent buffers, in order.
    pub cells: Vec<Cells>,
    /// Whether everything handed in to be read is as it was.
    pub inputs_kept: bool,
}

impl Answer {
    pub fn new<T: Into<i128>, const N: usize>(number: u32, outs: [T; N], cells: Vec<Cells>) -> Answer {
        Answer { number, outs: outs.map(Into::into).into(), cells, inputs_kept: true }
    }

    /// The answer of a call that hands nothing back but its number.
    pub fn number(number: u32) -> Answer {
        Answer::new(number, [0; 0], vec![])
    }

    pub fn show(&self) -> String {
        let cells = self.cells.iter().map(|cells| match cells {
            Cells::Bytes(b) => format!(" buffer {}", hex(b)),
            Cells::Halves(h) => format!(" buffer {h:x?}"),
            Cells::Longs(l) => format!(" buffer {l:x?}"),
        });
        let kept = if self.inputs_kept { "" } else { " INPUTS CHANGED" };
        format!("number {} outs {:?}{kept}{}", self.number, self.outs, cells.collect::<String>())
    }
}

pub trait Case {
    /// The answer of the second implementation.
    fn second(&self) -> Answer;
    /// The whole case in words and hexadecimal.
    fn show(&self) -> String;
    /// What sort of outcome this is, for the histogram.
    fn outcome(&self, answer: &Answer) -> String {
        let _ = self;
        answer.number.to_string()
    }
}

pub fn hex(bytes: &[u8]) -> String {
    let mut text = String::with_capacity(2 * bytes.len());
    for b in bytes {
        write!(text, "{b:02x}").unwrap();
    }
    text
}

fn show_bytes(name: &str, lent: &Lent<u8>) -> String {
    let null = if lent.null && lent.len == 0 { " null" } else { "" };
    format!("  {name} ({} bytes, offset {}{null}): {}\n", lent.len, lent.start, hex(lent.part()))
}

fn show_tokens(name: &str, lent: &Lent<u64>) -> String {
    format!("  {name} ({} entries): {:?}\n", lent.len, lent.part())
}

fn show_numbers(name: &str, lent: &Lent<u16>) -> String {
    format!("  {name} ({} entries): {:?}\n", lent.len, lent.part())
}

#[derive(Clone, Debug)]
pub struct EffectCase {
    pub file: Lent<u8>,
    pub place: u32,
    pub transition: u32,
}

impl Case for EffectCase {
    fn second(&self) -> Answer {
        match effect::effect(self.file.part(), self.place, self.transition) {
            Ok(effect) => Answer::new(0, [effect], vec![]),
            Err(refusal) => Answer::new(refusal, [0], vec![]),
        }
    }

    fn show(&self) -> String {
        show_bytes("file", &self.file) + &format!("  place {} transition {}\n", self.place, self.transition)
    }

    fn outcome(&self, answer: &Answer) -> String {
        let sign = match answer.outs[0] {
            e if e < 0 => "-",
            0 if answer.number == 0 => "=",
            0 => "",
            _ => "+",
        };
        format!("{}{sign}", answer.number)
    }
}

#[derive(Clone, Debug)]
pub struct ArcsCase {
    pub plan: Lent<u8>,
    pub slice: Lent<u8>,
    pub of_slice: bool,
    pub transition: u32,
}

impl Case for ArcsCase {
    fn second(&self) -> Answer {
        let (start, run) = arcs::arcs(self.plan.part(), self.slice.part(), self.of_slice, self.transition);
        Answer::new(run.len() as u32, [start as i64], vec![])
    }

    fn show(&self) -> String {
        let which = if self.of_slice { "slice" } else { "plan" };
        show_bytes("plan", &self.plan)
            + &show_bytes("slice", &self.slice)
            + &format!("  of the {which}, transition {}\n", self.transition)
    }

    /// A run of the plan or slice, or why there is none.
    fn outcome(&self, answer: &Answer) -> String {
        use crate::net::Kind;
        use crate::read::read;
        let which = if self.of_slice { "slice" } else { "plan" };
        if answer.number > 0 {
            return format!("run-of-{which}");
        }
        let plan = match read(self.plan.part(), Some(Kind::Plan)) {
            Ok(net) => net,
            Err(n) => return format!("plan-{n}"),
        };
        let slice = match read(self.slice.part(), Some(Kind::Slice)) {
            Ok(net) => net,
            Err(n) => return format!("slice-{n}"),
        };
        let net = if self.of_slice { slice } else { plan };
        if self.transition as usize >= net.transitions() {
            "unknown".into()
        } else {
            "no-arcs".into()
        }
    }
}

/// The number of a list that sticks: a place is short, or full.
fn stuck_number(why: &Hindrance) -> u32 {
    if why.full {
        101
    } else {
        100
    }
}

fn of_replay(answer: Result<Replayed, Refusal>, lent: Lent<u64>) -> Answer {
    let (number, index, place, amount) = match answer {
        Ok(Replayed::Fired) => (0, 0, 0, 0),
        Ok(Replayed::Stuck { index, why }) => {
            (stuck_number(&why), index as i64, i64::from(why.place), why.amount as i64)
        }
        Err(refusal) => (refusal, 0, 0, 0),
    };
    Answer::new(number, [index, place, amount], vec![Cells::Longs(lent.cells)])
}

#[derive(Clone, Debug)]
pub struct ReplayCase {
    pub file: Lent<u8>,
    pub list: Lent<u16>,
    pub marking: Lent<u64>,
}

impl Case for ReplayCase {
    fn second(&self) -> Answer {
        let mut lent = self.marking.clone();
        let answer = replay::replay(self.file.part(), self.list.part(), lent.part_mut());
        of_replay(answer, lent)
    }

    fn show(&self) -> String {
        show_bytes("file", &self.file)
            + &show_numbers("list", &self.list)
            + &format!("  marking: {} entries lent\n", self.marking.len)
    }

    fn outcome(&self, answer: &Answer) -> String {
        match answer.number {
            0 if self.list.len == 0 => "fired-none".into(),
            0 if self.list.len >= 64 => "fired-64-or-more".into(),
            0 => "fired".into(),
            n if n < 100 => n.to_string(),
            n => {
                let why = if n == 100 { "short" } else { "full" };
                let when = match answer.outs[0] {
                    _ if self.list.len >= 64 => "of-64-or-more",
                    0 => "first",
                    _ => "later",
                };
                format!("{why}-{when}")
            }
        }
    }
}

fn of_cut(answer: Result<Written, Refusal>, lent: Lent<u8>) -> Answer {
    let (number, outs) = match answer {
        Ok(w) => (0, [w.length as i64, w.places as i64, w.transitions as i64]),
        Err(refusal) => (refusal, [0; 3]),
    };
    Answer::new(number, outs, vec![Cells::Bytes(lent.cells)])
}

#[derive(Clone, Debug)]
pub struct CutCase {
    pub which: Cut,
    pub plan: Lent<u8>,
    pub q: Lent<u16>,
    pub slice: Lent<u8>,
}

impl Case for CutCase {
    fn second(&self) -> Answer {
        let mut lent = self.slice.clone();
        let answer = cut(self.which, self.plan.part(), self.q.part(), lent.part_mut());
        of_cut(answer, lent)
    }

    fn show(&self) -> String {
        show_bytes("plan", &self.plan)
            + &show_numbers("criterion", &self.q)
            + &format!("  slice: {} bytes lent\n", self.slice.len)
    }
}

#[derive(Clone, Debug)]
pub struct RunCutCase {
    pub plan: Lent<u8>,
    pub q: Lent<u16>,
    pub list: Lent<u16>,
    pub slice: Lent<u8>,
    pub positions: Lent<u16>,
}

impl Case for RunCutCase {
    fn second(&self) -> Answer {
        let (mut slice, mut positions) = (self.slice.clone(), self.positions.clone());
        let (plan, q, list) = (self.plan.part(), self.q.part(), self.list.part());
        let (number, outs) = match run_cut::run_cut(plan, q, list, slice.part_mut(), positions.part_mut()) {
            Ok(RunCut::Written(w, count)) => (0, [w.length, w.places, w.transitions, count, 0, 0, 0]),
            Ok(RunCut::Sticks { index, place, amount }) => (14, [0, 0, 0, 0, index, place.into(), amount as usize]),
            Err(refusal) => (refusal, [0; 7]),
        };
        Answer::new(number, outs.map(|n| n as u64), vec![Cells::Bytes(slice.cells), Cells::Halves(positions.cells)])
    }

    fn show(&self) -> String {
        show_bytes("plan", &self.plan)
            + &show_numbers("criterion", &self.q)
            + &show_numbers("list", &self.list)
            + &format!("  slice: {} bytes lent, positions: {} entries\n", self.slice.len, self.positions.len)
    }

    /// How much of the run is chosen: nothing, all, or a part.
    fn outcome(&self, answer: &Answer) -> String {
        match (answer.number, answer.outs[3]) {
            (0, 0) => "chosen-none".into(),
            (0, n) if n == self.list.len as i128 => "chosen-all".into(),
            (0, _) => "chosen-some".into(),
            (n, _) => n.to_string(),
        }
    }
}

#[derive(Clone, Debug)]
pub struct ShadowCase {
    pub plan: Lent<u8>,
    pub slice: Lent<u8>,
    pub list: Lent<u16>,
    pub marking: Lent<u64>,
    pub out: Lent<u16>,
}

impl Case for ShadowCase {
    fn second(&self) -> Answer {
        let (mut marking, mut out) = (self.marking.clone(), self.out.clone());
        let (plan, slice, list) = (self.plan.part(), self.slice.part(), self.list.part());
        let (number, outs) = match shadow::shadow(plan, slice, list, marking.part_mut(), out.part_mut()) {
            Ok((Replayed::Fired, count)) => (0, [0, 0, 0, count as i64]),
            Ok((Replayed::Stuck { index, why }, count)) => {
                (stuck_number(&why), [index as i64, i64::from(why.place), why.amount as i64, count as i64])
            }
            Err(refusal) => (refusal, [0; 4]),
        };
        Answer::new(number, outs, vec![Cells::Longs(marking.cells), Cells::Halves(out.cells)])
    }

    fn show(&self) -> String {
        show_bytes("plan", &self.plan)
            + &show_bytes("slice", &self.slice)
            + &show_numbers("list", &self.list)
            + &format!("  marking: {} entries lent, out: {}\n", self.marking.len, self.out.len)
    }

    fn outcome(&self, answer: &Answer) -> String {
        let none = if answer.outs[3] == 0 { "-none" } else { "" };
        match answer.number {
            0 => format!("fired{none}"),
            100 => format!("short{none}"),
            101 => format!("full{none}"),
            13 => {
                let places = crate::read::read(self.plan.part(), None).map_or(0, |net| net.places());
                if self.marking.len < places { "13-marking" } else { "13-out" }.into()
            }
            n => n.to_string(),
        }
    }
}

#[derive(Clone, Debug)]
pub struct TogetherCase {
    pub plan: Lent<u8>,
    pub transition: u32,
    pub marking: Lent<u64>,
    pub rest: Lent<u64>,
}

impl Case for TogetherCase {
    fn second(&self) -> Answer {
        let mut lent = self.rest.clone();
        let answer = together::together(self.plan.part(), self.transition, self.marking.part(), lent.part_mut());
        let (number, times) = match answer {
            Ok(Together::Times(k)) => (0, k),
            Ok(Together::Unlimited) => (100, 0),
            Err(refusal) => (refusal, 0),
        };
        Answer::new(number, [times], vec![Cells::Longs(lent.cells)])
    }

    fn show(&self) -> String {
        show_bytes("plan", &self.plan)
            + &format!("  transition {}\n", self.transition)
            + &format!("  marking ({} entries): {:?}\n", self.marking.len, self.marking.part())
            + &format!("  rest: {} entries lent\n", self.rest.len)
    }

    fn outcome(&self, answer: &Answer) -> String {
        match (answer.number, answer.outs[0]) {
            (0, 0) => "never".into(),
            (0, 1) => "once".into(),
            (0, k) if k < 1 << 32 => "often".into(),
            (0, _) => "2^32-or-more".into(),
            (100, _) => "unlimited".into(),
            (n, _) => n.to_string(),
        }
    }
}

#[derive(Clone, Debug)]
pub struct RangeCase {
    pub plan: Lent<u8>,
    pub list: Lent<u16>,
    pub upper: Lent<u32>,
    pub need: Lent<u64>,
}

impl Case for RangeCase {
    fn second(&self) -> Answer {
        let mut lent = self.need.clone();
        let number = match range::range(self.plan.part(), self.list.part(), self.upper.part(), lent.part_mut()) {
            Ok(Extent::Every) => 0,
            Ok(Extent::SomeNotAll) => 100,
            Ok(Extent::Never) => 101,
            Err(refusal) => refusal,
        };
        Answer::new(number, [0; 0], vec![Cells::Longs(lent.cells)])
    }

    fn show(&self) -> String {
        show_bytes("plan", &self.plan)
            + &show_numbers("list", &self.list)
            + &format!("  upper ({} entries): {:?}\n", self.upper.len, self.upper.part())
            + &format!("  need: {} entries lent\n", self.need.len)
    }

    fn outcome(&self, answer: &Answer) -> String {
        match answer.number {
            0 => "every".into(),
            100 => "some".into(),
            101 => "none".into(),
            n => n.to_string(),
        }
    }
}

#[derive(Clone, Debug)]
pub struct NormalCase {
    pub plan: Lent<u8>,
    pub normal: Lent<u8>,
}

impl Case for NormalCase {
    fn second(&self) -> Answer {
        let mut lent = self.normal.clone();
        let (number, length) = match normal::normal(self.plan.part(), lent.part_mut()) {
            Ok(length) => (0, length as i64),
            Err(refusal) => (refusal, 0),
        };
        Answer::new(number, [length], vec![Cells::Bytes(lent.cells)])
    }

    fn show(&self) -> String {
        show_bytes("plan", &self.plan) + &format!("  normal: {} bytes lent\n", self.normal.len)
    }

    /// Whether arcs were joined.
    fn outcome(&self, answer: &Answer) -> String {
        match answer.number {
            0 => {
                let arcs =
                    crate::read::read(self.plan.part(), None).map_or((0, 0), |net| (net.places(), net.arcs.len()));
                let joined = answer.outs[0] < (8 * arcs.0 + 8 * arcs.1 + 16) as i128;
                if joined { "joined" } else { "as-it-was" }.into()
            }
            n => n.to_string(),
        }
    }
}

/// The C check, with Q as bytes.
#[derive(Clone, Debug)]
pub struct CheckCase {
    pub plan: Lent<u8>,
    pub slice: Lent<u8>,
    pub q: Lent<u8>,
}

impl Case for CheckCase {
    fn second(&self) -> Answer {
        let number = check::check_number(self.plan.part(), self.slice.part(), self.q.part());
        Answer::number(number)
    }

    fn show(&self) -> String {
        show_bytes("plan", &self.plan) + &show_bytes("slice", &self.slice) + &show_bytes("criterion", &self.q)
    }
}

fn of_verdict(answer: Result<Verdict, Refusal>) -> Answer {
    let (answer, number) = match answer {
        Ok(Verdict::Accepted) => (0, 0),
        Ok(Verdict::Broken { rule, number }) => (100 + rule, number as i64),
        Err(refusal) => (refusal, 0),
    };
    Answer::new(answer, [number], vec![])
}

/// The verdict with its number, with Q as numbers.
#[derive(Clone, Debug)]
pub struct VerdictCase {
    pub plan: Lent<u8>,
    pub slice: Lent<u8>,
    pub q: Lent<u16>,
}

impl Case for VerdictCase {
    fn second(&self) -> Answer {
        of_verdict(check::verdict(self.plan.part(), self.slice.part(), self.q.part()))
    }

    fn show(&self) -> String {
        show_bytes("plan", &self.plan) + &show_bytes("slice", &self.slice) + &show_numbers("criterion", &self.q)
    }
}

#[derive(Clone, Debug)]
pub struct TransferCase {
    pub old: Lent<u8>,
    pub new: Lent<u8>,
    pub running: Lent<u64>,
    pub table: Lent<u16>,
    pub marking: Lent<u64>,
}

impl Case for TransferCase {
    fn second(&self) -> Answer {
        let mut lent = self.marking.clone();
        let (old, new) = (self.old.part(), self.new.part());
        let answer = transfer::transfer(old, new, self.running.part(), self.table.part(), lent.part_mut());
        Answer::new(answer.err().unwrap_or(0), [0; 0], vec![Cells::Longs(lent.cells)])
    }

    fn show(&self) -> String {
        show_bytes("old", &self.old)
            + &show_bytes("new", &self.new)
            + &show_tokens("running", &self.running)
            + &show_numbers("table", &self.table)
            + &format!("  marking: {} entries lent\n", self.marking.len)
    }
}

/// A replay from a lent marking; the cut and the verdict below likewise.
#[derive(Clone, Debug)]
pub struct ReplayFromCase {
    pub start: Lent<u64>,
    pub plain: ReplayCase,
}

impl Case for ReplayFromCase {
    fn second(&self) -> Answer {
        let (file, list) = (self.plain.file.part(), self.plain.list.part());
        let mut lent = self.plain.marking.clone();
        let answer = replay::replay_from(file, self.start.part(), list, lent.part_mut());
        of_replay(answer, lent)
    }

    fn show(&self) -> String {
        self.plain.show() + &show_tokens("start", &self.start)
    }

    fn outcome(&self, answer: &Answer) -> String {
        self.plain.outcome(answer)
    }
}

#[derive(Clone, Debug)]
pub struct CutFromCase {
    pub start: Lent<u64>,
    pub plain: CutCase,
}

impl Case for CutFromCase {
    fn second(&self) -> Answer {
        let (plan, q) = (self.plain.plan.part(), self.plain.q.part());
        let mut lent = self.plain.slice.clone();
        let answer = cut_from(self.plain.which, plan, self.start.part(), q, lent.part_mut());
        of_cut(answer, lent)
    }

    fn show(&self) -> String {
        self.plain.show() + &show_tokens("start", &self.start)
    }
}

#[derive(Clone, Debug)]
pub struct VerdictFromCase {
    pub start: Lent<u64>,
    pub plain: VerdictCase,
}

impl Case for VerdictFromCase {
    fn second(&self) -> Answer {
        let (plan, slice, q) = (self.plain.plan.part(), self.plain.slice.part(), self.plain.q.part());
        of_verdict(check::verdict_from(plan, slice, self.start.part(), q))
    }

    fn show(&self) -> String {
        self.plain.show() + &show_tokens("start", &self.start)
    }
}

#[derive(Clone, Debug)]
pub struct PnmlCase {
    pub text: Lent<u8>,
    pub plan: Lent<u8>,
}

impl Case for PnmlCase {
    fn second(&self) -> Answer {
        let mut lent = self.plan.clone();
        let (number, length) = match pnml::from_pnml(self.text.part(), lent.part_mut()) {
            Ok(length) => (0, length as i64),
            Err(refusal) => (refusal, 0),
        };
        Answer::new(number, [length], vec![Cells::Bytes(lent.cells)])
    }

    fn show(&self) -> String {
        let text = String::from_utf8_lossy(self.text.part());
        format!("  text ({} bytes): {text:?}\n  plan: {} bytes lent\n", self.text.len, self.plan.len)
    }
}
