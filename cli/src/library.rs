//! The proved calls (include/nesfoal.h is their manual), each with an answer that cannot be misread. Every verdict of this program
//! is one of these answers. The only file with `unsafe`: beside the library's calls it has those of the system that std lacks.
//!
//! Safety. What the header asks of a caller holds for each call by the way it is made: lists, files and buffers are slices, handed over
//! by their pointer and their length; each buffer is a new vector and each result a local, so that what is written overlaps nothing.

#![allow(unsafe_code)]

#[path = "../../include/nesfoal.rs"]
mod nesfoal;
use nesfoal::*;
use std::sync::atomic::{AtomicU8, Ordering};

pub use nesfoal::{
    NESFOAL_MAX_ARCS as MAX_ARCS, NESFOAL_MAX_FILE_BYTES as MAX_FILE_BYTES,
    NESFOAL_MAX_LIST_ENTRIES as MAX_LIST_ENTRIES, NESFOAL_MAX_PLACES as MAX_PLACES,
    NESFOAL_MAX_TRANSITIONS as MAX_TRANSITIONS, NESFOAL_NO_PLACE as NO_PLACE, NESFOAL_VERSION as VERSION,
};

macro_rules! refusals {
    ($($name:ident = $number:ident,)*) => {
        /// Why a call is refused, by the header's numbers.
        #[repr(u32)]
        #[derive(Clone, Copy, Debug, PartialEq, Eq)]
        pub enum Refusal {
            $($name = $number,)*
        }

        pub const REFUSALS: &[Refusal] = &[$(Refusal::$name,)*];
    };
}
refusals! {
    Length = NESFOAL_REFUSED_LENGTH,
    Letters = NESFOAL_REFUSED_LETTERS,
    Kind = NESFOAL_REFUSED_KIND,
    Counts = NESFOAL_REFUSED_COUNTS,
    Body = NESFOAL_REFUSED_BODY,
    Arc = NESFOAL_REFUSED_ARC,
    Order = NESFOAL_REFUSED_ORDER,
    Origins = NESFOAL_REFUSED_ORIGINS,
    Criterion = NESFOAL_REFUSED_CRITERION,
    Place = NESFOAL_REFUSED_PLACE,
    List = NESFOAL_REFUSED_LIST,
    Transition = NESFOAL_REFUSED_TRANSITION,
    Buffer = NESFOAL_REFUSED_BUFFER,
    Stuck = NESFOAL_REFUSED_STUCK,
    Marking = NESFOAL_REFUSED_MARKING,
    Cap = NESFOAL_REFUSED_CAP,
    Capped = NESFOAL_REFUSED_CAPPED,
    Profile = NESFOAL_REFUSED_PROFILE,
    Id = NESFOAL_REFUSED_ID,
    Number = NESFOAL_REFUSED_NUMBER,
    Upper = NESFOAL_REFUSED_UPPER,
    Entries = NESFOAL_REFUSED_ENTRIES,
    Stranded = NESFOAL_REFUSED_STRANDED,
    Tokens = NESFOAL_REFUSED_TOKENS,
    Weight = NESFOAL_REFUSED_WEIGHT,
}

impl Refusal {
    pub fn number(self) -> u32 {
        self as u32
    }

    /// Is it about a file by itself?
    pub fn of_file(self) -> bool {
        self.number() <= Refusal::Origins.number() || self == Refusal::Cap
    }

    /// What a call returned that has no other answers left.
    fn of(number: u32) -> Refusal {
        let known = REFUSALS.iter().find(|refusal| refusal.number() == number);
        *known.unwrap_or_else(|| panic!("the library answered {number}, which its header does not have"))
    }

    /// Done, or a refusal.
    fn or_done(number: u32) -> Result<(), Refusal> {
        match number {
            NESFOAL_DONE => Ok(()),
            _ => Err(Refusal::of(number)),
        }
    }
}

/// Where a list stops, and what is missing or too much there.
#[derive(Clone, Copy, Debug, PartialEq, Eq)]
pub struct Stop {
    pub index: u32,
    pub place: u32,
    pub amount: u32,
}

#[derive(Debug, PartialEq, Eq)]
pub enum Firing {
    Fired,
    Stuck(Stop),
    Full(Stop),
}

impl Firing {
    fn of(number: u32, stop: Stop) -> Result<Firing, Refusal> {
        match number {
            NESFOAL_DONE => Ok(Firing::Fired),
            NESFOAL_STUCK => Ok(Firing::Stuck(stop)),
            NESFOAL_FULL => Ok(Firing::Full(stop)),
            _ => Err(Refusal::of(number)),
        }
    }
}

/// By how much one firing changes the tokens of a place.
pub fn effect(file: &[u8], place: u32, transition: u32) -> Result<i32, Refusal> {
    let mut effect = 0;
    let number = unsafe { nesfoal_effect(file.as_ptr(), file.len(), place, transition, &mut effect) };
    Refusal::or_done(number).map(|()| effect)
}

/// Is a file of either kind refused? An effect is asked for, and what it says of place and transition is let go.
pub fn refusal_of_file(file: &[u8]) -> Option<Refusal> {
    effect(file, 0, 0).err().filter(|refusal| refusal.of_file())
}

/// Is a plan refused? For the empty criterion the cut is refused for the plan's sake alone.
pub fn refusal_of_plan(plan: &[u8]) -> Option<Refusal> {
    safety(plan, None, &[]).err()
}

/// Whose arcs.
#[derive(Clone, Copy, PartialEq, Eq)]
pub enum Side {
    Plan,
    Slice,
}

/// The part of the file named that is the transition's arcs: empty where there are none or something is refused.
pub fn arcs<'a>(plan: &'a [u8], slice: &'a [u8], side: Side, transition: u32) -> &'a [u8] {
    let mut start = 0;
    let length = unsafe {
        nesfoal_arcs(
            plan.as_ptr(),
            plan.len(),
            slice.as_ptr(),
            slice.len(),
            side == Side::Slice,
            transition,
            &mut start,
        )
    };
    let file = if side == Side::Slice { slice } else { plan };
    &file[start as usize..][..length as usize]
}

/// The marking that a call starts from, where that is not the file's own.
pub type Start<'a> = Option<&'a [u64]>;

/// A list fired, and the marking after it, or before the firing that does not happen: an entry for each of `places`.
pub fn replay(file: &[u8], start: Start, list: &[u16], places: usize) -> Result<(Firing, Vec<u64>), Refusal> {
    let mut marking = vec![0; NESFOAL_MARKING_ROOM];
    let (mut index, mut place, mut amount) = (0, 0, 0);
    let number = unsafe {
        match start {
            None => nesfoal_replay(
                file.as_ptr(),
                file.len(),
                list.as_ptr(),
                list.len(),
                marking.as_mut_ptr(),
                marking.len(),
                &mut index,
                &mut place,
                &mut amount,
            ),
            Some(start) => nesfoal_replay_from(
                file.as_ptr(),
                file.len(),
                start.as_ptr(),
                start.len(),
                list.as_ptr(),
                list.len(),
                marking.as_mut_ptr(),
                marking.len(),
                &mut index,
                &mut place,
                &mut amount,
            ),
        }
    };
    marking.truncate(places);
    Ok((Firing::of(number, Stop { index, place, amount })?, marking))
}

pub struct Shadowed {
    pub firing: Firing,
    pub marking: Vec<u64>,
    pub shadow: Vec<u16>,
}

/// The same, with the slice's numbers of what fired.
pub fn shadow(plan: &[u8], slice: &[u8], list: &[u16], places: usize) -> Result<Shadowed, Refusal> {
    let (mut marking, mut shadow) = (vec![0; NESFOAL_MARKING_ROOM], vec![0; NESFOAL_SHADOW_ROOM]);
    let (mut index, mut place, mut amount, mut count) = (0, 0, 0, 0);
    let number = unsafe {
        nesfoal_shadow(
            plan.as_ptr(),
            plan.len(),
            slice.as_ptr(),
            slice.len(),
            list.as_ptr(),
            list.len(),
            marking.as_mut_ptr(),
            marking.len(),
            shadow.as_mut_ptr(),
            shadow.len(),
            &mut index,
            &mut place,
            &mut amount,
            &mut count,
        )
    };
    let firing = Firing::of(number, Stop { index, place, amount })?;
    marking.truncate(places);
    shadow.truncate(count as usize);
    Ok(Shadowed { firing, marking, shadow })
}

/// How often the inputs can be taken, None where the transition takes nothing, and what is left.
pub fn together(plan: &[u8], transition: u32, marking: &[u64]) -> Result<(Option<u64>, Vec<u64>), Refusal> {
    let mut rest = vec![0; NESFOAL_MARKING_ROOM];
    let mut times = 0;
    let number = unsafe {
        nesfoal_together(
            plan.as_ptr(),
            plan.len(),
            transition,
            marking.as_ptr(),
            marking.len(),
            rest.as_mut_ptr(),
            rest.len(),
            &mut times,
        )
    };
    let times = match number {
        NESFOAL_DONE => Some(times),
        NESFOAL_UNLIMITED => None,
        _ => return Err(Refusal::of(number)),
    };
    rest.truncate(marking.len());
    Ok((times, rest))
}

/// From which markings of a range a list fires.
#[derive(Clone, Copy, Debug, PartialEq, Eq)]
pub enum Extent {
    Every,
    Some,
    None,
}

/// From which markings between the plan's and `upper` a list fires, and the least marking that it needs.
pub fn range(plan: &[u8], list: &[u16], upper: &[u32]) -> Result<(Extent, Vec<u64>), Refusal> {
    let mut need = vec![0; NESFOAL_MARKING_ROOM];
    let number = unsafe {
        nesfoal_range(
            plan.as_ptr(),
            plan.len(),
            list.as_ptr(),
            list.len(),
            upper.as_ptr(),
            upper.len(),
            need.as_mut_ptr(),
            need.len(),
        )
    };
    let extent = match number {
        NESFOAL_DONE => Extent::Every,
        NESFOAL_SOME => Extent::Some,
        NESFOAL_NONE => Extent::None,
        _ => return Err(Refusal::of(number)),
    };
    need.truncate(upper.len());
    Ok((extent, need))
}

/// A slice file as a cut wrote it.
pub struct Slice {
    pub bytes: Vec<u8>,
    pub places: u32,
    pub transitions: u32,
}

type CutCall =
    unsafe extern "C" fn(*const u8, usize, *const u16, usize, *mut u8, usize, *mut u32, *mut u32, *mut u32) -> u32;
type CutFromCall = unsafe extern "C" fn(
    *const u8,
    usize,
    *const u64,
    usize,
    *const u16,
    usize,
    *mut u8,
    usize,
    *mut u32,
    *mut u32,
    *mut u32,
) -> u32;

fn cut(plain: CutCall, from: CutFromCall, plan: &[u8], start: Start, criterion: &[u16]) -> Result<Slice, Refusal> {
    let mut bytes = vec![0; NESFOAL_SLICE_ROOM];
    let (mut length, mut places, mut transitions) = (0, 0, 0);
    let number = unsafe {
        match start {
            None => plain(
                plan.as_ptr(),
                plan.len(),
                criterion.as_ptr(),
                criterion.len(),
                bytes.as_mut_ptr(),
                bytes.len(),
                &mut length,
                &mut places,
                &mut transitions,
            ),
            Some(start) => from(
                plan.as_ptr(),
                plan.len(),
                start.as_ptr(),
                start.len(),
                criterion.as_ptr(),
                criterion.len(),
                bytes.as_mut_ptr(),
                bytes.len(),
                &mut length,
                &mut places,
                &mut transitions,
            ),
        }
    };
    Refusal::or_done(number)?;
    bytes.truncate(length as usize);
    Ok(Slice { bytes, places, transitions })
}

pub fn safety(plan: &[u8], start: Start, criterion: &[u16]) -> Result<Slice, Refusal> {
    cut(nesfoal_safety, nesfoal_safety_from, plan, start, criterion)
}

pub fn branching(plan: &[u8], start: Start, criterion: &[u16]) -> Result<Slice, Refusal> {
    cut(nesfoal_branching, nesfoal_branching_from, plan, start, criterion)
}

type PlanCall = unsafe extern "C" fn(*const u8, usize, *mut u8, usize, *mut u32) -> u32;

/// The plan file that a call writes.
fn plan_of(call: PlanCall, from: &[u8]) -> Result<Vec<u8>, Refusal> {
    let mut bytes = vec![0; NESFOAL_PLAN_ROOM];
    let mut length = 0;
    let number = unsafe { call(from.as_ptr(), from.len(), bytes.as_mut_ptr(), bytes.len(), &mut length) };
    Refusal::or_done(number)?;
    bytes.truncate(length as usize);
    Ok(bytes)
}

/// The normal form of a plan.
pub fn normal(plan: &[u8]) -> Result<Vec<u8>, Refusal> {
    plan_of(nesfoal_normal, plan)
}

/// The plan that a text in PNML draws.
pub fn from_pnml(text: &[u8]) -> Result<Vec<u8>, Refusal> {
    plan_of(nesfoal_from_pnml, text)
}

/// A list that sticks has its stop beside the refusal.
pub struct NoRunCut {
    pub refusal: Refusal,
    pub stop: Stop,
}

/// The cut for a recorded run, and the positions of the firings that it chose.
pub fn run_cut(plan: &[u8], criterion: &[u16], list: &[u16]) -> Result<(Slice, Vec<u16>), NoRunCut> {
    let (mut bytes, mut positions) = (vec![0; NESFOAL_SLICE_ROOM], vec![0; NESFOAL_POSITIONS_ROOM]);
    let (mut length, mut places, mut transitions, mut count) = (0, 0, 0, 0);
    let (mut index, mut place, mut amount) = (0, 0, 0);
    let number = unsafe {
        nesfoal_run_cut(
            plan.as_ptr(),
            plan.len(),
            criterion.as_ptr(),
            criterion.len(),
            list.as_ptr(),
            list.len(),
            bytes.as_mut_ptr(),
            bytes.len(),
            positions.as_mut_ptr(),
            positions.len(),
            &mut length,
            &mut places,
            &mut transitions,
            &mut count,
            &mut index,
            &mut place,
            &mut amount,
        )
    };
    Refusal::or_done(number).map_err(|refusal| NoRunCut { refusal, stop: Stop { index, place, amount } })?;
    bytes.truncate(length as usize);
    positions.truncate(count as usize);
    Ok((Slice { bytes, places, transitions }, positions))
}

#[derive(Debug, PartialEq, Eq)]
pub enum Verdict {
    Accepted,
    /// The first rule that is broken, 1 to 10, and the lowest number that breaks it.
    Broken {
        rule: u32,
        number: u32,
    },
}

/// Is the slice right for the plan and the criterion?
pub fn verdict(plan: &[u8], slice: &[u8], start: Start, criterion: &[u16]) -> Result<Verdict, Refusal> {
    let mut breaking = 0;
    let number = unsafe {
        match start {
            None => nesfoal_verdict(
                plan.as_ptr(),
                plan.len(),
                slice.as_ptr(),
                slice.len(),
                criterion.as_ptr(),
                criterion.len(),
                &mut breaking,
            ),
            Some(start) => nesfoal_verdict_from(
                plan.as_ptr(),
                plan.len(),
                slice.as_ptr(),
                slice.len(),
                start.as_ptr(),
                start.len(),
                criterion.as_ptr(),
                criterion.len(),
                &mut breaking,
            ),
        }
    };
    match number {
        NESFOAL_ACCEPTED => Ok(Verdict::Accepted),
        NESFOAL_RULE.. => Ok(Verdict::Broken { rule: number - NESFOAL_RULE, number: breaking }),
        _ => Err(Refusal::of(number)),
    }
}

/// The running marking of the old plan, carried to each of the new plan's `places`.
pub fn transfer(old: &[u8], new: &[u8], running: &[u64], table: &[u16], places: usize) -> Result<Vec<u64>, Refusal> {
    let mut marking = vec![0; NESFOAL_MARKING_ROOM];
    let number = unsafe {
        nesfoal_transfer(
            old.as_ptr(),
            old.len(),
            new.as_ptr(),
            new.len(),
            running.as_ptr(),
            running.len(),
            table.as_ptr(),
            table.len(),
            marking.as_mut_ptr(),
            marking.len(),
        )
    };
    Refusal::or_done(number)?;
    marking.truncate(places);
    Ok(marking)
}

// The system's calls, by Linux's numbers.
const SIGXFSZ: i32 = 25;
const SIG_IGN: usize = 1;
const SIG_SETMASK: i32 = 2;
const F_GETFD: i32 = 1;

/// A set of signals, as large as the C library has it.
#[repr(C)]
struct Signals([u64; 16]);

extern "C" {
    fn fcntl(file: i32, command: i32, ...) -> i32;
    fn signal(signal: i32, handler: usize) -> usize;
    fn sigfillset(set: *mut Signals) -> i32;
    fn sigprocmask(how: i32, set: *const Signals, old: *mut Signals) -> i32;
}

/// The standard streams that were closed when the program started, a bit each.
static CLOSED: AtomicU8 = AtomicU8::new(0);

/// Runs before Rust's own start, which puts /dev/null in the place of a stream that is closed: an answer would be lost there in silence.
extern "C" fn look_at_streams() {
    for stream in 0..3 {
        if unsafe { fcntl(stream, F_GETFD) } == -1 {
            CLOSED.fetch_or(1 << stream, Ordering::Relaxed);
        }
    }
}

// The C library runs what stands in this section before main.
#[used]
#[link_section = ".init_array"]
static AT_THE_START: extern "C" fn() = look_at_streams;

/// Was standard input (0), output (1) or error (2) closed when the program started?
pub fn was_closed(stream: u8) -> bool {
    CLOSED.load(Ordering::Relaxed) & (1 << stream) != 0
}

/// A file above the limit of the shell's `ulimit -f` is an error like any other, and not the end.
pub fn heed_file_limit() {
    unsafe { signal(SIGXFSZ, SIG_IGN) };
}

/// Does the work while all signals wait that can: what they end, they end after it. KILL does not wait.
pub fn undisturbed<T>(work: impl FnOnce() -> T) -> T {
    let (mut all, mut old) = (Signals([0; 16]), Signals([0; 16]));
    unsafe {
        sigfillset(&mut all);
        sigprocmask(SIG_SETMASK, &all, &mut old);
    }
    let done = work();
    unsafe { sigprocmask(SIG_SETMASK, &old, std::ptr::null_mut()) };
    done
}
