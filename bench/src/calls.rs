//! The calls that are timed, of either program, on an input.

use crate::nets::Input;
use crate::tuned;

type Effect = unsafe extern "C" fn(*const u8, usize, u32, u32, *mut i32) -> u32;
type Arcs = unsafe extern "C" fn(*const u8, usize, *const u8, usize, bool, u32, *mut u32) -> u32;
type Replay =
    unsafe extern "C" fn(*const u8, usize, *const u16, usize, *mut u64, usize, *mut u32, *mut u32, *mut u32) -> u32;
type Cut =
    unsafe extern "C" fn(*const u8, usize, *const u16, usize, *mut u8, usize, *mut u32, *mut u32, *mut u32) -> u32;
type RunCut = unsafe extern "C" fn(
    *const u8,
    usize,
    *const u16,
    usize,
    *const u16,
    usize,
    *mut u8,
    usize,
    *mut u16,
    usize,
    *mut u32,
    *mut u32,
    *mut u32,
    *mut u32,
    *mut u32,
    *mut u32,
    *mut u32,
) -> u32;
type Shadow = unsafe extern "C" fn(
    *const u8,
    usize,
    *const u8,
    usize,
    *const u16,
    usize,
    *mut u64,
    usize,
    *mut u16,
    usize,
    *mut u32,
    *mut u32,
    *mut u32,
    *mut u32,
) -> u32;
type Together = unsafe extern "C" fn(*const u8, usize, u32, *const u64, usize, *mut u64, usize, *mut u64) -> u32;
type Range = unsafe extern "C" fn(*const u8, usize, *const u16, usize, *const u32, usize, *mut u64, usize) -> u32;
type Check = unsafe extern "C" fn(*const u8, usize, *const u8, usize, *const u8, usize) -> u32;
type Verdict = unsafe extern "C" fn(*const u8, usize, *const u8, usize, *const u16, usize, *mut u32) -> u32;

/// The functions of a program, as far as it has them.
pub struct Program {
    effect: Option<Effect>,
    arcs: Option<Arcs>,
    replay: Option<Replay>,
    safety: Option<Cut>,
    branching: Option<Cut>,
    check: Option<Check>,
    verdict: Option<Verdict>,
    run_cut: Option<RunCut>,
    shadow: Option<Shadow>,
    together: Option<Together>,
    range: Option<Range>,
}

/// The library's function if the feature of this name is on.
macro_rules! of_library {
    ($name:ident, $feature:literal) => {{
        #[cfg(feature = $feature)]
        let function = Some(crate::library::$name as _);
        #[cfg(not(feature = $feature))]
        let function = None;
        function
    }};
}

pub const LIBRARY: Program = Program {
    effect: of_library!(nesfoal_effect, "effect"),
    arcs: of_library!(nesfoal_arcs, "arcs"),
    replay: of_library!(nesfoal_replay, "replay"),
    safety: of_library!(nesfoal_safety, "safety"),
    branching: of_library!(nesfoal_branching, "branching"),
    check: of_library!(nesfoal_check, "check"),
    verdict: of_library!(nesfoal_verdict, "verdict"),
    run_cut: of_library!(nesfoal_run_cut, "run_cut"),
    shadow: of_library!(nesfoal_shadow, "shadow"),
    together: of_library!(nesfoal_together, "together"),
    range: of_library!(nesfoal_range, "range"),
};

pub const TUNED: Program = Program {
    effect: Some(tuned::effect),
    arcs: Some(tuned::arcs),
    replay: Some(tuned::replay),
    safety: Some(tuned::safety),
    branching: Some(tuned::branching),
    check: Some(tuned::check),
    verdict: Some(tuned::verdict),
    run_cut: Some(tuned::run_cut),
    shadow: Some(tuned::shadow),
    together: Some(tuned::together),
    range: Some(tuned::range),
};

#[derive(Clone, Copy, PartialEq, Eq, Debug)]
pub enum Call {
    /// An effect that is refused once its file has been read: place 65,535.
    ReadPlan,
    ReadSlice,
    Effect,
    Arcs,
    Replay,
    Safety,
    Branching,
    Check,
    Verdict,
    RunCut,
    Shadow,
    Together,
    Range,
}

pub const CALLS: [Call; 13] = [
    Call::ReadPlan,
    Call::ReadSlice,
    Call::Effect,
    Call::Arcs,
    Call::Replay,
    Call::Safety,
    Call::Branching,
    Call::Check,
    Call::Verdict,
    Call::RunCut,
    Call::Shadow,
    Call::Together,
    Call::Range,
];

impl Call {
    pub fn name(self) -> &'static str {
        match self {
            Call::ReadPlan => "read plan",
            Call::ReadSlice => "read slice",
            Call::Effect => "effect",
            Call::Arcs => "arcs",
            Call::Replay => "replay",
            Call::Safety => "safety",
            Call::Branching => "branching",
            Call::Check => "check",
            Call::Verdict => "verdict",
            Call::RunCut => "run cut",
            Call::Shadow => "shadow",
            Call::Together => "together",
            Call::Range => "range",
        }
    }

    /// Whether the call refuses plans with caps.
    pub fn without_caps(self) -> bool {
        matches!(self, Call::RunCut | Call::Range)
    }

    /// Whether the call does no more than read a file.
    pub fn only_reads(self) -> bool {
        matches!(self, Call::ReadPlan | Call::ReadSlice)
    }

    /// Whether the call reads the slice beside the plan.
    pub fn reads_both(self) -> bool {
        matches!(self, Call::Arcs | Call::Check | Call::Verdict | Call::Shadow)
    }
}

/// A function and its arguments, as the machine sees them.
pub struct Words {
    pub function: *const (),
    pub arguments: Vec<u64>,
}

/// What a call did: its number, the values handed back, and its buffer.
#[derive(PartialEq, Eq)]
pub struct Outcome {
    pub number: u32,
    values: Values,
    buffers: Buffers,
}

#[derive(PartialEq, Eq, Default)]
struct Values {
    effect: i32,
    times: u64,
    numbers: [u32; 7],
}

#[derive(PartialEq, Eq)]
struct Buffers {
    marking: Vec<u64>,
    slice: Vec<u8>,
    out: Vec<u16>,
}

/// One call of a program on an input, with buffers of its own.
pub struct Job<'a> {
    program: &'a Program,
    call: Call,
    input: &'a Input,
    values: Values,
    buffers: Buffers,
}

impl<'a> Job<'a> {
    /// None if the program has no such function.
    pub fn new(program: &'a Program, call: Call, input: &'a Input) -> Option<Job<'a>> {
        let there = match call {
            Call::ReadPlan | Call::ReadSlice | Call::Effect => program.effect.is_some(),
            Call::Arcs => program.arcs.is_some(),
            Call::Replay => program.replay.is_some(),
            Call::Safety => program.safety.is_some(),
            Call::Branching => program.branching.is_some(),
            Call::Check => program.check.is_some(),
            Call::Verdict => program.verdict.is_some(),
            Call::RunCut => program.run_cut.is_some(),
            Call::Shadow => program.shadow.is_some(),
            Call::Together => program.together.is_some(),
            Call::Range => program.range.is_some(),
        };
        let buffers = Buffers { marking: vec![0; 1_024], slice: vec![0; 65_536], out: vec![0; 65_535] };
        there.then_some(Job { program, call, input, values: Values::default(), buffers })
    }

    /// The function and the arguments, in order.
    pub fn words(&mut self) -> Words {
        let (program, input) = (self.program, self.input);
        let mut arguments = Vec::new();
        let function = match self.call {
            Call::ReadPlan | Call::ReadSlice | Call::Effect => {
                let file = if self.call == Call::ReadSlice { &input.slice } else { &input.plan };
                let place = if self.call.only_reads() { 65_535 } else { input.place };
                read_part(&mut arguments, file);
                arguments.extend([u64::from(place), u64::from(input.transition)]);
                arguments.push(&raw mut self.values.effect as u64);
                program.effect.unwrap() as *const ()
            }
            Call::Arcs => {
                read_part(&mut arguments, &input.plan);
                read_part(&mut arguments, &input.slice);
                arguments.extend([0, u64::from(input.transition)]);
                self.results(&mut arguments, 1);
                program.arcs.unwrap() as *const ()
            }
            Call::Replay => {
                read_part(&mut arguments, &input.plan);
                read_part(&mut arguments, &input.list);
                written_part(&mut arguments, &mut self.buffers.marking);
                self.results(&mut arguments, 3);
                program.replay.unwrap() as *const ()
            }
            Call::Safety | Call::Branching => {
                read_part(&mut arguments, &input.plan);
                read_part(&mut arguments, &input.q);
                written_part(&mut arguments, &mut self.buffers.slice);
                self.results(&mut arguments, 3);
                let cut = if self.call == Call::Safety { program.safety } else { program.branching };
                cut.unwrap() as *const ()
            }
            Call::Check => {
                read_part(&mut arguments, &input.plan);
                read_part(&mut arguments, &input.slice);
                read_part(&mut arguments, &input.q_bytes);
                program.check.unwrap() as *const ()
            }
            Call::Verdict => {
                read_part(&mut arguments, &input.plan);
                read_part(&mut arguments, &input.slice);
                read_part(&mut arguments, &input.q);
                self.results(&mut arguments, 1);
                program.verdict.unwrap() as *const ()
            }
            Call::RunCut => {
                read_part(&mut arguments, &input.plan);
                read_part(&mut arguments, &input.fed);
                read_part(&mut arguments, &input.list);
                written_part(&mut arguments, &mut self.buffers.slice);
                written_part(&mut arguments, &mut self.buffers.out);
                self.results(&mut arguments, 7);
                program.run_cut.unwrap() as *const ()
            }
            Call::Shadow => {
                read_part(&mut arguments, &input.plan);
                read_part(&mut arguments, &input.slice);
                read_part(&mut arguments, &input.list);
                written_part(&mut arguments, &mut self.buffers.marking);
                written_part(&mut arguments, &mut self.buffers.out);
                self.results(&mut arguments, 4);
                program.shadow.unwrap() as *const ()
            }
            Call::Together => {
                read_part(&mut arguments, &input.plan);
                arguments.push(u64::from(input.taking));
                read_part(&mut arguments, &input.tokens);
                written_part(&mut arguments, &mut self.buffers.marking);
                arguments.push(&raw mut self.values.times as u64);
                program.together.unwrap() as *const ()
            }
            Call::Range => {
                read_part(&mut arguments, &input.plan);
                read_part(&mut arguments, &input.list);
                read_part(&mut arguments, &input.upper);
                written_part(&mut arguments, &mut self.buffers.marking);
                program.range.unwrap() as *const ()
            }
        };
        Words { function, arguments }
    }

    fn results(&mut self, arguments: &mut Vec<u64>, count: usize) {
        arguments.extend(self.values.numbers[..count].iter_mut().map(|n| n as *mut u32 as u64));
    }

    /// The call as a function to be timed.
    pub fn side(&mut self) -> Box<dyn FnMut() -> u32 + '_> {
        let (program, input) = (self.program, self.input);
        let (plan, slice, list, q) = (part(&input.plan), part(&input.slice), part(&input.list), part(&input.q));
        let (q_bytes, place, transition) = (part(&input.q_bytes), input.place, input.transition);
        let [first, second, third, fourth, fifth, sixth, seventh] = &mut self.values.numbers;
        let (effect, times) = (&mut self.values.effect, &mut self.values.times);
        let (tokens, taking) = (part(&input.tokens), input.taking);
        let Buffers { marking, slice: to, out } = &mut self.buffers;
        match self.call {
            Call::ReadPlan => {
                let call = program.effect.unwrap();
                Box::new(move || unsafe { call(plan.0, plan.1, 65_535, transition, effect) })
            }
            Call::ReadSlice => {
                let call = program.effect.unwrap();
                Box::new(move || unsafe { call(slice.0, slice.1, 65_535, transition, effect) })
            }
            Call::Effect => {
                let call = program.effect.unwrap();
                Box::new(move || unsafe { call(plan.0, plan.1, place, transition, effect) })
            }
            Call::Arcs => {
                let call = program.arcs.unwrap();
                Box::new(move || unsafe { call(plan.0, plan.1, slice.0, slice.1, false, transition, first) })
            }
            Call::Replay => {
                let call = program.replay.unwrap();
                let (to, room) = (marking.as_mut_ptr(), marking.len());
                Box::new(move || unsafe { call(plan.0, plan.1, list.0, list.1, to, room, first, second, third) })
            }
            Call::Safety | Call::Branching => {
                let cut = if self.call == Call::Safety { program.safety } else { program.branching };
                let call = cut.unwrap();
                let (to, room) = (to.as_mut_ptr(), to.len());
                Box::new(move || unsafe { call(plan.0, plan.1, q.0, q.1, to, room, first, second, third) })
            }
            Call::Check => {
                let call = program.check.unwrap();
                Box::new(move || unsafe { call(plan.0, plan.1, slice.0, slice.1, q_bytes.0, q_bytes.1) })
            }
            Call::Verdict => {
                let call = program.verdict.unwrap();
                Box::new(move || unsafe { call(plan.0, plan.1, slice.0, slice.1, q.0, q.1, first) })
            }
            Call::RunCut => {
                let (call, q) = (program.run_cut.unwrap(), part(&input.fed));
                let (to, room, out, entries) = (to.as_mut_ptr(), to.len(), out.as_mut_ptr(), out.len());
                Box::new(move || unsafe {
                    call(
                        plan.0, plan.1, q.0, q.1, list.0, list.1, to, room, out, entries, first, second, third, fourth,
                        fifth, sixth, seventh,
                    )
                })
            }
            Call::Shadow => {
                let call = program.shadow.unwrap();
                let (to, room, out, entries) = (marking.as_mut_ptr(), marking.len(), out.as_mut_ptr(), out.len());
                Box::new(move || unsafe {
                    call(
                        plan.0, plan.1, slice.0, slice.1, list.0, list.1, to, room, out, entries, first, second, third,
                        fourth,
                    )
                })
            }
            Call::Together => {
                let call = program.together.unwrap();
                let (to, room) = (marking.as_mut_ptr(), marking.len());
                Box::new(move || unsafe { call(plan.0, plan.1, taking, tokens.0, tokens.1, to, room, times) })
            }
            Call::Range => {
                let (call, upper) = (program.range.unwrap(), part(&input.upper));
                let (to, room) = (marking.as_mut_ptr(), marking.len());
                Box::new(move || unsafe { call(plan.0, plan.1, list.0, list.1, upper.0, upper.1, to, room) })
            }
        }
    }

    /// Does the call once and tells all that it did.
    pub fn outcome(mut self) -> Outcome {
        let number = self.side()();
        Outcome { number, values: self.values, buffers: self.buffers }
    }
}

/// The same call on several inputs.
pub struct Jobs<'a>(Vec<Job<'a>>);

impl<'a> Jobs<'a> {
    pub fn new(program: &'a Program, call: Call, inputs: &'a [Input]) -> Option<Jobs<'a>> {
        inputs.iter().map(|input| Job::new(program, call, input)).collect::<Option<_>>().map(Jobs)
    }

    /// One of them each time, in turn.
    pub fn side(&mut self) -> Box<dyn FnMut() -> u32 + '_> {
        if self.0.len() == 1 {
            return self.0[0].side();
        }
        let mut sides: Vec<_> = self.0.iter_mut().map(Job::side).collect();
        let mut next = 0;
        Box::new(move || {
            let number = sides[next]();
            next = if next + 1 == sides.len() { 0 } else { next + 1 };
            number
        })
    }
}

fn part<T>(lent: &[T]) -> (*const T, usize) {
    (lent.as_ptr(), lent.len())
}

fn read_part<T>(arguments: &mut Vec<u64>, lent: &[T]) {
    arguments.extend([lent.as_ptr() as u64, lent.len() as u64]);
}

fn written_part<T>(arguments: &mut Vec<u64>, lent: &mut [T]) {
    arguments.extend([lent.as_mut_ptr() as u64, lent.len() as u64]);
}
