//! What the program says. An answer is a sentence with holes: filled in, they are its words; their names and values are its JSON.

use crate::library::{Extent, Side, Slice, Stop, MAX_FILE_BYTES, VERSION};
use crate::net::{self, Arc, Net, Node};
use std::io::Write;

/// The exit status that an answer asks for.
#[derive(Clone, Copy, Debug, PartialEq, Eq, PartialOrd, Ord)]
pub enum Status {
    Good = 0,
    /// Stuck, full, a list that does not always fire, a rule broken.
    Bad = 1,
    /// Refused, bad usage, an error.
    Refused = 2,
}

#[derive(Clone, Debug, PartialEq)]
pub enum Value {
    Number(i128),
    /// A number of things: `1 place`, `2 places`.
    Count(u64, &'static str),
    /// So many of them: `3 of 5 places`.
    Of(u64, u64, &'static str),
    /// A place or a transition, in words with whose number it is.
    Node(Node),
    /// Places and by how much each is short or over: `place 3 by 2`.
    Amounts(Vec<(Node, u32)>),
    /// A text or a file's name, as it is.
    Text(Vec<u8>),
    /// In words, and in JSON.
    Either(&'static str, &'static str),
    /// Why, after the name of the file that it is about.
    Reason(Option<Vec<u8>>, String),
    /// Numbers, in words each after a space.
    Numbers(Vec<u64>),
    /// Arcs, in words after a colon.
    Arcs(Vec<Arc>),
    /// Texts, in words each after a space.
    Texts(Vec<String>),
    /// Answers, in words on a line each.
    Answers(Vec<Answer>),
}

macro_rules! value {
    ($($from:ty: $x:ident => $value:expr;)*) => {$(
        impl From<$from> for Value {
            fn from($x: $from) -> Value {
                $value
            }
        }
    )*};
}
value! {
    i32: n => Value::Number(n.into());
    u8: n => Value::Number(n.into());
    u16: n => Value::Number(n.into());
    u32: n => Value::Number(n.into());
    u64: n => Value::Number(n.into());
    usize: n => Value::Number(n as i128);
    &[u8]: text => Value::Text(text.into());
    &str: text => Value::Text(text.into());
    String: text => Value::Text(text.into());
    &[u16]: list => Value::Numbers(list.iter().map(|n| (*n).into()).collect());
    &[u64]: list => Value::Numbers(list.into());
    Vec<Arc>: arcs => Value::Arcs(arcs);
    Node: node => Value::Node(node);
}

#[derive(Clone, Debug, PartialEq)]
enum Part {
    /// In words alone.
    Say(String),
    /// In words and, with this key, in JSON.
    Field(&'static str, Value),
    /// In JSON alone.
    Data(&'static str, Value),
}

#[derive(Clone, Debug, PartialEq)]
pub struct Answer {
    pub status: Status,
    outcome: &'static str,
    parts: Vec<Part>,
}

/// An answer by its outcome, its status, and a sentence with a value for each hole.
macro_rules! answer {
    ($outcome:expr, $status:ident, $sentence:expr $(, $value:expr)*) => {
        Answer::new($outcome, Status::$status).and_says($sentence, vec![$(Value::from($value)),*])
    };
}

impl Answer {
    pub fn new(outcome: &'static str, status: Status) -> Answer {
        Answer { status, outcome, parts: Vec::new() }
    }

    /// With more of a sentence: `place {place}`.
    fn and_says(mut self, sentence: &'static str, values: Vec<Value>) -> Answer {
        let mut values = values.into_iter();
        for (i, piece) in sentence.split(['{', '}']).enumerate() {
            self.parts.push(match i % 2 {
                0 => Part::Say(piece.into()),
                _ => Part::Field(piece, values.next().expect("a value for each hole")),
            });
        }
        self
    }

    /// With words that JSON does not have.
    pub fn say(mut self, words: impl Into<String>) -> Answer {
        self.parts.push(Part::Say(words.into()));
        self
    }

    /// With what words do not have.
    pub fn data(mut self, key: &'static str, value: impl Into<Value>) -> Answer {
        self.parts.push(Part::Data(key, value.into()));
        self
    }

    fn reasons(&mut self) -> impl Iterator<Item = (&mut Option<Vec<u8>>, &mut String)> {
        self.parts.iter_mut().filter_map(|part| match part {
            Part::Field(_, Value::Reason(of, why)) => Some((of, why)),
            _ => None,
        })
    }

    /// Without the file's name in its reason, where a line starts with it anyway.
    pub fn unnamed(mut self) -> Answer {
        self.reasons().for_each(|(of, _)| *of = None);
        self
    }

    /// With more of a reason.
    pub fn because(mut self, more: &str) -> Answer {
        self.reasons().for_each(|(_, why)| why.push_str(more));
        self
    }

    /// The words, without a last line feed.
    pub fn words(&self) -> Vec<u8> {
        let mut out = Vec::new();
        for part in &self.parts {
            match part {
                Part::Say(words) => out.extend_from_slice(words.as_bytes()),
                Part::Field(_, value) => value.words(&mut out),
                Part::Data(..) => (),
            }
        }
        out
    }

    /// The fields after the verb and, of one slice of many, its name: `"outcome":..`.
    pub fn json(&self, out: &mut Vec<u8>) {
        out.extend_from_slice(b"\"outcome\":");
        quote(self.outcome.as_bytes(), out);
        out.push(b',');
        self.fields(out);
        if out.last() == Some(&b',') {
            out.pop();
        }
    }

    /// The fields of its parts.
    fn fields(&self, out: &mut Vec<u8>) {
        let mut is_first = true;
        for part in &self.parts {
            if let Part::Field(key, value) | Part::Data(key, value) = part {
                if !std::mem::take(&mut is_first) {
                    out.push(b',');
                }
                quote(key.as_bytes(), out);
                out.push(b':');
                value.json(out);
            }
        }
    }
}

impl Value {
    fn words(&self, out: &mut Vec<u8>) {
        match self {
            Value::Number(n) => put(out, n),
            Value::Count(n, thing) => put(out, counted(*n, thing)),
            Value::Of(n, all, thing) => put(out, format_args!("{n} of {}", counted(*all, thing))),
            Value::Node(node) => put(out, named(node)),
            Value::Amounts(amounts) => {
                for (i, (place, amount)) in amounts.iter().enumerate() {
                    let join = if i == 0 { "" } else { ", " };
                    put(out, format_args!("{join}{} by {amount}", named(place)));
                }
            }
            Value::Text(text) => out.extend_from_slice(text),
            Value::Either(words, _) => put(out, words),
            Value::Reason(of, why) => out.extend_from_slice(&reason(of, why)),
            Value::Numbers(list) => list.iter().for_each(|n| put(out, format_args!(" {n}"))),
            Value::Arcs(arcs) => {
                for (i, arc) in arcs.iter().enumerate() {
                    let join = if i == 0 { ": " } else { ", " };
                    let (verb, way) = if arc.adds() { ("adds", "to") } else { ("takes", "from") };
                    put(out, format_args!("{join}{verb} {} {way} place {}", arc.weight, arc.place));
                }
            }
            Value::Texts(texts) => texts.iter().for_each(|text| put(out, format_args!(" {text}"))),
            Value::Answers(answers) => {
                for answer in answers {
                    out.push(b'\n');
                    out.extend_from_slice(&answer.words());
                }
            }
        }
    }

    fn json(&self, out: &mut Vec<u8>) {
        match self {
            Value::Number(n) => put(out, n),
            Value::Count(n, _) | Value::Of(n, ..) => put(out, n),
            Value::Node(node) => put(out, node.number),
            Value::Amounts(amounts) => each(amounts, out, |(place, amount), out| {
                put(out, format_args!("{{\"place\":{},\"amount\":{amount}}}", place.number));
            }),
            Value::Text(text) => quote(text, out),
            Value::Either(_, key) => quote(key.as_bytes(), out),
            Value::Reason(of, why) => quote(&reason(of, why), out),
            Value::Numbers(list) => each(list, out, |n, out| put(out, n)),
            Value::Arcs(arcs) => each(arcs, out, |arc, out| {
                let verb = if arc.adds() { "adds" } else { "takes" };
                put(out, format_args!("{{\"{verb}\":{},\"place\":{}}}", arc.weight, arc.place));
            }),
            Value::Texts(texts) => each(texts, out, |text, out| quote(text.as_bytes(), out)),
            Value::Answers(answers) => each(answers, out, |answer, out| {
                out.push(b'{');
                answer.fields(out);
                out.push(b'}');
            }),
        }
    }
}

/// `place 3`, or `the slice's place 1 (the plan's 3)`.
fn named(node: &Node) -> String {
    let Node { what, number, origin } = node;
    match origin {
        Some(origin) => format!("the slice's {what} {number} (the plan's {origin})"),
        None => format!("{what} {number}"),
    }
}

/// What an answer is about, after its fields: the version of the library, the files that were read with their lengths, the criterion.
pub fn evidence(read: &[(Vec<u8>, usize)], criterion: Option<&[u16]>, out: &mut Vec<u8>) {
    put(out, format_args!(",\"version\":{VERSION},\"files\":"));
    each(read, out, |(name, length), out| {
        out.extend_from_slice(b"{\"name\":");
        quote(name, out);
        match *length {
            ..=MAX_FILE_BYTES => put(out, format_args!(",\"bytes\":{length}}}")),
            _ => put(out, format_args!(",\"more_than\":{MAX_FILE_BYTES}}}")), // a byte more was read, and no further
        }
    });
    if let Some(criterion) = criterion {
        out.extend_from_slice(b",\"criterion\":");
        each(criterion, out, |n, out| put(out, n));
    }
}

fn reason(of: &Option<Vec<u8>>, why: &str) -> Vec<u8> {
    match of {
        Some(name) => [name, b": ".as_slice(), why.as_bytes()].concat(),
        None => why.into(),
    }
}

fn put(out: &mut Vec<u8>, what: impl std::fmt::Display) {
    let _ = write!(out, "{what}");
}

/// A list in JSON.
fn each<T>(list: &[T], out: &mut Vec<u8>, mut one: impl FnMut(&T, &mut Vec<u8>)) {
    out.push(b'[');
    for (i, item) in list.iter().enumerate() {
        if i > 0 {
            out.push(b',');
        }
        one(item, out);
    }
    out.push(b']');
}

/// A text in JSON; what is no UTF-8 becomes U+FFFD.
pub fn quote(text: &[u8], out: &mut Vec<u8>) {
    out.push(b'"');
    for c in String::from_utf8_lossy(text).chars() {
        match c {
            '"' | '\\' => put(out, format_args!("\\{c}")),
            '\n' => put(out, "\\n"),
            '\t' => put(out, "\\t"),
            c if c.is_ascii_control() => put(out, format_args!("\\u{:04x}", c as u32)),
            c => put(out, c),
        }
    }
    out.push(b'"');
}

/// `1 place`, `2 places`.
pub fn counted(n: u64, thing: &str) -> String {
    let s = if n == 1 { "" } else { "s" };
    format!("{n} {thing}{s}")
}

/// The same with commas, as reasons have it: `1 byte`, `65,536 bytes`.
pub fn grouped_count(n: impl ToString, thing: &str) -> String {
    let n = grouped(n);
    let s = if n == "1" { "" } else { "s" };
    format!("{n} {thing}{s}")
}

/// A number with commas.
pub fn grouped(n: impl ToString) -> String {
    let digits = n.to_string();
    let mut out = String::new();
    for (i, digit) in digits.chars().enumerate() {
        if i > 0 && (digits.len() - i).is_multiple_of(3) {
            out.push(',');
        }
        out.push(digit);
    }
    out
}

fn count(n: usize, thing: &'static str) -> Value {
    Value::Count(n as u64, thing)
}

// ---- the answers

pub fn error(reason: impl Into<String>) -> Answer {
    answer!("error", Refused, "error: {reason}", Value::Reason(None, reason.into()))
}

/// An error of a file.
pub fn error_of(name: &[u8], reason: impl Into<String>) -> Answer {
    answer!("error", Refused, "error: {reason}", Value::Reason(Some(name.into()), reason.into())).data("file", name)
}

pub fn usage(usage: String) -> Answer {
    answer!("usage", Refused, "usage: {usage}", usage)
}

/// A refusal by its number, what it is about where that is a file, and why.
pub fn refused(number: u32, of: Option<&[u8]>, why: impl Into<String>) -> Answer {
    let reason = Value::Reason(of.map(Into::into), why.into());
    let answer = answer!("refused", Refused, "refused {refusal}: {reason}", number, reason);
    match of {
        Some(name) => answer.data("file", name),
        None => answer,
    }
}

/// The refusal of a run cut whose list sticks.
pub fn sticks(number: u32, stopped: Stopped) -> Answer {
    let Stopped { transition, place, stop, .. } = stopped;
    let why = String::from_utf8_lossy(&stuck(stopped).words()).into_owned();
    refused(number, None, format!("list: {why}"))
        .data("index", stop.index)
        .data("transition", transition)
        .data("place", place)
        .data("amount", stop.amount)
}

pub fn effect(effect: i32, place: Node, transition: Node) -> Answer {
    answer!("effect", Good, "effect {effect} on {place} of {transition}", effect, place, transition)
        .with_plans_numbers(transition, place)
}

pub fn arcs(arcs: Vec<Arc>, transition: u32, side: Side) -> Answer {
    let count = format!("arcs {} of", arcs.len());
    let answer = Answer::new("arcs", Status::Good).say(count);
    let values = vec![transition.into(), side_named(side).into(), arcs.into()];
    answer.and_says(" transition {transition} in the {file}{arcs}", values)
}

pub fn side_named(side: Side) -> &'static str {
    match side {
        Side::Plan => "plan",
        Side::Slice => "slice",
    }
}

pub fn fired(list: usize, marking: &[u64]) -> Answer {
    answer!("fired", Good, "fired {fired}, ending{marking}", count(list, "transition"), marking)
}

/// The firing that does not happen, and the place where.
#[derive(Clone, Copy)]
pub struct Stopped {
    pub transition: Node,
    pub place: Node,
    pub stop: Stop,
}

pub fn stuck(Stopped { transition, place, stop }: Stopped) -> Answer {
    let sentence = "stuck at index {index}: {transition}, {place} is short of {amount}";
    answer!("stuck", Bad, sentence, stop.index, transition, place, stop.amount).with_plans_numbers(transition, place)
}

pub fn full(Stopped { transition, place, stop }: Stopped) -> Answer {
    let sentence = "full at index {index}: {transition}, {place} is over by {amount}";
    answer!("full", Bad, sentence, stop.index, transition, place, stop.amount).with_plans_numbers(transition, place)
}

/// What stands around a firing that does not happen.
pub struct Around {
    /// The other places that are short, or over.
    pub also: Vec<(Node, u32)>,
    /// No place above this one was looked at.
    pub up_to: Option<u32>,
    /// The marking there.
    pub marking: Vec<u64>,
    /// The transitions that can fire there.
    pub can_fire: Vec<u16>,
    pub is_slice: bool,
}

impl Answer {
    /// In a slice, with the plan's numbers for JSON: words have them.
    fn with_plans_numbers(self, transition: Node, place: Node) -> Answer {
        match (transition.origin, place.origin) {
            (Some(t), Some(p)) => self.data("plan_transition", t).data("plan_place", p),
            _ => self,
        }
    }

    /// A stop with what stands around it, a line each.
    pub fn with_around(self, around: Around) -> Answer {
        let also = if self.outcome == "full" { "\nalso over: " } else { "\nalso short: " };
        let mut answer = match around.also.is_empty() {
            true => self.data("also", Value::Amounts(Vec::new())),
            false => self.say(also).and_says("{also}", vec![Value::Amounts(around.also)]),
        };
        if let Some(place) = around.up_to {
            answer = answer.and_says("\nplaces above {up_to} were not looked at", vec![place.into()]);
        }
        answer = answer.and_says("\nmarking there:{marking}", vec![around.marking[..].into()]);
        let whose = if around.is_slice { "the slice's " } else { "" };
        let can = match around.can_fire.len() {
            0 => "\ncan fire there: no transition".into(),
            1 => format!("\ncan fire there: {whose}transition"),
            _ => format!("\ncan fire there: {whose}transitions"),
        };
        answer.say(can).and_says("{can_fire}", vec![around.can_fire[..].into()])
    }

    /// With the words for a criterion of no place.
    pub fn for_no_place(self, criterion: &[u16]) -> Answer {
        if criterion.is_empty() {
            self.say(", for no place")
        } else {
            self
        }
    }

    /// A firing's answer with its shadow on a line below.
    pub fn with_shadow(self, shadow: &[u16]) -> Answer {
        self.and_says("\nshadow{shadow}", vec![shadow.into()])
    }

    /// A plan's answer with the ids of its places and of its transitions, on a line each.
    pub fn with_ids(self, places: Vec<String>, transitions: Vec<String>) -> Answer {
        let values = vec![Value::Texts(places), Value::Texts(transitions)];
        self.and_says("\nplaces{place_ids}\ntransitions{transition_ids}", values)
    }

    /// A cut's answer with the chosen positions on a line below, and the same firings by the slice's own numbers on another.
    pub fn with_chosen(self, positions: &[u16], list: &[u16]) -> Answer {
        self.and_says("\nchosen positions{positions}\nthe slice's list{list}", vec![positions.into(), list.into()])
    }
}

pub fn taken(times: u64, leaving: &[u64]) -> Answer {
    answer!("taken", Good, "taken {times}, leaving{leaving}", Value::Count(times, "time"), leaving)
}

pub fn unlimited(leaving: &[u64]) -> Answer {
    answer!("unlimited", Good, "unlimited, leaving{leaving}", leaving)
}

/// A place that may have too few tokens for a list.
pub struct Scarce {
    pub place: usize,
    pub least: u32,
    pub most: u32,
    pub needs: u64,
}

/// From which markings of a range a list fires; why not from all; and what it needs.
pub fn range(extent: Extent, scarce: Option<Scarce>, needed: &[u64]) -> Answer {
    let (outcome, status) = match extent {
        Extent::Every => ("always", Status::Good),
        Extent::Some => ("sometimes", Status::Bad),
        Extent::None => ("never", Status::Bad),
    };
    let mut answer = Answer::new(outcome, status).say(outcome).say(" fires");
    if let Some(Scarce { place, least, most, needs }) = scarce {
        answer = answer.and_says(": place {place} has {least}", vec![place.into(), least.into()]);
        answer =
            if least < most { answer.and_says(" to {most}", vec![most.into()]) } else { answer.data("most", most) };
        answer = answer.and_says(" and needs {needs}", vec![needs.into()]);
    }
    answer.and_says("; needed{needed}", vec![needed.into()])
}

pub fn carried(marking: &[u64]) -> Answer {
    let tokens = Value::Count(marking.iter().sum(), "token");
    answer!("carried", Good, "carried {tokens}, ending{marking}", tokens, marking)
}

/// A slice of so many of the plan's places and transitions.
pub fn written(file: &[u8], slice: &Slice, plan: &[u8]) -> Answer {
    let (all_places, all_transitions) = (net::places(plan) as u64, net::transitions(plan) as u64);
    let values = vec![
        file.into(),
        count(slice.bytes.len(), "byte"),
        Value::Of(slice.places.into(), all_places, "place"),
        Value::Of(slice.transitions.into(), all_transitions, "transition"),
    ];
    Answer::new("written", Status::Good)
        .and_says("written {file}: {bytes}, {places}, {transitions}", values)
        .data("plan_places", all_places)
        .data("plan_transitions", all_transitions)
}

/// A file of an earlier, larger plan in a folder of cuts.
pub fn left(file: &[u8], place: usize) -> Answer {
    answer!("left", Good, "left {file}: the plan has no place {place}", file, place)
}

pub fn written_plan(file: &[u8], net: &Net) -> Answer {
    let t = net.trailer;
    let values = vec![
        file.into(),
        count(net.file.len(), "byte"),
        count(t.places, "place"),
        count(t.transitions, "transition"),
        count(t.arcs, "arc"),
    ];
    Answer::new("written", Status::Good).and_says("written {file}: {bytes}, {places}, {transitions}, {arcs}", values)
}

pub fn accepted() -> Answer {
    answer!("accepted", Good, "accepted")
}

/// Each rule: what breaks it, and how.
pub const RULES: [(Value, &str); 10] = [
    (Value::Either("the slice's place", "slice place"), "its origin is no place of the plan"),
    (Value::Either("the slice's transition", "slice transition"), "its origin is no transition of the plan"),
    (PLACE, "its marking or its cap is not the plan's"),
    (TRANSITION, "its arcs are not exactly its plan arcs to kept places"),
    (PLACE, "it is in the criterion and not kept"),
    (TRANSITION, "it is left out and changes a place of the criterion"),
    (TRANSITION, "it is kept and one of its input places is not"),
    (TRANSITION, "it is left out and raises a kept place"),
    (TRANSITION, "it is kept and a place with a cap that it adds to is not"),
    (TRANSITION, "it is left out and changes a kept place that has a cap"),
];
const PLACE: Value = Value::Either("the plan's place", "plan place");
const TRANSITION: Value = Value::Either("the plan's transition", "plan transition");

pub fn broken(rule: u32, number: u32) -> Answer {
    let (by, reason) = RULES[rule as usize - 1].clone();
    answer!("broken", Bad, "rule {rule} broken by {by} {number}: {reason}", rule, by, number, reason)
}

/// Rule 3 of a check from a lent marking.
pub fn broken_from(number: u32) -> Answer {
    let reason = "its marking is not the one given, or its cap is not the plan's";
    answer!("broken", Bad, "rule {rule} broken by {by} {number}: {reason}", 3, PLACE, number, reason)
}

/// `show`: counts, the note where it is text, and each place and transition.
pub fn net(net: &Net, note: Option<&str>, places: Vec<Answer>, transitions: Vec<Answer>) -> Answer {
    let (kind, t) = (net.kind(), net.trailer);
    let mut answer = Answer::new(kind, Status::Good).say(kind).and_says(
        " of {places}, {transitions}, {arcs} in {bytes}",
        vec![
            count(t.places, "place"),
            count(t.transitions, "transition"),
            count(t.arcs, "arc"),
            count(net.file.len(), "byte"),
        ],
    );
    if !net.note().is_empty() {
        answer = answer.and_says(", a note of {note_bytes} first", vec![count(net.note().len(), "byte")]);
    }
    if let Some(text) = note {
        answer = answer.and_says("\nnote: {note}", vec![text.into()]);
    }
    let values = vec![Value::Answers(places), Value::Answers(transitions)];
    answer.data("edition", t.edition).and_says("{each_place}{each_transition}", values)
}

pub fn place(place: usize, origin: Option<u16>, tokens: u32, cap: Option<u32>) -> Answer {
    let answer = answer!("place", Good, "place {place}", place).of_plan(origin);
    let answer = answer.and_says(": {marking}", vec![Value::Count(tokens.into(), "token")]);
    match cap {
        Some(cap) => answer.and_says(", cap {cap}", vec![cap.into()]),
        None => answer,
    }
}

pub fn transition(transition: usize, origin: Option<u16>, arcs: Vec<Arc>) -> Answer {
    let answer = answer!("transition", Good, "transition {transition}", transition).of_plan(origin);
    answer.and_says("{arcs}", vec![arcs.into()])
}

impl Answer {
    /// With the plan's number, in a slice.
    fn of_plan(self, origin: Option<u16>) -> Answer {
        match origin {
            Some(origin) => self.and_says(" (the plan's {origin})", vec![origin.into()]),
            None => self,
        }
    }
}

pub fn picture(graphviz: String) -> Answer {
    Answer::new("picture", Status::Good).say(graphviz.trim_end()).data("graphviz", graphviz)
}

/// A line of the demo that is no answer.
pub fn text(text: &str) -> Answer {
    answer!("text", Good, "{text}", text)
}

pub fn command(command: &str) -> Answer {
    answer!("command", Good, "\n$ nesfoal {command}", command)
}

pub fn version(version: u32) -> Answer {
    Answer::new("version", Status::Good).say(format!("nesfoal {version}"))
}

pub fn built(file: &str) -> Answer {
    answer!("built", Good, "built {file}", file)
}

pub fn installed(files: usize, prefix: &[u8]) -> Answer {
    answer!("installed", Good, "installed {files} below {prefix}", count(files, "file"), prefix)
}

pub fn removed(files: usize, prefix: &[u8]) -> Answer {
    answer!("removed", Good, "removed {files} below {prefix}", count(files, "file"), prefix)
}

#[cfg(test)]
mod tests {
    use super::*;

    fn json(answer: &Answer) -> String {
        let mut out = Vec::new();
        answer.json(&mut out);
        String::from_utf8(out).unwrap()
    }

    #[test]
    fn both_ways() {
        let node = |what, number, origin| Node { what, number, origin };
        let stop = Stop { index: 1, place: 2, amount: 3 };
        let of_plan = Stopped { transition: node("transition", 4, None), place: node("place", 2, None), stop };
        let answer = stuck(of_plan).with_shadow(&[5, 6]);
        assert_eq!(answer.words(), b"stuck at index 1: transition 4, place 2 is short of 3\nshadow 5 6");
        assert_eq!(json(&answer), r#""outcome":"stuck","index":1,"transition":4,"place":2,"amount":3,"shadow":[5,6]"#);

        let of_slice = Stopped { transition: node("transition", 4, Some(9)), place: node("place", 2, Some(7)), stop };
        let words =
            "full at index 1: the slice's transition 4 (the plan's 9), the slice's place 2 (the plan's 7) is over by 3";
        assert_eq!(full(of_slice).words(), words.as_bytes());
    }

    #[test]
    fn around_a_stop() {
        let node = |what, number| Node { what, number, origin: None };
        let stop = Stop { index: 1, place: 2, amount: 3 };
        let stopped = Stopped { transition: node("transition", 4), place: node("place", 2), stop };
        let around = |also: &[u32], up_to, can_fire: &[u16], is_slice| {
            let also = also.iter().map(|&p| (node("place", p), p + 1)).collect();
            Around { also, up_to, marking: vec![8, 9], can_fire: can_fire.to_vec(), is_slice }
        };
        let words = |answer: Answer| String::from_utf8(answer.words()).unwrap();
        let first = "stuck at index 1: transition 4, place 2 is short of 3\n";
        for (around, lines) in [
            (around(&[], None, &[], false), "marking there: 8 9\ncan fire there: no transition"),
            (around(&[], None, &[1], false), "marking there: 8 9\ncan fire there: transition 1"),
            (
                around(&[3, 4], Some(5), &[1, 2], true),
                "also short: place 3 by 4, place 4 by 5\nplaces above 5 were not looked at\nmarking there: 8 9\n\
                 can fire there: the slice's transitions 1 2",
            ),
        ] {
            assert_eq!(words(stuck(stopped).with_around(around)), format!("{first}{lines}"));
        }
        assert_eq!(
            json(&stuck(stopped).with_around(around(&[3], None, &[], false))),
            "\"outcome\":\"stuck\",\"index\":1,\"transition\":4,\"place\":2,\"amount\":3,\
             \"also\":[{\"place\":3,\"amount\":4}],\"marking\":[8,9],\"can_fire\":[]"
        );
    }

    #[test]
    fn commas() {
        for (n, text) in [(0, "0"), (999, "999"), (1000, "1,000"), (65536, "65,536"), (4294967295u64, "4,294,967,295")]
        {
            assert_eq!(grouped(n), text);
        }
    }

    #[test]
    fn names_with_anything() {
        let answer = error_of(b"a\n\"\\\xff\x01\x7f", "no permission");
        assert_eq!(answer.words(), b"error: a\n\"\\\xff\x01\x7f: no permission");
        assert_eq!(
            json(&answer),
            "\"outcome\":\"error\",\"reason\":\"a\\n\\\"\\\\\u{fffd}\\u0001\\u007f: no permission\",\
             \"file\":\"a\\n\\\"\\\\\u{fffd}\\u0001\\u007f\""
        );
    }
}
