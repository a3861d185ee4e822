//! Texts in PNML: nets drawn in many ways, and texts changed a little.

use super::{buffer_length, lend, lend_out};
use crate::cases::PnmlCase;
use crate::net::MAX_FILE;
use crate::pnml::convert;
use crate::rng::Rng;

/// What a text says, tag by tag.
#[derive(Clone)]
enum Element {
    Place { id: String, marking: Option<String> },
    Transition { id: String },
    Arc { id: String, source: String, target: String, weight: Option<String> },
}

/// How it is written: white space between tags, and how empty elements close.
struct Hand {
    white: usize,
    alone: usize,
}

impl Hand {
    fn any(rng: &mut Rng) -> Hand {
        Hand { white: *rng.pick(&[0, 0, 30, 100]), alone: *rng.pick(&[0, 50, 100]) }
    }

    /// White space, where there may be some.
    fn gap(&self, rng: &mut Rng, out: &mut String) {
        if rng.percent(self.white) {
            (0..rng.range(1, 4)).for_each(|_| out.push(*rng.pick(&[' ', '\n', '\t', '\r'])));
        }
    }

    fn tag(&self, rng: &mut Rng, out: &mut String, tag: &str) {
        self.gap(rng, out);
        out.push_str(tag);
    }

    /// An element: its tag without the end, and a number within two tags where it has one.
    fn element(&self, rng: &mut Rng, out: &mut String, open: &str, inner: Option<(&str, &str)>) {
        let name = open.split(' ').next().unwrap_or(open);
        if inner.is_none() && rng.percent(self.alone) {
            return self.tag(rng, out, &format!("<{open}/>"));
        }
        self.tag(rng, out, &format!("<{open}>"));
        if let Some((within, digits)) = inner {
            self.tag(rng, out, &format!("<{within}>"));
            self.tag(rng, out, &format!("<text>{digits}</text>"));
            self.tag(rng, out, &format!("</{within}>"));
        }
        self.tag(rng, out, &format!("</{name}>"));
    }
}

const GRAMMAR: &str = "http://www.pnml.org/version-2009/grammar";

/// The text of elements; the page and the net have ids of their own.
fn written(rng: &mut Rng, around: [&str; 2], elements: &[Element]) -> String {
    let hand = Hand::any(rng);
    let mut out = String::new();
    hand.tag(rng, &mut out, &format!("<pnml xmlns=\"{GRAMMAR}/pnml\">"));
    hand.tag(rng, &mut out, &format!("<net id=\"{}\" type=\"{GRAMMAR}/ptnet\">", around[0]));
    hand.tag(rng, &mut out, &format!("<page id=\"{}\">", around[1]));
    for element in elements {
        match element {
            Element::Place { id, marking } => {
                let inner = marking.as_deref().map(|digits| ("initialMarking", digits));
                hand.element(rng, &mut out, &format!("place id=\"{id}\""), inner);
            }
            Element::Transition { id } => hand.element(rng, &mut out, &format!("transition id=\"{id}\""), None),
            Element::Arc { id, source, target, weight } => {
                let inner = weight.as_deref().map(|digits| ("inscription", digits));
                let open = format!("arc id=\"{id}\" source=\"{source}\" target=\"{target}\"");
                hand.element(rng, &mut out, &open, inner);
            }
        }
    }
    ["</page>", "</net>", "</pnml>"].iter().for_each(|tag| hand.tag(rng, &mut out, tag));
    hand.gap(rng, &mut out);
    out
}

const CHARACTERS: &[u8] = b"abcxyzABCXYZ0189-_.";

/// An id that no other has: a count in some writing, now and then 32 characters long.
fn id(rng: &mut Rng, count: &mut usize) -> String {
    *count += 1;
    let first = char::from(*rng.pick(CHARACTERS));
    let mut id = format!("{first}.{count}");
    if rng.percent(5) {
        while id.len() < 32 {
            id.push(char::from(*rng.pick(CHARACTERS)));
        }
    }
    id
}

/// A number within its limit, with leading zeros now and then.
fn digits(rng: &mut Rng, from: u64, most: u64) -> String {
    let few = from + rng.below(4) as u64;
    let any = from + rng.next() % (most - from + 1);
    let n = *rng.pick(&[from, few, few, few, any, most - 1, most]);
    let zeros = if rng.percent(15) { rng.below(12) } else { 0 };
    format!("{}{n}", "0".repeat(zeros))
}

/// Elements in any order: so many places, transitions and arcs.
fn drawing(rng: &mut Rng, places: usize, transitions: usize, arcs: usize) -> Vec<Element> {
    let mut count = 0;
    let place_ids: Vec<String> = (0..places).map(|_| id(rng, &mut count)).collect();
    let transition_ids: Vec<String> = (0..transitions).map(|_| id(rng, &mut count)).collect();
    let marked = *rng.pick(&[0, 50, 100]);
    let mut elements = Vec::new();
    for id in &place_ids {
        let marking = rng.percent(marked).then(|| digits(rng, 0, u32::MAX.into()));
        elements.push(Element::Place { id: id.clone(), marking });
    }
    elements.extend(transition_ids.iter().map(|id| Element::Transition { id: id.clone() }));
    let arcs = if places > 0 && transitions > 0 { arcs } else { 0 };
    for _ in 0..arcs {
        let mut ends = [rng.pick(&place_ids).clone(), rng.pick(&transition_ids).clone()];
        if rng.percent(50) {
            ends.reverse();
        }
        let [source, target] = ends;
        let weight = rng.percent(marked).then(|| digits(rng, 1, 65_535));
        elements.push(Element::Arc { id: id(rng, &mut count), source, target, weight });
    }
    // Any order, or places, transitions and arcs one after the other.
    if rng.percent(60) {
        for i in (1..elements.len()).rev() {
            elements.swap(i, rng.below(i + 1));
        }
    }
    elements
}

fn any_drawing(rng: &mut Rng) -> Vec<Element> {
    let (places, transitions, arcs) = match rng.below(1_000) {
        0 => *rng.pick(&[(1_024, 1_024, 9), (1_024, 0, 0), (0, 1_024, 0), (1, 1, 1_100)]),
        1..=20 => (rng.range(0, 60), rng.range(1, 60), rng.below(200)),
        _ => {
            let (places, transitions) = (rng.below(5), rng.below(5));
            (places.max(usize::from(transitions == 0)), transitions, rng.below(7))
        }
    };
    drawing(rng, places, transitions, arcs)
}

/// An id again, an end that is none, or an arc between two of the same sort.
fn misname(rng: &mut Rng, elements: &mut Vec<Element>, around: &mut [String; 2]) {
    let nodes: Vec<(bool, String)> = elements
        .iter()
        .filter_map(|element| match element {
            Element::Place { id, .. } => Some((true, id.clone())),
            Element::Transition { id } => Some((false, id.clone())),
            Element::Arc { .. } => None,
        })
        .collect();
    let (_, some) = rng.pick(&nodes).clone();
    let same = |rng: &mut Rng, place: bool| {
        let those: Vec<String> = nodes.iter().filter(|(p, _)| *p == place).map(|(_, id)| id.clone()).collect();
        if those.is_empty() {
            "none".to_string()
        } else {
            rng.pick(&those).clone()
        }
    };
    let at = rng.range(0, elements.len());
    let arc = |id: &str, source: String, target: String| Element::Arc { id: id.into(), source, target, weight: None };
    match rng.below(10) {
        0 => around[rng.below(2)] = some,
        1 => around[1] = around[0].clone(),
        2 => elements.insert(at, Element::Transition { id: some }),
        3 => elements.insert(at, Element::Place { id: some, marking: None }),
        4 => elements.insert(at, arc(&some, same(rng, true), same(rng, false))),
        5 => elements.insert(at, arc("arc", same(rng, true), "none".into())),
        6 => elements.insert(at, arc("arc", "none".into(), same(rng, false))),
        // The ids of the net, of the page and of an arc are no ends.
        7 => {
            let end = rng.pick(&[around[0].clone(), around[1].clone(), "arc".into()]).clone();
            elements.insert(at, arc("arc", same(rng, true), end));
        }
        8 => elements.insert(at, arc("arc", same(rng, true), same(rng, true))),
        _ => elements.insert(at, arc("arc", same(rng, false), same(rng, false))),
    }
}

/// A number or a count past its limit, or a weight of 0.
fn past_a_limit(rng: &mut Rng, elements: &mut Vec<Element>) {
    let long = "9".repeat(rng.range(11, 60));
    let at = rng.range(0, elements.len());
    match rng.below(20) {
        0 if rng.percent(30) => *elements = drawing(rng, 1_025, 3, 3),
        1 if rng.percent(30) => *elements = drawing(rng, 3, 1_025, 3),
        2..=4 => elements.clear(),
        5..=9 => {
            let marking =
                rng.pick(&["4294967296", "04294967296", "18446744073709551616", "4294967300", &long]).to_string();
            elements.insert(at, Element::Place { id: "many".into(), marking: Some(marking) });
        }
        _ => {
            let weight = rng.pick(&["0", "00", "65536", "065536", "131072", "18446744073709551617", &long]).to_string();
            let (source, target) = ("from-here".to_string(), "to-there".to_string());
            elements.push(Element::Place { id: source.clone(), marking: None });
            elements.insert(at, Element::Transition { id: target.clone() });
            elements.push(Element::Arc { id: "heavy".into(), source, target, weight: Some(weight) });
        }
    }
}

/// Parts that tools write and the profile has not, and tags where they may not stand.
const FOREIGN: &[&str] = &[
    "<?xml version=\"1.0\" encoding=\"UTF-8\"?>",
    "<!-- a note -->",
    "<!DOCTYPE pnml>",
    "<![CDATA[]]>",
    "\u{feff}",
    "&#32;",
    "&amp;",
    "<name><text>bay</text></name>",
    "<name><text>1</text></name>",
    "<graphics><position x=\"1\" y=\"2\"/></graphics>",
    "<toolspecific tool=\"t\" version=\"1\"/>",
    "<place/>",
    "<place id=\"\"/>",
    "<place id=\"two words\"/>",
    "<place id='p'/>",
    "<place id=\"p\" />",
    "<place  id=\"p\"/>",
    "<place id =\"p\"/>",
    "<place id=\"p\"/ >",
    "<place id=\"p\"></place >",
    "< place id=\"p\"/>",
    "<Place id=\"p\"/>",
    "<place ID=\"p\"/>",
    "<place id=\"p:q\"/>",
    "<place id=\"p\" name=\"q\"/>",
    "<place id=\"abcdefghijklmnopqrstuvwxyz-_.0123\"/>",
    "<place id=\"abcdefghijklmnopqrstuvwxyz-_.012\"/>",
    "<place id=\"p\"><initialMarking/></place>",
    "<place id=\"p\"><initialMarking></initialMarking></place>",
    "<place id=\"p\"><initialMarking><text/></initialMarking></place>",
    "<place id=\"p\"><initialMarking><text></text></initialMarking></place>",
    "<place id=\"p\"><initialMarking><text> 1</text></initialMarking></place>",
    "<place id=\"p\"><initialMarking><text>1 </text></initialMarking></place>",
    "<place id=\"p\"><initialMarking><text>+1</text></initialMarking></place>",
    "<place id=\"p\"><initialMarking><text>-1</text></initialMarking></place>",
    "<place id=\"p\"><initialMarking><text>1.0</text></initialMarking></place>",
    "<place id=\"p\"><initialMarking><text>1</text><text>1</text></initialMarking></place>",
    "<place id=\"p\"><initialMarking>1</initialMarking></place>",
    "<place id=\"p\"><text>1</text></place>",
    "<place id=\"p\"><inscription><text>1</text></inscription></place>",
    "<place id=\"p\"><initialMarking><text>1</text></initialMarking><initialMarking><text>1</text></initialMarking></place>",
    "<place id=\"p\">1</place>",
    "<transition id=\"t\"><initialMarking><text>1</text></initialMarking></transition>",
    "<transition id=\"t\"><text>1</text></transition>",
    "<transition id=\"t\"></place>",
    "<arc id=\"a\" source=\"p\"/>",
    "<arc id=\"a\" target=\"p\" source=\"t\"/>",
    "<arc source=\"p\" target=\"t\" id=\"a\"/>",
    "<arc id=\"a\" source=\"p\" target=\"t\"><initialMarking><text>1</text></initialMarking></arc>",
    "<inscription><text>1</text></inscription>",
    "<initialMarking><text>1</text></initialMarking>",
    "<text>1</text>",
    "<page id=\"more\"></page>",
    "<page id=\"more\"/>",
    "</page><page id=\"more\">",
    "</page></net><net id=\"m\" type=\"http://www.pnml.org/version-2009/grammar/ptnet\"><page id=\"more\">",
    "<net id=\"m\" type=\"http://www.pnml.org/version-2009/grammar/ptnet\"></net>",
    "</page>",
    "</pnml>",
    "<>",
    "</>",
    "<",
    ">",
    "1",
    "\u{b}",
    "\u{c}",
    "\u{a0}",
    "\0",
];

/// Where the tags of a text start and end.
fn tags(text: &[u8]) -> Vec<(usize, usize)> {
    let (mut tags, mut start) = (Vec::new(), None);
    for (i, &b) in text.iter().enumerate() {
        match (b, start) {
            (b'<', _) => start = Some(i),
            (b'>', Some(from)) => {
                tags.push((from, i + 1));
                start = None;
            }
            _ => (),
        }
    }
    tags
}

/// A byte changed, dropped, doubled or put in; a tag dropped, doubled or exchanged with another; a part that is not of the profile.
fn mutate(rng: &mut Rng, text: &mut Vec<u8>) {
    const BYTES: &[u8] = b"<>\"'/= \t\n\r\x0b019aZzA-_.:&!?;\x00\x7f\x80\xff";
    let there = tags(text);
    if text.is_empty() || there.is_empty() {
        return text.push(*rng.pick(BYTES));
    }
    // In a tag near the end as often as in the long ones at the start.
    let (from, to) = *rng.pick(&there);
    let i = if rng.percent(70) { rng.range(from, to - 1) } else { rng.below(text.len()) };
    match rng.below(14) {
        0..=1 => text[i] = *rng.pick(BYTES),
        2 => text[i] ^= 1 << rng.below(8),
        3 => {
            text.remove(i);
        }
        4 => text.insert(i, text[i]),
        5..=6 => text.insert(i, *rng.pick(BYTES)),
        7 => {
            text.drain(from..to);
        }
        8 => {
            let copy = text[from..to].to_vec();
            text.splice(to..to, copy);
        }
        9 => {
            let (first, second) = (*rng.pick(&there), *rng.pick(&there));
            let ((a, b), (c, d)) = (first.min(second), first.max(second));
            let (one, two) = (text[a..b].to_vec(), text[c..d].to_vec());
            text.splice(c..d, one);
            if a < c {
                text.splice(a..b, two);
            }
        }
        10 => text.truncate(i),
        _ => {
            let part = rng.pick(FOREIGN).as_bytes().to_vec();
            let at = *rng.pick(&[0, from, from, to, text.len()]);
            text.splice(at..at, part);
        }
    }
}

/// White space in front or at the end, so that the text has this length.
fn fill(rng: &mut Rng, text: &mut Vec<u8>, length: usize) {
    let more = vec![*rng.pick(&[b' ', b'\n']); length.saturating_sub(text.len())];
    let at = if rng.percent(50) { 0 } else { text.len() };
    text.splice(at..at, more);
}

pub fn pnml_case(rng: &mut Rng) -> PnmlCase {
    let aim = rng.below(100);
    let mut elements = any_drawing(rng);
    let mut around = ["net-1".to_string(), "page-1".to_string()];
    // Faults met later stand there too, now and then.
    if (48..64).contains(&aim) || aim < 48 && rng.percent(10) {
        past_a_limit(rng, &mut elements);
    }
    if ((32..48).contains(&aim) || aim < 32 && rng.percent(10))
        && elements.iter().any(|e| !matches!(e, Element::Arc { .. }))
    {
        misname(rng, &mut elements, &mut around);
    }
    let mut text = written(rng, [&around[0], &around[1]], &elements).into_bytes();
    if (4..32).contains(&aim) || aim < 2 {
        (0..*rng.pick(&[1, 1, 1, 2])).for_each(|_| mutate(rng, &mut text));
    }
    if aim < 3 {
        let length = MAX_FILE + *rng.pick(&[1, 1, 1, 2, 1_000]);
        fill(rng, &mut text, length);
    } else if aim == 64 {
        fill(rng, &mut text, MAX_FILE);
    }
    let needed = convert(&text).map_or(16, |file| file.len());
    let short = (65..75).contains(&aim) || aim < 65 && rng.percent(15);
    let len = buffer_length(rng, needed, short);
    PnmlCase { text: lend(rng, &text), plan: lend_out(rng, len) }
}
