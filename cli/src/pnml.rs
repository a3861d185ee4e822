//! A text in PNML as the library takes it (help of the verb pnml): where it leaves that form, which id or number is wrong, and the ids
//! in their order. The library judges the text; what is found here is the words.

use crate::answers::grouped;
use crate::library::{Refusal, MAX_ARCS, MAX_PLACES, MAX_TRANSITIONS};
use crate::words::{at_most, brief};
use std::collections::HashMap;

const PNML: &str = "http://www.pnml.org/version-2009/grammar/pnml";
const PTNET: &str = "http://www.pnml.org/version-2009/grammar/ptnet";
const LONGEST_ID: usize = 32;
/// What stands in a text is shown so far: an address that is not the one above can be told from it.
const LONGEST_FOUND: usize = 50;

/// An id or a number, and where it stands.
#[derive(Clone, Copy, Debug)]
struct Word<'a> {
    text: &'a str,
    at: usize,
}

#[derive(Debug)]
enum Element<'a> {
    Place { id: Word<'a>, marking: Option<Word<'a>> },
    Transition { id: Word<'a> },
    Arc { id: Word<'a>, source: Word<'a>, target: Word<'a>, weight: Option<Word<'a>> },
}

/// What a text draws: the ids of net and page, and the elements in their order.
#[derive(Debug)]
pub struct Drawing<'a> {
    around: [Word<'a>; 2],
    elements: Vec<Element<'a>>,
}

/// What is wrong, and where.
#[derive(Debug)]
struct Fault {
    at: Option<usize>,
    why: String,
}

/// Why the library refuses a text, and where.
pub fn why(refusal: Refusal, text: &[u8]) -> Option<(String, Option<Position>)> {
    let fault = match (refusal, read(text)) {
        (Refusal::Profile, Err(fault)) => Some(fault),
        (Refusal::Id, Ok(drawing)) => drawing.misnamed(text),
        (Refusal::Number, Ok(drawing)) => drawing.past_a_limit(),
        _ => None,
    };
    fault.map(|Fault { at, why }| (why, at.map(|at| Position::of(text, at))))
}

impl<'a> Drawing<'a> {
    /// What a text draws that the library takes.
    pub fn of(text: &'a [u8]) -> Option<Drawing<'a>> {
        read(text).ok()
    }

    pub fn places(&self) -> Vec<String> {
        self.ids(Some("place"))
    }

    pub fn transitions(&self) -> Vec<String> {
        self.ids(Some("transition"))
    }

    fn ids(&self, node: Option<&str>) -> Vec<String> {
        self.elements.iter().filter(|element| element.node() == node).map(|element| element.id().text.into()).collect()
    }

    /// The first id that is used twice, else the first arc whose ends are not a place and a transition.
    fn misnamed(&self, text: &[u8]) -> Option<Fault> {
        let around = self.around.iter().map(|id| (*id, None));
        let elements = self.elements.iter().map(|element| (element.id(), element.node()));
        let mut used = HashMap::new();
        for (id, node) in around.chain(elements) {
            if let Some((first, _)) = used.insert(id.text, (id, node)) {
                let first = Position::of(text, first.at);
                return Some(Fault::at(id, format!("the id {} is used before, at {first}", id.text)));
            }
        }
        let node = |end: Word| used.get(end.text).and_then(|(_, node)| *node);
        self.elements.iter().find_map(|element| {
            let Element::Arc { id, source, target, .. } = *element else { return None };
            let no_node =
                |end: Word| Some(Fault::at(end, format!("no place and no transition has the id {}", end.text)));
            match (node(source), node(target)) {
                (None, _) => no_node(source),
                (_, None) => no_node(target),
                (Some(from), Some(to)) if from == to => {
                    let (source, target) = (source.text, target.text);
                    Some(Fault::at(id, format!("arc {} is between two {from}s, {source} and {target}", id.text)))
                }
                _ => None,
            }
        })
    }

    /// The count that is past its limit, else the first number that is.
    fn past_a_limit(&self) -> Option<Fault> {
        let [places, transitions, arcs] = [Some("place"), Some("transition"), None].map(|node| self.ids(node).len());
        let limits =
            [(places, MAX_PLACES, "places"), (transitions, MAX_TRANSITIONS, "transitions"), (arcs, MAX_ARCS, "arcs")];
        if let Some((found, most, what)) = limits.iter().find(|(found, most, _)| found > most) {
            return Some(Fault::of_all(format!("{} {what}; at most {}", grouped(found), grouped(most))));
        }
        if places == 0 && transitions == 0 {
            return Some(Fault::of_all("no place and no transition".into()));
        }
        self.elements.iter().find_map(|element| match *element {
            Element::Place { id, marking: Some(n) } if !n.within(0, u32::MAX) => {
                Some(Fault::at(n, format!("place {} has {} tokens; at most {}", id.text, n.brief(), grouped(u32::MAX))))
            }
            Element::Arc { id, weight: Some(n), .. } if !n.within(1, u16::MAX.into()) => Some(Fault::at(
                n,
                format!("arc {} has the weight {}; from 1 to {}", id.text, n.brief(), grouped(u16::MAX)),
            )),
            _ => None,
        })
    }
}

impl<'a> Element<'a> {
    fn id(&self) -> Word<'a> {
        match self {
            Element::Place { id, .. } | Element::Transition { id } | Element::Arc { id, .. } => *id,
        }
    }

    /// What an arc may join.
    fn node(&self) -> Option<&'static str> {
        match self {
            Element::Place { .. } => Some("place"),
            Element::Transition { .. } => Some("transition"),
            Element::Arc { .. } => None,
        }
    }
}

impl Fault {
    fn at(word: Word, why: String) -> Fault {
        Fault { at: Some(word.at), why }
    }

    fn of_all(why: String) -> Fault {
        Fault { at: None, why }
    }
}

impl Word<'_> {
    fn within(&self, least: u32, most: u32) -> bool {
        self.text.parse().is_ok_and(|n: u32| (least..=most).contains(&n))
    }

    fn brief(&self) -> String {
        brief(self.text.as_bytes())
    }
}

/// A line and a column, from 1; a column is a character.
pub struct Position {
    pub line: usize,
    pub column: usize,
}

impl Position {
    fn of(text: &[u8], at: usize) -> Position {
        let before = &text[..at.min(text.len())];
        let start = before.iter().rposition(|b| *b == b'\n').map_or(0, |end| end + 1);
        let goes_on = |b: &u8| matches!(b, 0x80..=0xBF);
        Position {
            line: 1 + before.iter().filter(|b| **b == b'\n').count(),
            column: 1 + before[start..].iter().filter(|b| !goes_on(b)).count(),
        }
    }
}

impl std::fmt::Display for Position {
    fn fmt(&self, f: &mut std::fmt::Formatter) -> std::fmt::Result {
        write!(f, "line {}, column {}", self.line, self.column)
    }
}

/// Reads a text to its end, or to where it leaves the form.
fn read(text: &[u8]) -> Result<Drawing<'_>, Fault> {
    let mut r = Reader { text, at: 0 };
    r.space();
    r.expect(&["<pnml"])?;
    r.attribute("xmlns", PNML)?;
    r.expect(&[">"])?;
    r.space();
    r.expect(&["<net"])?;
    let net = r.id("id")?;
    r.attribute("type", PTNET)?;
    r.expect(&[">"])?;
    r.space();
    r.expect(&["<page"])?;
    let page = r.id("id")?;
    r.expect(&[">"])?;
    r.space();
    let mut elements = Vec::new();
    loop {
        elements.push(match r.expect(&["<place", "<transition", "<arc", "</page>"])? {
            "<place" => Element::Place { id: r.id("id")?, marking: r.content("</place>", Some(&MARKING))? },
            "<transition" => {
                let id = r.id("id")?;
                r.content("</transition>", None)?;
                Element::Transition { id }
            }
            "<arc" => {
                let (id, source, target) = (r.id("id")?, r.id("source")?, r.id("target")?);
                Element::Arc { id, source, target, weight: r.content("</arc>", Some(&WEIGHT))? }
            }
            _ => break,
        });
        r.space();
    }
    r.space();
    r.expect(&["</net>"])?;
    r.space();
    r.expect(&["</pnml>"])?;
    r.space();
    match r.at == text.len() {
        true => Ok(Drawing { around: [net, page], elements }),
        false => Err(r.fault("the end")),
    }
}

/// The tags around a number.
struct Label {
    open: &'static str,
    close: &'static str,
}

const MARKING: Label = Label { open: "<initialMarking>", close: "</initialMarking>" };
const WEIGHT: Label = Label { open: "<inscription>", close: "</inscription>" };

struct Reader<'a> {
    text: &'a [u8],
    at: usize,
}

impl<'a> Reader<'a> {
    fn rest(&self) -> &'a [u8] {
        &self.text[self.at..]
    }

    /// As many bytes as are alike.
    fn run_of(&mut self, alike: impl Fn(&u8) -> bool) -> Word<'a> {
        let (at, rest) = (self.at, self.rest());
        let length = rest.iter().position(|b| !alike(b)).unwrap_or(rest.len());
        self.at += length;
        Word { text: std::str::from_utf8(&rest[..length]).unwrap_or_default(), at }
    }

    fn space(&mut self) {
        self.run_of(|b| matches!(b, b'\t' | b'\n' | b'\r' | b' '));
    }

    /// The one of these that stands here.
    fn expect(&mut self, words: &[&'static str]) -> Result<&'static str, Fault> {
        match words.iter().find(|word| self.rest().starts_with(word.as_bytes())) {
            Some(word) => {
                self.at += word.len();
                Ok(word)
            }
            None => Err(self.fault(&any_of(words))),
        }
    }

    /// One space, the name, and a value that is known.
    fn attribute(&mut self, name: &str, value: &'static str) -> Result<(), Fault> {
        self.open_value(name)?;
        self.expect(&[value])?;
        self.expect(&["\""]).map(|_| ())
    }

    fn open_value(&mut self, name: &str) -> Result<(), Fault> {
        let open = format!("{name}=\"");
        let Some(rest) = self.rest().strip_prefix(b" ") else {
            return Err(self.fault(&format!("a space and {open}")));
        };
        self.at += 1;
        if !rest.starts_with(open.as_bytes()) {
            return Err(self.fault(&open));
        }
        self.at += open.len();
        Ok(())
    }

    /// One space, the name, and an id.
    fn id(&mut self, name: &str) -> Result<Word<'a>, Fault> {
        self.open_value(name)?;
        let id = self.run_of(|b| b.is_ascii_alphanumeric() || b"-_.".contains(b));
        if id.text.is_empty() {
            return Err(self.fault("an id (letters A to Z and a to z, digits, - _ .)"));
        }
        if id.text.len() > LONGEST_ID {
            self.at = id.at;
            return Err(self.fault(&format!("an id of at most {LONGEST_ID} characters")));
        }
        match self.expect(&["\""]) {
            Ok(_) => Ok(id),
            Err(_) => Err(self.fault("\" or more of the id (letters A to Z and a to z, digits, - _ .)")),
        }
    }

    /// What stands in an element up to its end: a number, or nothing.
    fn content(&mut self, end: &'static str, label: Option<&Label>) -> Result<Option<Word<'a>>, Fault> {
        if self.expect(&[">", "/>"])? == "/>" {
            return Ok(None);
        }
        self.space();
        let Some(Label { open, close }) = label else {
            return self.expect(&[end]).map(|_| None);
        };
        if self.expect(&[open, end])? == end {
            return Ok(None);
        }
        self.space();
        self.expect(&["<text>"])?;
        let number = self.run_of(u8::is_ascii_digit);
        if number.text.is_empty() {
            return Err(self.fault("a digit"));
        }
        self.expect(&["</text>"]).map_err(|_| self.fault("</text> or a digit"))?;
        self.space();
        self.expect(&[close])?;
        self.space();
        self.expect(&[end])?;
        Ok(Some(number))
    }

    /// Something else stands here than is expected.
    fn fault(&self, expected: &str) -> Fault {
        Fault { at: Some(self.at), why: format!("expected {expected}, found {}", found(self.rest())) }
    }
}

/// `a`, `a or b`, `a, b or c`.
fn any_of(words: &[&str]) -> String {
    match words.split_last() {
        Some((last, first @ [_, ..])) => format!("{} or {last}", first.join(", ")),
        _ => words.concat(),
    }
}

/// What stands where something else was expected: the start of a tag, a word, or a character by its name.
fn found(rest: &[u8]) -> String {
    let up_to = |ends: &[u8]| 1 + rest[1..].iter().position(|b| ends.contains(b)).unwrap_or(rest.len() - 1);
    let length = match rest {
        [] => return "the end".into(),
        [b' ', ..] => return "a space".into(),
        [b'\t', ..] => return "a tab".into(),
        [b'\n' | b'\r', ..] => return "the end of the line".into(),
        [0xEF, 0xBB, 0xBF, ..] => return "a byte order mark".into(),
        [b @ (0..=31 | 127), ..] => return format!("the byte {b}"),
        [b'"', ..] => 1,
        [b'<', ..] => {
            let length = up_to(b"> \t\r\n\"<");
            length + usize::from(rest.get(length) == Some(&b'>'))
        }
        _ => up_to(b"<> \t\r\n\""),
    };
    match std::str::from_utf8(&rest[..length]) {
        Err(e) if e.valid_up_to() == 0 => format!("the byte {}", rest[0]),
        _ => at_most(LONGEST_FOUND, &rest[..length]),
    }
}

#[cfg(test)]
mod tests {
    use super::*;
    use crate::library;
    use crate::net::Net;

    const KERB: &str = r#"
<pnml xmlns="http://www.pnml.org/version-2009/grammar/pnml">
<net id="n" type="http://www.pnml.org/version-2009/grammar/ptnet">
<page id="g">
<place id="waiting"><initialMarking><text>2</text></initialMarking></place>
<place id="bay"><initialMarking> <text>1</text>
</initialMarking> </place>
<transition id="arrive"/>
<arc id="a1" source="waiting" target="arrive"/>
<arc id="a2" source="bay" target="arrive"></arc>
<arc id="a3" source="arrive" target="in"><inscription><text>1</text></inscription></arc>
<place id="in"/>
<transition id="leave"> </transition>
<arc id="a4" source="in" target="leave"/>
</page>
</net>
</pnml>
"#;

    #[test]
    fn ids_in_their_order() {
        let drawing = Drawing::of(KERB.as_bytes()).unwrap();
        assert_eq!(drawing.places(), ["waiting", "bay", "in"]);
        assert_eq!(drawing.transitions(), ["arrive", "leave"]);
    }

    #[test]
    fn lines_and_columns() {
        let place = |text: &str, at| Position::of(text.as_bytes(), at).to_string();
        assert_eq!(place("", 0), "line 1, column 1");
        assert_eq!(place("ab\ncd", 2), "line 1, column 3");
        assert_eq!(place("ab\ncd", 3), "line 2, column 1");
        assert_eq!(place("\u{e9}\u{20ac}x", 5), "line 1, column 3");
    }

    #[test]
    fn what_stands_there() {
        for (rest, shown) in [
            ("", "the end"),
            (" x", "a space"),
            ("\r\n", "the end of the line"),
            ("\u{feff}<pnml", "a byte order mark"),
            ("<place id=", "<place"),
            ("</text>x", "</text>"),
            ("<text/>", "<text/>"),
            ("<!-- x", "<!--"),
            ("name=\"x", "name="),
            ("\"/>", "\""),
            ("&#50;<", "&#50;"),
            ("\u{7f}x", "the byte 127"),
        ] {
            assert_eq!(found(rest.as_bytes()), shown);
        }
        assert_eq!(found(b"\xff\xfe"), "the byte 255");
        assert_eq!([any_of(&["a"]), any_of(&["a", "b"]), any_of(&["a", "b", "c"])], ["a", "a or b", "a, b or c"]);
    }

    #[test]
    fn numbers_of_any_length() {
        let within = |text: &str| Word { text, at: 0 }.within(1, 65535);
        let zeros = "0".repeat(60);
        assert!(within("1") && within("65535") && within(&(zeros.clone() + "7")));
        assert!(!within("0") && !within("65536") && !within(&zeros) && !within(&"9".repeat(60)));
        assert!(Word { text: &zeros, at: 0 }.within(0, 0));
    }

    /// Texts changed at random: what is found here is what the library answers, and a text that is taken has the ids of its places.
    #[test]
    fn as_the_library_judges() {
        let mut seed = 7u64;
        let mut random = move |below: usize| {
            seed = seed.wrapping_mul(6364136223846793005).wrapping_add(1442695040888963407);
            (seed >> 33) as usize % below
        };
        let pieces: Vec<&str> = KERB.split_inclusive(['>', '"', ' ', '\n']).collect();
        let numbers: Vec<usize> = (0..pieces.len()).filter(|&i| pieces[i].ends_with("</text>")).collect();
        let others =
            ["<name>", "<!-- -->", "7", "p", "arrive", "\"", ">", "/>", " ", "\t", "\u{e9}", "<place id=\"q\"/>"];
        let past = ["0</text>", "65536</text>", "4294967296</text>", "340282366920938463463374607431768211456</text>"];
        let mut met = std::collections::BTreeMap::new();
        for _ in 0..60_000 {
            let mut pieces = pieces.clone();
            let mut bytes = Vec::new();
            for _ in 0..random(3) {
                let (i, j) = (random(pieces.len()), random(pieces.len()));
                match random(5) {
                    _ if random(4) == 0 => pieces[numbers[random(numbers.len())]] = past[random(past.len())],
                    0 => pieces.swap(i, j),
                    1 => drop(pieces.remove(i)),
                    2 => pieces.insert(i, pieces[j]),
                    3 => pieces[i] = pieces[j],
                    _ => pieces.insert(i, others[random(others.len())]),
                }
            }
            pieces.iter().for_each(|piece| bytes.extend_from_slice(piece.as_bytes()));
            if random(2) == 0 {
                let i = random(bytes.len());
                bytes[i] = if random(2) == 0 { random(256) as u8 } else { b'0' + random(10) as u8 };
            }
            let number = match library::from_pnml(&bytes) {
                Ok(plan) => {
                    let (net, drawing) = (Net::read(&plan).unwrap(), Drawing::of(&bytes).unwrap());
                    assert_eq!(net.trailer.places, drawing.places().len());
                    assert_eq!(net.trailer.transitions, drawing.transitions().len());
                    assert!(drawing.misnamed(&bytes).is_none() && drawing.past_a_limit().is_none());
                    0
                }
                Err(refusal) => {
                    let text = String::from_utf8_lossy(&bytes);
                    assert!(why(refusal, &bytes).is_some(), "{refusal:?} of {text}");
                    refusal.number()
                }
            };
            *met.entry(number).or_insert(0) += 1;
        }
        assert_eq!(met.keys().copied().collect::<Vec<_>>(), [0, 18, 19, 20]);
        assert!(met.values().all(|times| *times > 300), "{met:?}");
    }
}
