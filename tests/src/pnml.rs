//! Plans from PNML: the text is cut into tags and what stands between them; the sequence of its tags, one letter each, is held to the
//! profile; then ids, then numbers.

use crate::net::{Refusal, MAX_ARCS, MAX_FILE, MAX_PLACES, MAX_TRANSITIONS};
use std::collections::HashMap;

const GRAMMAR: &str = "http://www.pnml.org/version-2009/grammar/";
const LONGEST_ID: usize = 32;

/// Converts a text; the plan stands at the start of the lent bytes. Its length.
pub fn from_pnml(text: &[u8], lent: &mut [u8]) -> Result<usize, Refusal> {
    let file = convert(text)?;
    if lent.len() < file.len() {
        return Err(13);
    }
    lent[..file.len()].copy_from_slice(&file);
    Ok(file.len())
}

/// The plan file of a text.
pub fn convert(text: &[u8]) -> Result<Vec<u8>, Refusal> {
    if text.len() > MAX_FILE {
        return Err(1);
    }
    let elements = elements(text).ok_or(18u32)?;
    let net = named(&elements)?;
    numbered(net)
}

/// A tag: its letter, the values of its attributes, and the digits right after it.
struct Tag {
    letter: char,
    values: Vec<String>,
    digits: String,
}

/// Each tag of the profile: its letter when it opens and when it closes in itself (a space: it cannot), its name and its attributes.
const OPENING: [(char, char, &str, &[&str]); 9] = [
    ('A', ' ', "pnml", &["xmlns"]),
    ('B', ' ', "net", &["id", "type"]),
    ('C', ' ', "page", &["id"]),
    ('P', 'Q', "place", &["id"]),
    ('T', 'U', "transition", &["id"]),
    ('R', 'S', "arc", &["id", "source", "target"]),
    ('M', ' ', "initialMarking", &[]),
    ('I', ' ', "inscription", &[]),
    ('X', ' ', "text", &[]),
];

/// The tag between `<` and `>`; a closing one has the small letter.
fn tag(inside: &str) -> Option<Tag> {
    for (open, alone, name, keys) in OPENING {
        if inside.strip_prefix('/') == Some(name) {
            return Some(Tag { letter: open.to_ascii_lowercase(), values: Vec::new(), digits: String::new() });
        }
        let Some(values) = values(inside, name, keys) else { continue };
        let letter = match values.1 {
            "" => open,
            "/" if alone != ' ' => alone,
            _ => continue,
        };
        let right = |(key, value): (&&str, &String)| match *key {
            "xmlns" => *value == format!("{GRAMMAR}pnml"),
            "type" => *value == format!("{GRAMMAR}ptnet"),
            _ => is_id(value),
        };
        let all_right = keys.iter().zip(&values.0).all(right);
        return all_right.then_some(Tag { letter, values: values.0, digits: String::new() });
    }
    None
}

/// The values of just these attributes in this order, and what stands after the last.
fn values<'a>(inside: &'a str, name: &str, keys: &[&str]) -> Option<(Vec<String>, &'a str)> {
    let mut rest = inside.strip_prefix(name)?;
    let mut values = Vec::new();
    for key in keys {
        let (value, after) = rest.strip_prefix(&format!(" {key}=\""))?.split_once('"')?;
        values.push(value.to_string());
        rest = after;
    }
    Some((values, rest))
}

fn is_id(value: &str) -> bool {
    let fits = |c: char| c.is_ascii_alphanumeric() || "-_.".contains(c);
    (1..=LONGEST_ID).contains(&value.len()) && value.chars().all(fits)
}

fn is_white(part: &str) -> bool {
    part.bytes().all(|b| matches!(b, 9 | 10 | 13 | 32))
}

/// All tags of the text, None where something else stands there.
fn tags(text: &str) -> Option<Vec<Tag>> {
    let mut tags: Vec<Tag> = Vec::new();
    // Each part but the first starts with what is inside a tag, and ends with what stands after it.
    let mut parts = text.split('<');
    if !is_white(parts.next()?) {
        return None;
    }
    for part in parts {
        let (inside, after) = part.split_once('>')?;
        let mut tag = tag(inside)?;
        if tag.letter == 'X' {
            if after.is_empty() || !after.bytes().all(|b| b.is_ascii_digit()) {
                return None;
            }
            tag.digits = after.into();
        } else if !is_white(after) {
            return None;
        }
        tags.push(tag);
    }
    Some(tags)
}

/// What the elements of the page can be, tag by tag.
const ELEMENTS: [&str; 8] = ["Pp", "PMXxmp", "Q", "Tt", "U", "Rr", "RIXxir", "S"];

/// An element: its sort, which is the letter of its tag, its id or the three of an arc, and its number where it has one.
pub struct Element {
    sort: char,
    ids: Vec<String>,
    digits: Option<String>,
}

/// The net, the page and then the elements, in order; None outside the profile.
fn elements(text: &[u8]) -> Option<Vec<Element>> {
    // One character a byte, so that any bytes can be cut.
    let text: String = text.iter().map(|&b| char::from(b)).collect();
    let tags = tags(&text)?;
    let letters: String = tags.iter().map(|tag| tag.letter).collect();
    let inner = letters.strip_prefix("ABC")?.strip_suffix("cba")?;
    let around = |tag: &Tag| Element { sort: tag.letter, ids: vec![tag.values[0].clone()], digits: None };
    let mut found = vec![around(&tags[1]), around(&tags[2])];
    let (mut at, mut rest) = (3, inner);
    while !rest.is_empty() {
        let form = ELEMENTS.into_iter().find(|form| rest.starts_with(form))?;
        let (first, number) = (&tags[at], form.find('X').map(|x| tags[at + x].digits.clone()));
        let sort = match first.letter {
            'Q' => 'P',
            'U' => 'T',
            'S' => 'R',
            letter => letter,
        };
        found.push(Element { sort, ids: first.values.clone(), digits: number });
        (at, rest) = (at + form.len(), &rest[form.len()..]);
    }
    Some(found)
}

/// The ids of the places and of the transitions of a text in the profile, in order.
pub fn ids(text: &[u8]) -> Option<[Vec<String>; 2]> {
    let elements = elements(text)?;
    Some(['P', 'T'].map(|sort| elements.iter().filter(|e| e.sort == sort).map(|e| e.ids[0].clone()).collect()))
}

/// The net with numbers for ids: markings, transitions, and arcs as (transition, direction, place, weight), the numbers in digits.
struct Named {
    markings: Vec<Option<String>>,
    transitions: usize,
    arcs: Vec<(usize, u8, usize, Option<String>)>,
}

/// Refusal 19, over all elements.
fn named(elements: &[Element]) -> Result<Named, Refusal> {
    let mut by_id: HashMap<&str, (char, usize)> = HashMap::new();
    let mut net = Named { markings: Vec::new(), transitions: 0, arcs: Vec::new() };
    for element in elements {
        let number = match element.sort {
            'P' => {
                net.markings.push(element.digits.clone());
                net.markings.len() - 1
            }
            'T' => {
                net.transitions += 1;
                net.transitions - 1
            }
            _ => 0,
        };
        if by_id.insert(&element.ids[0], (element.sort, number)).is_some() {
            return Err(19);
        }
    }
    for arc in elements.iter().filter(|e| e.sort == 'R') {
        let end = |i: usize| by_id.get(arc.ids[i].as_str()).copied();
        match (end(1), end(2)) {
            (Some(('P', p)), Some(('T', t))) => net.arcs.push((t, 0, p, arc.digits.clone())),
            (Some(('T', t)), Some(('P', p))) => net.arcs.push((t, 1, p, arc.digits.clone())),
            _ => return Err(19),
        }
    }
    Ok(net)
}

/// A number of any length, None where it is above the largest.
fn number(digits: &str, largest: u64) -> Option<u64> {
    let digits = digits.trim_start_matches('0');
    if digits.is_empty() {
        return Some(0);
    }
    if digits.len() > 12 {
        return None;
    }
    digits.parse().ok().filter(|&n| n <= largest)
}

/// Refusal 20, over all counts and numbers; else the file.
fn numbered(net: Named) -> Result<Vec<u8>, Refusal> {
    let (places, transitions) = (net.markings.len(), net.transitions);
    if places > MAX_PLACES || transitions > MAX_TRANSITIONS || net.arcs.len() > MAX_ARCS || places + transitions == 0 {
        return Err(20);
    }
    let mut file = Vec::new();
    for digits in &net.markings {
        let marking = number(digits.as_deref().unwrap_or("0"), u32::MAX.into()).ok_or(20u32)?;
        file.extend((marking as u32).to_le_bytes());
    }
    let mut arcs = Vec::new();
    for (t, direction, p, digits) in net.arcs {
        let weight = number(digits.as_deref().unwrap_or("1"), u16::MAX.into()).filter(|&w| w > 0).ok_or(20u32)?;
        arcs.push((t as u16, direction, p as u16, weight as u16));
    }
    // Parallel arcs stay in their order: the sort is stable.
    arcs.sort_by_key(|&(t, direction, p, _)| (t, direction, p));
    for (t, direction, p, weight) in &arcs {
        file.extend(t.to_le_bytes());
        file.extend([*direction, 0]);
        file.extend(p.to_le_bytes());
        file.extend(weight.to_le_bytes());
    }
    let body = file.len() as u32;
    file.extend(body.to_le_bytes());
    for count in [places, transitions, arcs.len()] {
        file.extend((count as u16).to_le_bytes());
    }
    file.extend(b"\x00\x01BELL");
    Ok(file)
}
