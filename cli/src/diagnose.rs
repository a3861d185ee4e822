//! Why the library refused, in words: which arc, origin, place or entry it is about. The number is the library's; whatever is found
//! here changes nothing but the sentence.

use crate::answers::{self, counted, grouped, grouped_count, Answer};
use crate::files::File;
use crate::library::{
    self, Refusal, Start, MAX_ARCS, MAX_FILE_BYTES, MAX_LIST_ENTRIES, MAX_PLACES, MAX_TRANSITIONS, NO_PLACE,
};
use crate::net::{places, transitions, Arc, Net, Trailer};
use crate::pnml;

/// Why something is refused: a sentence; and for JSON the entry, the number there and the most or least that it may be, where these are.
pub struct Why {
    text: String,
    fields: Vec<(&'static str, i128)>,
}

impl Why {
    fn with(mut self, key: &'static str, value: impl TryInto<i128>) -> Why {
        self.fields.extend(value.try_into().ok().map(|value| (key, value)));
        self
    }

    /// With a number that is to be below a count.
    fn below(self, value: u32, count: usize) -> Why {
        let why = self.with("value", value);
        match count.checked_sub(1) {
            Some(most) => why.with("limit", most as u64),
            None => why,
        }
    }

    fn of(self, refusal: Refusal, file: Option<&[u8]>) -> Answer {
        let answer = answers::refused(refusal.number(), file, self.text);
        self.fields.into_iter().fold(answer, |answer, (key, value)| answer.data(key, answers::Value::Number(value)))
    }
}

impl Why {
    /// After the name of what it is about.
    fn about(mut self, what: &str) -> Why {
        self.text = format!("{what}: {}", self.text);
        self
    }
}

impl<T: Into<String>> From<T> for Why {
    fn from(text: T) -> Why {
        Why { text: text.into(), fields: Vec::new() }
    }
}

/// What a call was asked about.
#[derive(Clone, Copy, Default)]
pub struct Asked<'a> {
    /// The plan and then the slice, the old plan and then the new, or one file.
    pub files: &'a [&'a File],
    pub start: Start<'a>,
    pub criterion: &'a [u16],
    pub list: &'a [u16],
    /// How many numbers the marking has.
    pub marking: usize,
    /// Where a range was asked for, its upper end.
    pub upper: Option<&'a [u32]>,
    /// Where a transfer was asked for, its table and the running marking.
    pub transfer: Option<(&'a [u16], &'a [u64])>,
    /// Where a place or a transition was asked for by itself.
    pub place: Option<u32>,
    pub transition: Option<u32>,
}

impl Asked<'_> {
    /// What the library answered, or the refusal in words.
    pub fn granted<T>(&self, answer: Result<T, Refusal>) -> Result<T, Answer> {
        answer.map_err(|refusal| self.refused(refusal))
    }

    pub fn refused(&self, refusal: Refusal) -> Answer {
        let file = self.blamed(refusal);
        let of_file = |why: Why| why.of(refusal, Some(&file.name));
        let of_call = |why: Why| why.of(refusal, None);
        let (p, t) = (places(&file.bytes), transitions(&file.bytes));
        match refusal {
            Refusal::Criterion => of_call("criterion: an odd number of bytes".into()),
            Refusal::Place => match self.place {
                Some(place) => of_call(Why::from(format!("unknown place {place}; P is {p}")).below(place, p)),
                None => of_call(criterion(self.criterion, p).about("criterion")),
            },
            Refusal::List => of_call(
                Why::from(format!("list: above {} entries", grouped(MAX_LIST_ENTRIES)))
                    .with("limit", MAX_LIST_ENTRIES as u64),
            ),
            Refusal::Transition => match self.transition {
                Some(n) => of_call(Why::from(format!("unknown transition {n}; T is {t}")).below(n, t)),
                None => of_call(list(self.list, t).about("list")),
            },
            Refusal::Buffer => of_call("buffer: shorter than what is written".into()),
            Refusal::Stuck => of_call("list: stuck".into()),
            Refusal::Marking => of_call(not_for_each(self.marking, p).about("marking")),
            Refusal::Entries | Refusal::Stranded | Refusal::Tokens => of_call(match (self.transfer, self.start) {
                (Some((table, running)), _) => carried_wrong(refusal, self.files, table, running),
                (None, start) => start_wrong(refusal, start.unwrap_or(&[]), &file.bytes),
            }),
            Refusal::Upper => of_call(upper(self.upper.unwrap_or(&[]), &file.bytes).about("upper list")),
            Refusal::Capped if self.upper.is_some() => {
                of_file("a plan with caps; there more tokens can block a firing, and no marking is the least".into())
            }
            Refusal::Capped => of_file(
                "a plan with caps, and the cut for a run is of plans without; safety cuts it for all runs, and replay fires the list"
                    .into(),
            ),
            Refusal::Profile | Refusal::Id | Refusal::Number => match pnml::why(refusal, &file.bytes) {
                Some((why, Some(at))) => {
                    of_file(format!("{at}: {why}").into()).data("line", at.line).data("column", at.column)
                }
                Some((why, None)) => of_file(why.into()),
                None => of_file("it is refused".into()),
            },
            _ => of_file(of_bytes(refusal, &file.bytes)),
        }
    }

    /// The file that a refusal is about: the slice where it is about a file and the library does not refuse the plan.
    fn blamed(&self, refusal: Refusal) -> &File {
        match self.files {
            [plan, slice] if refusal.of_file() && library::refusal_of_plan(&plan.bytes).is_none() => slice,
            [file, ..] => file,
            [] => panic!("a call is asked about a file"),
        }
    }
}

/// A number that the file has not, where no call refuses it.
pub fn no_such(file: &str, what: &'static str, n: impl std::fmt::Display, count: u64) -> Answer {
    let count = counted(count, what);
    answers::error(format!("the {file} has no {what} {n}: it has {count}, numbered from 0"))
}

/// Why a file is refused.
fn of_bytes(refusal: Refusal, file: &[u8]) -> Why {
    let found = match refusal {
        Refusal::Length if file.len() > MAX_FILE_BYTES => {
            let why = Why::from(format!("more than {} bytes", grouped(MAX_FILE_BYTES)));
            Some(why.with("limit", MAX_FILE_BYTES as u64))
        }
        Refusal::Length => {
            let why = Why::from(format!("{}; at least {}", bytes(file.len()), Trailer::LENGTH));
            Some(why.with("value", file.len() as u64).with("limit", Trailer::LENGTH as u64))
        }
        Refusal::Letters | Refusal::Kind | Refusal::Counts | Refusal::Body => {
            Trailer::of(file).map(|t| of_trailer(refusal, t, file.len()))
        }
        Refusal::Arc | Refusal::Order => Net::by_trailer(file).and_then(first_arc),
        Refusal::Origins => Net::by_trailer(file).and_then(first_origin),
        Refusal::Cap => Net::by_trailer(file).and_then(first_over_cap),
        Refusal::Weight => Net::by_trailer(file).and_then(first_too_heavy),
        _ => None,
    };
    found.unwrap_or_else(|| format!("it breaks rule {} of the files", refusal.number()).into())
}

fn of_trailer(refusal: Refusal, t: Trailer, length: usize) -> Why {
    match refusal {
        Refusal::Letters if t.letters != *b"BELL" => "not a plan or slice file (the letters BELL are missing)".into(),
        Refusal::Letters => Why::from(format!("edition {}; 1 or 2 is due", t.edition)).with("value", t.edition),
        Refusal::Kind => match t.kind {
            0 => Why::from("this is a plan; a slice is due"),
            1 => "this is a slice; a plan is due".into(),
            kind => format!("kind {kind}; 0, a plan, or 1, a slice, is due").into(),
        }
        .with("value", t.kind),
        Refusal::Counts => {
            let limits = [
                (t.places, MAX_PLACES, "places"),
                (t.transitions, MAX_TRANSITIONS, "transitions"),
                (t.arcs, MAX_ARCS, "arcs"),
            ];
            match limits.iter().find(|(found, most, _)| found > most) {
                Some((found, most, what)) => {
                    Why::from(format!("{} {what}; at most {}", grouped(*found), grouped(*most)))
                        .with("value", *found as u64)
                        .with("limit", *most as u64)
                }
                None => "no place and no transition".into(),
            }
        }
        _ if t.body != t.body_by_counts() => {
            let due = t.body_by_counts();
            Why::from(format!("a body of {} by the trailer, of {} by the counts", bytes(t.body), grouped(due)))
                .with("value", t.body as u64)
                .with("limit", due as u64)
        }
        _ => {
            let room = length.saturating_sub(Trailer::LENGTH);
            Why::from(format!("a body of {} by the trailer; there is room for {}", bytes(t.body), grouped(room)))
                .with("value", t.body as u64)
                .with("limit", room as u64)
        }
    }
}

/// The first arc that is out of range, or below the one before.
fn first_arc(net: Net) -> Option<Why> {
    let arcs = net.arcs();
    let (places, transitions) = (net.trailer.places, net.trailer.transitions);
    let wrong = |i: usize| {
        let arc = &arcs[i];
        Some(match arc {
            _ if arc.zero != 0 => Why::from("the zero byte is not 0").with("value", arc.zero).with("limit", 0),
            _ if arc.direction > 1 => {
                Why::from("the direction is neither 0 nor 1").with("value", arc.direction).with("limit", 1)
            }
            _ if usize::from(arc.place) >= places => {
                Why::from(format!("no place {}; P is {places}", arc.place)).below(arc.place.into(), places)
            }
            _ if usize::from(arc.transition) >= transitions => {
                Why::from(format!("no transition {}; T is {transitions}", arc.transition))
                    .below(arc.transition.into(), transitions)
            }
            _ if arc.weight == 0 => Why::from("the weight is 0").with("value", 0).with("limit", 1),
            _ if i > 0 && key(arc) < key(&arcs[i - 1]) => "below the arc before".into(),
            _ => return None,
        })
    };
    let (i, why) = (0..arcs.len()).find_map(|i| wrong(i).map(|why| (i, why)))?;
    let Arc { transition, direction, zero, place, weight } = arcs[i];
    let arc = format!(
        "arc {i} (transition {transition}, direction {direction}, zero byte {zero}, place {place}, weight {weight})"
    );
    Some(why.about(&arc).with("entry", i as u64))
}

fn key(arc: &Arc) -> (u16, u8, u16) {
    (arc.transition, arc.direction, arc.place)
}

/// The first origin that is not above the one before, of the places, then of the transitions.
fn first_origin(net: Net) -> Option<Why> {
    let origins = net.origins();
    let (places, transitions) = origins.split_at(net.trailer.places.min(origins.len()));
    let in_table = |table: &[u16], what: &str| {
        let i = (1..table.len()).find(|&i| table[i] <= table[i - 1])?;
        let why = Why::from(format!("{what} origin {i} is {}: not above the one before", table[i]));
        Some(why.with("entry", i as u64).with("value", table[i]).with("limit", u32::from(table[i - 1]) + 1))
    };
    in_table(places, "place").or_else(|| in_table(transitions, "transition"))
}

/// The first place whose marking is above its cap.
fn first_over_cap(net: Net) -> Option<Why> {
    (0..net.trailer.places).find_map(|p| {
        let (tokens, cap) = (net.tokens(p)?, net.cap(p)?);
        let had = || format!("place {p} has {}; its cap is {}", grouped_count(tokens, "token"), grouped(cap));
        (tokens > cap).then(|| Why::from(had()).with("entry", p as u64).with("value", tokens).with("limit", cap))
    })
}

/// The first parallel arcs whose weights are too much for one arc.
fn first_too_heavy(net: Net) -> Option<Why> {
    let arcs = net.arcs();
    arcs.chunk_by(|a, b| key(a) == key(b)).find_map(|parallel| {
        let sum: u32 = parallel.iter().map(|arc| u32::from(arc.weight)).sum();
        let arc = parallel[0];
        let (place, transition) = (arc.place, arc.transition);
        let between = match arc.adds() {
            true => format!("from transition {transition} to place {place}"),
            false => format!("from place {place} to transition {transition}"),
        };
        let most = u32::from(u16::MAX);
        let why = || format!("the arcs {between} weigh {} together; at most {}", grouped(sum), grouped(most));
        (sum > most).then(|| Why::from(why()).with("value", sum).with("limit", most))
    })
}

/// The first entry of a criterion, in the order in which it was given, that is no place or stands before.
fn criterion(q: &[u16], places: usize) -> Why {
    for (i, &n) in q.iter().enumerate() {
        if usize::from(n) >= places {
            let why = Why::from(format!("entry {i} is {n}: no such place; P is {places}"));
            return why.with("entry", i as u64).below(n.into(), places);
        }
        if let Some(before) = q[..i].iter().position(|&m| m == n) {
            let why = Why::from(format!("entry {i} is {n}, and so is entry {before}"));
            return why.with("entry", i as u64).with("value", n);
        }
    }
    "it is refused".into()
}

/// A list that has not one number for each place.
fn not_for_each(count: usize, places: usize) -> Why {
    let why = Why::from(format!("{}; P is {places}", how_many(count)));
    why.with("value", count as u64).with("limit", places as u64)
}

/// How many numbers a list has that should have one for each place. Where it has more than there can be places, one more was read.
fn how_many(count: usize) -> String {
    match count {
        ..=MAX_PLACES => counted(count as u64, "number"),
        _ => format!("more than {} numbers", grouped(MAX_PLACES)),
    }
}

/// The first entry of an upper list that is below the plan's marking, where there is one for each place.
fn upper(upper: &[u32], plan: &[u8]) -> Why {
    let below = Net::by_trailer(plan).filter(|net| net.trailer.places == upper.len()).and_then(|net| {
        let tokens = (0..upper.len()).map(|p| net.tokens(p).unwrap_or(0));
        tokens.zip(upper).enumerate().find(|(_, (tokens, &most))| *tokens > most)
    });
    match below {
        Some((p, (tokens, &most))) => {
            let why = Why::from(format!("entry {p} is {most}: below the plan's {tokens}"));
            why.with("entry", p as u64).with("value", most).with("limit", tokens)
        }
        None => not_for_each(upper.len(), places(plan)),
    }
}

/// Why a file cannot start from a marking.
fn start_wrong(refusal: Refusal, start: &[u64], file: &[u8]) -> Why {
    let found = match refusal {
        Refusal::Entries => Some(not_for_each(start.len(), places(file))),
        _ => first_too_many(start.iter().map(|&tokens| tokens.into()), "has", file),
    };
    found.unwrap_or_else(|| "it is refused".into()).about("marking")
}

/// The first place that would have more tokens than a file can say, or than its cap.
fn first_too_many(tokens: impl Iterator<Item = u128>, verb: &str, file: &[u8]) -> Option<Why> {
    let net = Net::by_trailer(file)?;
    tokens.enumerate().find_map(|(p, tokens)| {
        let (most, limit) = match net.cap(p) {
            Some(cap) if tokens > cap.into() => (cap, format!("its cap is {}", grouped(cap))),
            _ if tokens > u32::MAX.into() => (u32::MAX, format!("at most {}", grouped(u32::MAX))),
            _ => return None,
        };
        let why = Why::from(format!("place {p} {verb} {}; {limit}", grouped_count(tokens, "token")));
        Some(why.with("entry", p as u64).with("value", tokens).with("limit", most))
    })
}

/// Why a running marking cannot be carried from the old plan to the new one.
fn carried_wrong(refusal: Refusal, files: &[&File], table: &[u16], running: &[u64]) -> Why {
    let [old, new] = files else { panic!("a transfer is asked about two files") };
    let (old_places, new_places) = (places(&old.bytes), places(&new.bytes));
    let of_length = |name: &str, count: usize| {
        let has = counted(old_places as u64, "place");
        let why = Why::from(format!("{name}: {}; the old plan has {has}", how_many(count)));
        why.with("value", count as u64).with("limit", old_places as u64)
    };
    let found = match refusal {
        Refusal::Entries if running.len() != old_places => Some(of_length("marking", running.len())),
        Refusal::Entries if table.len() != old_places => Some(of_length("table", table.len())),
        Refusal::Entries => {
            let wrong = table.iter().position(|&to| to != NO_PLACE && usize::from(to) >= new_places);
            let new_has = counted(new_places as u64, "place");
            wrong.map(|i| {
                let why =
                    Why::from(format!("table: entry {i} is {}: no such place; the new plan has {new_has}", table[i]));
                why.with("entry", i as u64).below(table[i].into(), new_places)
            })
        }
        Refusal::Stranded => {
            let stranded = (0..old_places).find(|&p| running[p] > 0 && table[p] == NO_PLACE);
            stranded.map(|p| {
                let has = grouped_count(running[p], "token");
                Why::from(format!("table: entry {p} is none, and place {p} has {has}"))
                    .with("entry", p as u64)
                    .with("value", running[p])
                    .with("limit", 0)
            })
        }
        _ => {
            let mut sums = vec![0u128; new_places];
            for (&to, &tokens) in table.iter().zip(running) {
                if let Some(sum) = sums.get_mut(usize::from(to)) {
                    *sum += u128::from(tokens);
                }
            }
            first_too_many(sums.into_iter(), "gets", &new.bytes).map(|why| why.about("new plan"))
        }
    };
    found.unwrap_or_else(|| "table: it is refused".into())
}

/// The first entry of a list that is no transition.
fn list(list: &[u16], transitions: usize) -> Why {
    match list.iter().enumerate().find(|(_, &n)| usize::from(n) >= transitions) {
        Some((i, &n)) => {
            let why = Why::from(format!("entry {i} is {n}: no such transition; T is {transitions}"));
            why.with("entry", i as u64).below(n.into(), transitions)
        }
        None => "it is refused".into(),
    }
}

/// `1 byte`, `65,536 bytes`.
fn bytes(n: usize) -> String {
    grouped_count(n, "byte")
}

#[cfg(test)]
mod tests {
    use super::*;

    /// The same numbers each time, each below what is asked.
    fn numbers_from(mut seed: u64) -> impl FnMut(usize) -> usize {
        move |below| {
            seed = seed.wrapping_mul(6364136223846793005).wrapping_add(1442695040888963407);
            (seed >> 33) as usize % below
        }
    }

    /// Files with bytes changed at random: each that is refused has a sentence of its own, which names the rule that was broken.
    #[test]
    fn every_refusal_has_its_reason() {
        let plan = std::fs::read(concat!(env!("CARGO_MANIFEST_DIR"), "/../plans/full-kerb.plan")).unwrap();
        let slice = library::safety(&plan, None, &[2]).ok().unwrap().bytes;
        let mut random = numbers_from(1);
        let mut met = std::collections::BTreeMap::new();
        for round in 0..40_000 {
            let mut file = if round % 2 == 0 { plan.clone() } else { slice.clone() };
            for _ in 0..=random(2) {
                let i = random(file.len());
                file[i] = if random(2) == 0 { random(256) as u8 } else { file[i].wrapping_add(1) };
            }
            if random(20) == 0 {
                file.truncate(random(20));
            }
            if let Some(refusal) = library::refusal_of_file(&file) {
                let why = of_bytes(refusal, &file).text;
                let due = match refusal {
                    Refusal::Length => "at least 16",
                    Refusal::Letters => "e", // BELL or edition
                    Refusal::Kind => "is due",
                    Refusal::Counts => "",
                    Refusal::Body => "a body of",
                    Refusal::Arc => "arc ",
                    Refusal::Order => "below the arc before",
                    Refusal::Origins => "not above the one before",
                    Refusal::Cap => "its cap is",
                    other => panic!("{other:?} of a file"),
                };
                assert!(why.contains(due) && !why.contains("it breaks rule"), "{refusal:?}: {why}");
                assert!(refusal != Refusal::Arc || !why.contains("below"), "{why}");
                *met.entry(refusal.number()).or_insert(0) += 1;
            }
        }
        assert_eq!(met.keys().copied().collect::<Vec<_>>(), [1, 2, 3, 4, 5, 6, 7, 8, 16]);
    }

    /// Tables, markings and upper lists at random: each that is refused has a sentence of its own.
    #[test]
    fn every_entry_has_its_reason() {
        let plan = |name: &str| {
            let path = format!("{}/../plans/{name}.plan", env!("CARGO_MANIFEST_DIR"));
            File { name: name.into(), bytes: std::fs::read(path).unwrap() }
        };
        let files = ["small-kerb", "full-kerb", "loop"].map(plan);
        let mut random = numbers_from(3);
        let mut met = std::collections::BTreeMap::new();
        let mut refused = |asked: Asked, refusal: Option<Refusal>| {
            let Some(refusal) = refusal else { return };
            let why = String::from_utf8(asked.refused(refusal).words()).unwrap();
            assert!(
                why.starts_with(&format!("refused {}: ", refusal.number())) && !why.contains("it is refused"),
                "{why}"
            );
            *met.entry(refusal.number()).or_insert(0) += 1;
        };
        for _ in 0..20_000 {
            let (old, new) = (&files[random(3)], &files[random(3)]);
            let length = places(&old.bytes) + usize::from(random(8) == 0);
            let most = if random(4) == 0 { 7 } else { 4 };
            let large = [0, 1, 1, 2, 4_294_967_295, 4_294_967_296, u64::MAX];
            let tokens: Vec<u64> = (0..length).map(|_| large[random(most)]).collect();
            let table: Vec<u16> = (0..length).map(|_| [0, 1, 2, 2, 4, NO_PLACE][random(6)]).collect();
            let upper: Vec<u32> = (0..length).map(|_| random(4) as u32).collect();

            let asked = Asked { files: &[old, new], transfer: Some((&table, &tokens)), ..Asked::default() };
            refused(asked, library::transfer(&old.bytes, &new.bytes, &tokens, &table, 0).err());
            let asked = Asked { files: &[old], start: Some(&tokens), ..Asked::default() };
            refused(asked, library::safety(&old.bytes, Some(&tokens), &[]).err());
            let asked = Asked { files: &[old], upper: Some(&upper), ..Asked::default() };
            refused(asked, library::range(&old.bytes, &[], &upper).err());
        }
        assert_eq!(met.keys().copied().collect::<Vec<_>>(), [17, 21, 22, 23, 24]);
    }
}
