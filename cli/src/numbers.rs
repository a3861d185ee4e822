//! Lists of numbers: words of the command, or one file of text or of bytes, low byte first. An answer of this program is a list too:
//! its last numbers.

use crate::answers::{self, Answer};
use crate::files::{self, Input};
use crate::library::{MAX_LIST_ENTRIES, MAX_PLACES, NO_PLACE};
use crate::words::brief;
use std::ffi::{OsStr, OsString};
use std::os::unix::ffi::OsStrExt;

/// Bytes of a list in text.
const LONGEST_TEXT: usize = 1_048_576;

/// An entry of a list.
pub trait Entry: Copy {
    const BYTES: usize;
    const LARGEST: u64;
    fn new(n: u64) -> Self;
}

macro_rules! entry {
    ($($t:ty),*) => {$(
        impl Entry for $t {
            const BYTES: usize = std::mem::size_of::<$t>();
            const LARGEST: u64 = <$t>::MAX as u64;
            fn new(n: u64) -> Self {
                n as $t
            }
        }
    )*};
}
entry!(u16, u32, u64);

/// What a list is of, and which answers hold one.
pub struct Kind<T> {
    /// `a list` has two bytes an entry.
    name: &'static str,
    /// As many as a call takes; one more is kept, so that the call sees that there are too many.
    most: usize,
    /// An answer that starts with one of these words ..
    starts: &'static [&'static [u8]],
    /// .. has the numbers after one of those.
    ends: &'static [&'static [u8]],
    /// The entry that the word `none` is.
    none: Option<T>,
    /// The letter that may stand before a number, as in pictures: p3, t0.
    letter: Option<u8>,
}

/// Places.
pub const CRITERION: Kind<u16> =
    Kind { name: "a list", most: MAX_LIST_ENTRIES, starts: &[], ends: &[], none: None, letter: Some(b'p') };

/// Transitions: the shadow of an answer, or the slice's list of a run cut.
pub const LIST: Kind<u16> = Kind {
    name: "a list",
    most: MAX_LIST_ENTRIES,
    starts: &[b"fired", b"stuck", b"full", b"shadow", b"written"],
    ends: &[b"shadow", b"list"],
    none: None,
    letter: Some(b't'),
};

/// Tokens for each place: the marking of an answer.
pub const MARKING: Kind<u64> = Kind {
    name: "a marking",
    most: MAX_PLACES,
    starts: &[b"fired", b"taken", b"unlimited", b"carried", b"always", b"sometimes", b"never"],
    ends: &[b"ending", b"leaving", b"needed"],
    none: None,
    letter: None,
};

/// The most tokens of each place.
pub const UPPER: Kind<u32> = Kind {
    name: "an upper list",
    most: MARKING.most,
    starts: MARKING.starts,
    ends: MARKING.ends,
    none: None,
    letter: None,
};

/// For each place of an old plan its place in a new one, or none.
pub const TABLE: Kind<u16> =
    Kind { name: "a table", most: MAX_PLACES, starts: &[], ends: &[], none: Some(NO_PLACE), letter: Some(b'p') };

/// The places of a criterion in the order in which they were given, and rising, as the library takes them. One that is given twice
/// stands twice in both.
pub struct Criterion {
    pub given: Vec<u16>,
    pub rising: Vec<u16>,
}

impl Criterion {
    pub fn new(given: Vec<u16>) -> Criterion {
        let mut rising = given.clone();
        rising.sort_unstable();
        Criterion { given, rising }
    }
}

/// The number that a text is: digits, at most `largest`.
fn parsed(text: &[u8], largest: u64) -> Option<u64> {
    let digit = |n: u64, b: &u8| {
        let d = b.is_ascii_digit().then(|| u64::from(b - b'0'))?;
        n.checked_mul(10)?.checked_add(d)
    };
    let n = text.iter().try_fold(0, digit)?;
    (!text.is_empty() && n <= largest).then_some(n)
}

fn no_number(word: &[u8], largest: u64) -> String {
    format!("'{}' is not a number from 0 to {largest}", brief(word))
}

/// A number without the letter before it, if that is there and a digit follows.
fn unlettered(word: &[u8], letter: Option<u8>) -> &[u8] {
    match word {
        [first, rest @ ..] if Some(*first) == letter && rest.first().is_some_and(u8::is_ascii_digit) => rest,
        _ => word,
    }
}

impl<T: Entry> Kind<T> {
    /// The entry that a word of the list is, or why it is none.
    fn entry(&self, word: &[u8]) -> Result<T, String> {
        let none = self.none.filter(|_| word == b"none");
        none.or_else(|| parsed(unlettered(word, self.letter), T::LARGEST).map(T::new)).ok_or_else(|| {
            let or_none = if self.none.is_some() { ", nor none" } else { "" };
            no_number(word, T::LARGEST) + or_none
        })
    }
}

/// A place (p3) or a transition (t0), a word of the command. No net has one above 32 bits: all those count as the largest of 32 bits.
pub fn numbered(word: &OsStr, letter: u8) -> Result<u32, Answer> {
    let word = word.as_bytes();
    let number = unlettered(word, Some(letter));
    if number.is_empty() || !number.iter().all(u8::is_ascii_digit) {
        return Err(answers::error(no_number(word, u32::MAX.into())));
    }
    Ok(parsed(number, u32::MAX.into()).map_or(u32::MAX, u32::new))
}

/// The name in a word @FILE.
fn named(word: &OsStr) -> Option<&OsStr> {
    word.as_bytes().strip_prefix(b"@").filter(|name| !name.is_empty()).map(OsStr::from_bytes)
}

/// The name of the file that a list is read from: @FILE, or -.
pub fn file_of(word: &OsStr) -> Option<&OsStr> {
    if word == "-" {
        return Some(word);
    }
    named(word)
}

/// The list that these words are: numbers, or @FILE or - alone.
pub fn list<T: Entry>(words: &[OsString], kind: &Kind<T>, input: &mut Input) -> Result<Vec<T>, Answer> {
    let file = match words {
        [word] => file_of(word),
        _ => None,
    };
    if let Some(name) = file {
        let name = name.as_bytes();
        let bytes = files::read(name, LONGEST_TEXT, input)?;
        return of_bytes(&bytes, kind).map_err(|fault| fault.of(name));
    }
    if words.first().is_some_and(|word| named(word).is_some()) {
        return Err(answers::error("a list is numbers, or one @FILE"));
    }
    let mut parted = Parted::default();
    for word in words {
        parted.add(word.as_bytes(), |_| false); // white space in a word is a part of it
        if word.is_empty() {
            parted.words.push(b"");
        }
    }
    parted.end().into_iter().take(kind.most + 1).map(|word| kind.entry(word).map_err(answers::error)).collect()
}

/// Text in words, with white space or one comma between two of them. A comma that is not between two stands for a word.
#[derive(Default)]
struct Parted<'a> {
    words: Vec<&'a [u8]>,
    /// Has the last comma no word after it, and which is it?
    comma: Option<&'a [u8]>,
}

impl<'a> Parted<'a> {
    fn add(&mut self, text: &'a [u8], is_white: fn(&u8) -> bool) {
        let mut rest = text;
        while let Some(first) = rest.first() {
            let length = match first {
                b',' => 1,
                first if is_white(first) => {
                    rest = &rest[1..];
                    continue;
                }
                _ => rest.iter().position(|b| *b == b',' || is_white(b)).unwrap_or(rest.len()),
            };
            let (word, after) = rest.split_at(length);
            rest = after;
            match word {
                b"," if self.words.is_empty() || self.comma.is_some() => self.words.push(word),
                b"," => self.comma = Some(word),
                _ => {
                    self.comma = None;
                    self.words.push(word);
                }
            }
        }
    }

    fn end(mut self) -> Vec<&'a [u8]> {
        self.words.extend(self.comma);
        self.words
    }
}

/// What is wrong with a list's file; in a text, in which line, from 1, and at which entry, from 0.
#[derive(Debug, PartialEq)]
struct Fault {
    at: Option<(usize, usize)>,
    why: String,
}

impl Fault {
    fn of(self, name: &[u8]) -> Answer {
        match self.at {
            Some((line, entry)) => {
                let why = format!("line {line}, entry {entry}: {}", self.why);
                answers::error_of(name, why).data("line", line).data("entry", entry)
            }
            None => answers::error_of(name, self.why),
        }
    }
}

impl From<String> for Fault {
    fn from(why: String) -> Fault {
        Fault { at: None, why }
    }
}

const MARK: &[u8] = b"\xef\xbb\xbf";

/// A text without its byte order mark, each comment, from # to the end of its line, as so many spaces; None where it is no text. Comments
/// are UTF-8, the rest is ASCII where no mark says that it is a text.
fn uncommented(bytes: &[u8]) -> Option<Vec<u8>> {
    let text = bytes.strip_prefix(MARK);
    let is_marked = text.is_some();
    let mut text = text.unwrap_or(bytes).to_vec();
    if !is_marked && text.iter().any(|b| matches!(b, 0..=8 | 14..=31 | 127)) {
        return None;
    }
    for line in text.split_mut(|b| *b == b'\n') {
        if let Some(start) = line.iter().position(|b| *b == b'#') {
            let comment = &mut line[start..];
            if !is_marked && std::str::from_utf8(comment).is_err() {
                return None;
            }
            comment.fill(b' ');
        }
    }
    (is_marked || text.is_ascii()).then_some(text)
}

/// The entries of a list's file. One with nothing but text in it is no list of bytes: as numbers of two bytes all would be above
/// 2,312, and no net has so many places or transitions; of four, above 151,587,080; of eight, above 651,061,555,542,690,056.
fn of_bytes<T: Entry>(bytes: &[u8], kind: &Kind<T>) -> Result<Vec<T>, Fault> {
    if let Some(text) = uncommented(bytes) {
        return of_text(&text, kind);
    }
    let whole = &bytes[..bytes.len().min(T::BYTES * (kind.most + 1))];
    if !whole.len().is_multiple_of(T::BYTES) {
        let name = kind.name;
        let why = match T::BYTES {
            2 => format!("{name} has two bytes an entry, and this file has an odd number of bytes"),
            n => {
                let each = if n == 4 { "four" } else { "eight" };
                let length = answers::counted(whole.len() as u64, "byte");
                format!("{name} has {each} bytes an entry, and this file has {length}")
            }
        };
        return Err(why.into());
    }
    let entry = |b: &[u8]| T::new(b.iter().rev().fold(0, |n, b| n << 8 | u64::from(*b)));
    Ok(whole.chunks_exact(T::BYTES).map(entry).collect())
}

fn of_text<T: Entry>(text: &[u8], kind: &Kind<T>) -> Result<Vec<T>, Fault> {
    // each word is a part of the text
    let line_of = |word: &[u8]| {
        let before = (word.as_ptr() as usize).saturating_sub(text.as_ptr() as usize);
        1 + text.iter().take(before).filter(|b| **b == b'\n').count()
    };
    let fault = |word: &[u8], entry: usize, why: String| Fault { at: Some((line_of(word), entry)), why };
    let mut parted = Parted::default();
    parted.add(text, |b| matches!(b, 9..=13 | 32));
    let words = parted.end();
    let mut numbers = &words[..];
    if let Some(first) = words.first().filter(|word| kind.starts.contains(word)) {
        let end = words.iter().rposition(|word| kind.ends.contains(word));
        numbers = &words[1 + end.ok_or_else(|| fault(first, 0, no_number(first, T::LARGEST)))?..];
    }
    let mut list = Vec::new();
    for (i, word) in numbers.iter().enumerate() {
        let entry = kind.entry(word).map_err(|why| fault(word, i, why))?;
        if list.len() <= kind.most {
            list.push(entry);
        }
    }
    if text.len() > LONGEST_TEXT {
        return Err(format!("a list in text has at most {LONGEST_TEXT} bytes").into());
    }
    Ok(list)
}

#[cfg(test)]
mod tests {
    use super::*;

    #[test]
    fn numbers() {
        let most = u64::MAX;
        for (text, n) in [("0", 0), ("007", 7), ("18446744073709551615", most)] {
            assert_eq!(parsed(text.as_bytes(), most), Some(n));
        }
        for text in ["", "-1", "+1", " 1", "1 ", "1x", ":", "/", "18446744073709551616", "99999999999999999999999"] {
            assert_eq!(parsed(text.as_bytes(), most), None, "{text}");
        }
        assert_eq!(parsed(b"65535", 65535), Some(65535));
        assert_eq!(parsed(b"65536", 65535), None);
        for (text, n) in [("3", 3), ("65539", 65_539), ("4294967295", u32::MAX), ("4294967299", u32::MAX)] {
            assert_eq!(numbered(text.as_ref(), b'p'), Ok(n));
            assert_eq!(numbered(format!("p{text}").as_ref(), b'p'), Ok(n));
        }
        assert_eq!(numbered("9".repeat(99).as_ref(), b't'), Ok(u32::MAX));
        for text in ["", "-1", "1x", "99999999999x", "t3", "p", "p-1", "pp3", "P3"] {
            assert!(numbered(text.as_ref(), b'p').is_err(), "{text}");
        }
    }

    #[test]
    fn text() {
        for (text, list) in [
            ("", vec![]),
            (" \n", vec![]),
            ("3 0\n\t1   2\r\n", vec![3, 0, 1, 2]),
            ("fired 3 transitions, ending 0 1\nshadow 0 1\n", vec![0, 1]),
            ("stuck at index 0: x\nshadow", vec![]),
            ("shadow 7", vec![7]),
            ("t3,t0, 1\n,\n2", vec![3, 0, 1, 2]),
            ("written a list, 5: 16 bytes\nthe slice's list 0 1", vec![0, 1]),
        ] {
            assert_eq!(of_bytes(text.as_bytes(), &LIST), Ok(list), "{text}");
        }
        for (text, word) in [
            ("1 shadow", "shadow"),
            ("fired 1, ending 2", "fired"),
            ("1 65536", "65536"),
            ("x", "x"),
            ("p3", "p3"),
            (",1", ","),
            ("1,", ","),
            ("1,,2", ","),
        ] {
            let why = format!("'{word}' is not a number from 0 to 65535");
            assert_eq!(of_bytes(text.as_bytes(), &LIST).map_err(|fault| fault.why), Err(why), "{text}");
        }
        assert_eq!(of_bytes(b"taken 1 time, leaving 5 6", &MARKING), Ok(vec![5, 6]));
        assert_eq!(of_bytes(b"unlimited, leaving", &MARKING), Ok(vec![]));
        assert_eq!(of_bytes(b"carried 3 tokens, ending 1 2", &MARKING), Ok(vec![1, 2]));
        assert_eq!(of_bytes(b"0 none 2\n65535", &TABLE), Ok(vec![0, NO_PLACE, 2, NO_PLACE]));
        assert!(of_bytes(b"none", &LIST).is_err() && of_bytes(b"None", &TABLE).is_err());
        assert_eq!(of_bytes(b"p5 p3,4", &CRITERION), Ok(vec![5, 3, 4]));
        let Criterion { given, rising } = Criterion::new(vec![5, 3, 5]);
        assert_eq!((given, rising), (vec![5, 3, 5], vec![3, 5, 5]));
    }

    #[test]
    fn words_of_the_command() {
        let list = |words: &[&str]| {
            let words: Vec<OsString> = words.iter().map(OsString::from).collect();
            list(&words, &CRITERION, &mut Input::default())
        };
        assert_eq!(list(&["3,5", "p1,", "2"]), Ok(vec![3, 5, 1, 2]));
        for words in [&[""][..], &["3", ""], &["3,"], &[",", "3"], &["3,,5"], &["t3"], &["3 5"]] {
            assert!(list(words).is_err(), "{words:?}");
        }
    }

    #[test]
    fn bytes() {
        assert_eq!(of_bytes(&[1, 2, 0, 1], &LIST), Ok(vec![513, 256]));
        assert_eq!(of_bytes(&[1, 0, 0, 128], &UPPER), Ok(vec![0x8000_0001]));
        assert_eq!(of_bytes(&[255; 8], &MARKING), Ok(vec![u64::MAX]));
        assert!(of_bytes(&[1, 2, 0], &LIST).is_err_and(|fault| fault.why.contains("an odd number of bytes")));
        assert_eq!(of_bytes(&[0; 200_000], &LIST).unwrap().len(), MAX_LIST_ENTRIES + 1);
        assert_eq!(of_bytes(&[0; 200_000], &MARKING).unwrap().len(), MAX_PLACES + 1);
    }

    #[test]
    fn too_long() {
        let text = b"0 ".repeat(LONGEST_TEXT / 2);
        assert_eq!(of_bytes(&text, &LIST).unwrap().len(), MAX_LIST_ENTRIES + 1);
        assert!(of_bytes(&[&text[..], b"0"].concat(), &LIST).is_err_and(|fault| fault.why.contains("at most")));
    }

    #[test]
    fn comments_and_marks() {
        let of = |bytes: &[u8]| of_bytes(bytes, &LIST);
        let with_mark = |text: &str| [MARK, text.as_bytes()].concat();
        assert_eq!(of("3 # drei, d.h. \u{e4}\r\n# 9\r\n0\r\n#".as_bytes()), Ok(vec![3, 0]));
        assert_eq!(of(&with_mark("3,\r\n0 # \u{e4}")), Ok(vec![3, 0]));
        assert_eq!(of(&with_mark("")), Ok(vec![]));
        assert_eq!(of(b"#"), Ok(vec![]));
        // a # in a list of bytes is no comment
        assert_eq!(of(&[35, 0, 10, 0]), Ok(vec![35, 10]));
        assert_eq!(of(&[35, 0xff]), Ok(vec![0xff23]));
        for (text, at) in [("1 x", (1, 1)), ("# x\n1\n\n2 3 x", (4, 3)), ("shadow 1\r\ny", (2, 1)), ("fired", (1, 0))] {
            assert_eq!(of(text.as_bytes()).map_err(|fault| fault.at), Err(Some(at)), "{text}");
        }
        assert!(of(&with_mark("\u{e4}")).is_err_and(|fault| fault.at == Some((1, 0))));
    }
}
