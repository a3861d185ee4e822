//! The words of a command: options, verb, and the words after it.

use std::ffi::{OsStr, OsString};
use std::os::unix::ffi::OsStrExt;

#[derive(Debug, Default, PartialEq)]
pub struct Command {
    pub json: bool,
    pub force: bool,
    /// Empty where there is none; `help` and `version` where an option asks for them.
    pub verb: OsString,
    /// The words after it.
    pub words: Vec<OsString>,
    /// How many of them stand before --, where that stands.
    pub split: Option<usize>,
    /// The first option that is none.
    pub unknown: Option<OsString>,
}

/// Options may stand anywhere before --. A word with one dash is a word.
pub fn command(args: impl IntoIterator<Item = OsString>) -> Command {
    let mut command = Command::default();
    let (mut words, mut help, mut version) = (Vec::new(), false, false);
    let mut args = args.into_iter();
    while let Some(word) = args.next() {
        match word.as_bytes() {
            b"--json" => command.json = true,
            b"--force" => command.force = true,
            b"--help" | b"-h" => help = true,
            b"--version" => version = true,
            b"--" => {
                command.split = Some(words.len().saturating_sub(1));
                words.extend(args.by_ref());
            }
            [b'-', b'-', ..] => {
                command.unknown = Some(word);
                return command;
            }
            _ => words.push(word),
        }
    }
    if help && words.first().is_none_or(|verb| verb != "help") {
        words.truncate(1);
        words.retain(|verb| !verb.is_empty());
        words.insert(0, "help".into());
    }
    if version {
        words = vec!["version".into()];
    }
    let mut words = words.into_iter();
    command.verb = words.next().unwrap_or_default();
    command.words = words.collect();
    command
}

/// So many characters of a word are shown.
const SHOWN: usize = 40;

/// A word as an answer can show it: not long, and without control characters.
pub fn brief(word: &[u8]) -> String {
    at_most(SHOWN, word)
}

/// The same with so many characters.
pub fn at_most(shown: usize, word: &[u8]) -> String {
    let text = String::from_utf8_lossy(word);
    let mut start: String = text.chars().take(shown).map(|c| if c.is_control() { '?' } else { c }).collect();
    if text.chars().nth(shown).is_some() {
        start.push_str("..");
    }
    start
}

/// The name with the fewest letters put in, taken out or changed; the first of several.
pub fn nearest<'a>(word: &OsStr, names: impl Iterator<Item = &'a str>) -> &'a str {
    let word = brief(word.as_bytes());
    names.min_by_key(|name| distance(&word, name)).unwrap_or("help")
}

fn distance(a: &str, b: &str) -> usize {
    let b: Vec<char> = b.chars().collect();
    let mut row: Vec<usize> = (0..=b.len()).collect();
    for (i, x) in a.chars().enumerate() {
        let mut corner = row[0];
        row[0] = i + 1;
        for (j, y) in b.iter().enumerate() {
            let changed = corner + usize::from(x != *y);
            corner = row[j + 1];
            row[j + 1] = changed.min(corner + 1).min(row[j] + 1);
        }
    }
    row[b.len()]
}

#[cfg(test)]
mod tests {
    use super::*;

    fn of(line: &str) -> Command {
        command(line.split_whitespace().map(OsString::from))
    }

    #[test]
    fn options_stand_anywhere() {
        let c = of("check --json a - -1 --force 2 -- --json b");
        assert_eq!((c.json, c.force, c.split, &c.verb), (true, true, Some(4), &OsString::from("check")));
        assert_eq!(c.words, ["a", "-", "-1", "2", "--json", "b"]);
        assert_eq!(of("-h check x"), of("help check"));
        assert_eq!(of("help check --help"), of("help check"));
        assert_eq!(of("--help"), of("help"));
        assert_eq!(of("show --jsno x").unknown, Some("--jsno".into()));
        assert_eq!(of("-- show").verb, "show");
    }

    #[test]
    fn words_that_can_be_shown() {
        assert_eq!(brief(b"sh\now\x1b[1m"), "sh?ow?[1m");
        assert_eq!(brief(&[b'1'; 40]), "1".repeat(40));
        assert_eq!(brief(&[b'1'; 41]), "1".repeat(40) + "..");
        assert_eq!(brief(b"Qu\xc3\xa9 \xff"), "Qu\u{e9} \u{fffd}");
    }

    #[test]
    fn the_nearest() {
        let names = || ["show", "check", "safety", "safety-each"].into_iter();
        for (word, name) in [("shows", "show"), ("chekc", "check"), ("safty-each", "safety-each"), ("", "show")] {
            assert_eq!(nearest(OsStr::new(word), names()), name);
        }
        assert_eq!(distance("kitten", "sitting"), 3);
    }
}
