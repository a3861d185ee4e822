//! Counts the lines of the definitions that the contracts of the public calls cite, directly or through other definitions:
//! what a reader must believe. Comments and imports do not count.
//!
//! Each argument is a group of calls with its limit, `LIMIT:CALL,CALL..`. A group is charged with what no group before it
//! cites. A group above its limit fails, and so does a public call that is in no group.

use std::collections::{BTreeMap, BTreeSet};
use std::fs;
use std::path::{Path, PathBuf};
use std::process::exit;

/// The crates whose public functions are the calls: the families, and the C interface (nesfoal_c says the same again).
fn of_calls(name: &str) -> bool {
    name.starts_with("call_") || name == "nesfoal"
}

/// A definition: its file, as `crate.Module`, and its name there.
type Definition = (String, String);

/// A file of definitions or of calls.
#[derive(Default)]
struct Source {
    /// The lines of each definition.
    texts: BTreeMap<String, String>,
    /// The data types that have a constructor of this name.
    constructors: BTreeMap<String, Vec<String>>,
    /// Where a name that is used comes from.
    used: BTreeMap<String, Definition>,
    /// The files that are used under another name.
    renamed: BTreeMap<String, String>,
    /// The contracts of the public functions.
    contracts: BTreeMap<String, String>,
}

/// The file that a path of a `use` line names, as `Rattle.net.specs.Net`; none for the library that comes with the toolchain.
fn module(path: &str) -> Option<String> {
    let (name, rest) = path.strip_prefix("Rattle.")?.split_once(".specs.")?;
    (name != "std").then(|| format!("{name}.{rest}"))
}

/// What is declared in a crate's code stands in no file of specs/.
fn declared(module: &str) -> bool {
    module.split('.').nth(1) == Some("declared")
}

/// The names that a text cites: no fields, which a point leads, and none that is given there, as `name :` or `{ name = .. }`.
fn words(text: &str) -> Vec<&str> {
    let marks = |c: char| "(){}[],;|".contains(c);
    let all: Vec<&str> = text
        .split_whitespace()
        .flat_map(|part| part.split_inclusive(marks))
        .flat_map(|part| {
            let (name, mark) = part.split_at(part.find(marks).unwrap_or(part.len()));
            [name, mark]
        })
        .filter(|word| !word.is_empty())
        .collect();
    let after = |i: usize, mark| all.get(i + 1) == Some(&mark);
    let field = |i: usize| after(i, "=") && i > 0 && ["{", ";"].contains(&all[i - 1]);
    let cited = (0..all.len())
        .filter(|&i| !after(i, ":") && !field(i) && !all[i].starts_with('.') && !all[i].starts_with(marks));
    cited.map(|i| all[i].trim_end_matches('.')).collect()
}

impl Source {
    fn read(text: &str) -> Source {
        let mut source = Source::default();
        text.lines().for_each(|line| source.line_of_use(line));
        text.split("\n\n").for_each(|block| source.block(block));
        source.functions(text);
        source
    }

    fn line_of_use(&mut self, line: &str) {
        let line = line.strip_prefix("ghost ").unwrap_or(line).trim_end_matches(';');
        let Some(path) = line.strip_prefix("use ") else { return };
        if let Some((path, names)) = path.split_once(".{") {
            let Some(from) = module(path) else { return };
            for part in names.trim_end_matches('}').split(',') {
                let (name, here) = part.trim().split_once(" as ").unwrap_or((part.trim(), part.trim()));
                self.used.insert(here.to_string(), (from.clone(), name.to_string()));
            }
        } else if let Some((path, here)) = path.split_once(" as ") {
            module(path).map(|from| self.renamed.insert(here.to_string(), from));
        }
    }

    /// A definition; blank lines part them.
    fn block(&mut self, block: &str) {
        let passed_over =
            |l: &&str| !l.trim_start().starts_with("--") && !l.starts_with("use ") && l.trim() != "mutual";
        let lines: Vec<&str> = block.lines().filter(passed_over).collect();
        let keywords = ["abbrev", "unfoldable", "pub", "record", "data"];
        let Some(first) = lines.first() else { return };
        let Some(name) = first.split_whitespace().find(|word| !keywords.contains(word)) else { return };
        if first.split_whitespace().any(|word| word == "data") {
            for constructor in lines[1..].iter().filter_map(|l| l.split_once(" : ")) {
                self.constructors.entry(constructor.0.trim().to_string()).or_default().push(name.to_string());
            }
        }
        self.texts.insert(name.to_string(), lines.join("\n"));
    }

    /// The `ensures` of each public function, which stand between its head and its body.
    fn functions(&mut self, text: &str) {
        let mut open: Option<(String, bool)> = None;
        for line in text.lines() {
            if let Some((_, rest)) = line.split_once("fn ").filter(|_| line.starts_with("pub ")) {
                let end = rest.find(|c: char| !c.is_alphanumeric() && c != '_').unwrap_or(rest.len());
                open = Some((rest[..end].to_string(), false));
                self.contracts.insert(rest[..end].to_string(), String::new());
            }
            if line == "{" {
                open = None;
            }
            let Some((name, promised)) = &mut open else { continue };
            *promised |= line.trim_start().starts_with("ensures");
            if *promised {
                let contract = self.contracts.get_mut(name).unwrap();
                *contract += line;
                contract.push('\n');
            }
        }
    }

    /// The definitions of this file that a name is of.
    fn defined(&self, name: &str) -> Vec<String> {
        let of_its_own = self.texts.contains_key(name).then(|| name.to_string());
        of_its_own.into_iter().chain(self.constructors.get(name).into_iter().flatten().cloned()).collect()
    }
}

/// All files, by `crate.Module`, and the names that lead nowhere.
struct Tree {
    sources: BTreeMap<String, Source>,
    lost: BTreeSet<String>,
}

impl Tree {
    /// What the words of a text in this file cite: the file's own definitions first, then what it uses.
    fn cited(&mut self, file: &str, text: &str) -> Vec<Definition> {
        let mut found = Vec::new();
        let source = &self.sources[file];
        for word in words(text) {
            // what stands behind a point is a field, or a name of a file that is used under another name
            let (head, rest) = word.split_once('.').unwrap_or((word, ""));
            let (from, name) = if !source.defined(head).is_empty() {
                (file.to_string(), head.to_string())
            } else if let Some(from) = source.renamed.get(head) {
                (from.clone(), rest.to_string())
            } else if let Some(one) = source.used.get(head) {
                one.clone()
            } else {
                continue;
            };
            let names = self.sources.get(&from).map_or(Vec::new(), |source| source.defined(&name));
            if names.is_empty() && !declared(&from) {
                self.lost.insert(format!("{file} cites {name}, which {from} does not define"));
            }
            found.extend(names.into_iter().map(|name| (from.clone(), name)));
        }
        found
    }

    /// Adds what a text cites, directly or through other definitions; the lines added.
    fn add(&mut self, file: &str, text: &str, seen: &mut BTreeSet<Definition>) -> usize {
        let mut lines = 0;
        let mut open = self.cited(file, text);
        while let Some(one) = open.pop() {
            if seen.insert(one.clone()) {
                let text = self.sources[&one.0].texts[&one.1].clone();
                lines += text.lines().count();
                open.extend(self.cited(&one.0, &text));
            }
        }
        lines
    }

    /// A line for each group, and what is wrong.
    fn report(&mut self, groups: &[(usize, Vec<&str>)]) -> (Vec<String>, Vec<String>) {
        let (mut table, mut faults, mut seen, mut total) = (Vec::new(), Vec::new(), BTreeSet::new(), 0);
        let mut calls = BTreeMap::new();
        for (file, source) in &self.sources {
            for (name, text) in &source.contracts {
                if calls.insert(name.clone(), (file.clone(), text.clone())).is_some() {
                    faults.push(format!("{name}: two public calls of this name"));
                }
            }
        }
        for (limit, names) in groups {
            let mut parts = Vec::new();
            let mut sum = 0;
            for &name in names {
                let Some((file, text)) = calls.remove(name) else {
                    faults.push(format!("{name}: no public call, or in two groups"));
                    continue;
                };
                let lines = self.add(&file, &text, &mut seen);
                if words(&text).is_empty() {
                    faults.push(format!("{name}: it promises nothing"));
                }
                parts.push(format!("{name} {lines}"));
                sum += lines;
            }
            table.push(format!("{sum:>4} lines, at most {limit:>3}: {}", parts.join(", ")));
            if sum > *limit {
                faults.push(format!("{}: {sum} lines, at most {limit}", names.join(", ")));
            }
            total += sum;
        }
        faults.extend(calls.keys().map(|name| format!("{name}: a public call that is in no group")));
        faults.extend(self.lost.iter().cloned());
        if total == 0 {
            faults.push("nothing is cited".to_string());
        }
        table.push(format!("{total:>4} lines in all, of {} definitions", seen.len()));
        (table, faults)
    }
}

/// The files with the ending that stand in a folder.
fn files(folder: &Path, ending: &str) -> Vec<PathBuf> {
    let Ok(entries) = fs::read_dir(folder) else { return Vec::new() };
    let mut found: Vec<PathBuf> = entries.map(|entry| entry.unwrap().path()).collect();
    found.retain(|path| path.extension().is_some_and(|e| e == ending));
    found.sort();
    found
}

fn main() {
    let root = Path::new(env!("CARGO_MANIFEST_DIR")).parent().unwrap().join("crates");
    let mut tree = Tree { sources: BTreeMap::new(), lost: BTreeSet::new() };
    let mut put = |name: &str, path: &Path| {
        let stem = path.file_stem().unwrap().to_str().unwrap();
        tree.sources.insert(format!("{name}.{stem}"), Source::read(&fs::read_to_string(path).unwrap()));
    };
    for folder in fs::read_dir(&root).unwrap().map(|entry| entry.unwrap().path()) {
        let name = folder.file_name().unwrap().to_str().unwrap();
        files(&folder.join("specs"), "antt").iter().for_each(|path| put(name, path));
        if of_calls(name) {
            files(&folder.join("src"), "rt").iter().for_each(|path| put(&format!("{name}/src"), path));
        }
    }
    let arguments: Vec<String> = std::env::args().skip(1).collect();
    let group = |argument: &'static str| {
        let (limit, names) = argument.split_once(':').expect("LIMIT:CALL,CALL..");
        (limit.parse().expect("a number"), names.split(',').collect())
    };
    let groups: Vec<(usize, Vec<&str>)> = arguments.leak().iter().map(|argument| group(argument)).collect();
    let (table, faults) = tree.report(&groups);
    table.iter().chain(&faults).for_each(|line| println!("{line}"));
    if !faults.is_empty() {
        println!("0 passed, 1 failed");
        exit(1);
    }
    println!("1 passed, 0 failed");
}

#[cfg(test)]
mod tests {
    use super::*;

    const NET: &str =
        "-- two lines\nunfoldable pub low : ℕ\nlow = 1\n\npub data Way : Type 0 where\n  up : Way\n  down : Way\n";
    const AHEAD: &str = "unfoldable pub low : ℕ\nlow = 1\n    + 1\n    + 1\n";
    const CALL: &str = "\
ghost use Rattle.std.specs.Prelude.{◌≡◌};
ghost use Rattle.net.specs.Net.{low as least, up};
ghost use Rattle.ahead.specs.Steps.{low};

// low
pub fn first(a: u32) -> u32
    ensures answer { result ≡ record { low = least.low } }
{
    low(a)
}

pub extern \"C\" fn second(
    a: u32,
) -> u32
    ensures { result ≡ (first up).low }
{
    0
}
";

    fn report(call: &str, groups: &[(usize, Vec<&str>)]) -> (Vec<String>, Vec<String>) {
        let files = [("net.Net", NET), ("ahead.Steps", AHEAD), ("calls.lib", call)];
        let sources = files.map(|(name, text)| (name.to_string(), Source::read(text))).into_iter().collect();
        Tree { sources, lost: BTreeSet::new() }.report(groups)
    }

    #[test]
    fn a_name_is_that_of_the_file_used() {
        let (table, faults) = report(CALL, &[(2, vec!["first"]), (3, vec!["second"])]);
        assert_eq!(faults, Vec::<String>::new());
        assert_eq!(table[0], "   2 lines, at most   2: first 2");
        assert_eq!(table[1], "   3 lines, at most   3: second 3");
        let (table, _) =
            report(&CALL.replace("net.specs.Net.{low as", "ahead.specs.Steps.{low as"), &[(2, vec!["first"])]);
        assert_eq!(table[0], "   4 lines, at most   2: first 4");
    }

    #[test]
    fn what_was_cited_before_is_not_charged() {
        let again = CALL.replace("first up", "least up");
        assert_eq!(
            report(&again, &[(9, vec!["first"]), (9, vec!["second"])]).0[1],
            "   3 lines, at most   9: second 3"
        );
        assert_eq!(report(&again, &[(9, vec!["second"]), (9, vec!["first"])]).0[1], "   0 lines, at most   9: first 0");
    }

    #[test]
    fn faults_are_told() {
        let fault = |call: &str, groups: &[(usize, Vec<&str>)]| report(call, groups).1;
        assert_eq!(fault(CALL, &[(4, vec!["first", "second"])]), ["first, second: 5 lines, at most 4"]);
        assert_eq!(fault(CALL, &[(9, vec!["first"])]), ["second: a public call that is in no group"]);
        assert_eq!(fault(CALL, &[(9, vec!["first", "second", "third"])]), ["third: no public call, or in two groups"]);
        let files = ["one.lib", "two.lib"].map(|name| (name.to_string(), Source::read(CALL)));
        let (_, twice) = Tree { sources: files.into(), lost: BTreeSet::new() }.report(&[(9, vec!["first", "second"])]);
        assert_eq!(twice[..2], ["first: two public calls of this name", "second: two public calls of this name"]);
        assert_eq!(
            fault(&CALL.replace("{low as", "{lower as"), &[(9, vec!["first", "second"])]),
            ["calls.lib cites lower, which net.Net does not define"]
        );
        assert_eq!(
            fault(&CALL.replace("    ensures { result ≡ (first up).low }\n", ""), &[(9, vec!["first", "second"])]),
            ["second: it promises nothing"]
        );
    }
}
