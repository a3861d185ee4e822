//! One command under way: its words, and what it says.

use crate::answers::{self, quote, Answer, Status};
use crate::files::{self, File, Input, Named, Out};
use crate::numbers::{self, Criterion, Entry, Kind, CRITERION, LIST, MARKING};
use crate::verbs::Verb;
use crate::words::{brief, Command};
use std::ffi::{OsStr, OsString};
use std::io::{self, ErrorKind, Write};
use std::ops::Range;
use std::os::unix::ffi::OsStrExt;

/// A verb tells its answers as it goes; the last one, where it is bad, it hands back.
pub type Done = Result<(), Answer>;

pub struct Call<'a> {
    pub verb: &'static Verb,
    /// The words after the verb.
    pub words: Vec<OsString>,
    /// How many of them stand before --.
    pub split: Option<usize>,
    pub force: bool,
    /// Files that are not on the disk: the demo's.
    pub memory: Vec<File>,
    input: Input,
    pub out: &'a mut Output,
}

impl<'a> Call<'a> {
    pub fn new(verb: &'static Verb, command: Command, out: &'a mut Output) -> Call<'a> {
        let Command { words, split, force, .. } = command;
        Call { verb, words, split, force, memory: Vec::new(), input: Input::default(), out }
    }

    /// The file that word i names.
    pub fn file(&mut self, i: usize) -> Result<File, Answer> {
        let file = match self.memory.iter().find(|file| file.name == self.words[i].as_bytes()) {
            Some(file) => file.clone(),
            None => files::net(&self.words[i], &mut self.input)?,
        };
        self.out.read.push((file.name.clone(), file.bytes.len()));
        Ok(file)
    }

    /// The place that word i is.
    pub fn place(&self, i: usize) -> Result<u32, Answer> {
        numbers::numbered(&self.words[i], b'p')
    }

    /// The transition that word i is.
    pub fn transition(&self, i: usize) -> Result<u32, Answer> {
        numbers::numbered(&self.words[i], b't')
    }

    /// The list that the words of a range are.
    pub fn list<T: Entry>(&mut self, range: Range<usize>, kind: &Kind<T>) -> Result<Vec<T>, Answer> {
        numbers::list(&self.words[range], kind, &mut self.input)
    }

    /// The list that the words from i on are.
    pub fn list_from<T: Entry>(&mut self, i: usize, kind: &Kind<T>) -> Result<Vec<T>, Answer> {
        self.list(i..self.words.len(), kind)
    }

    /// The criterion that the words of a range are.
    pub fn criterion(&mut self, range: Range<usize>) -> Result<Criterion, Answer> {
        let criterion = self.list(range, &CRITERION).map(Criterion::new)?;
        self.out.criterion = Some(criterion.given.clone());
        Ok(criterion)
    }

    /// The list that the words of a range are, and the marking after `from`, where that stands among them.
    pub fn list_and_start(&mut self, range: Range<usize>) -> Result<(Vec<u16>, Option<Vec<u64>>), Answer> {
        let (list, start) = self.parted_by_from(range);
        Ok((self.list(list, &LIST)?, start.map(|start| self.list(start, &MARKING)).transpose()?))
    }

    /// The same with a criterion.
    pub fn criterion_and_start(&mut self, range: Range<usize>) -> Result<(Criterion, Option<Vec<u64>>), Answer> {
        let (criterion, start) = self.parted_by_from(range);
        Ok((self.criterion(criterion)?, start.map(|start| self.list(start, &MARKING)).transpose()?))
    }

    fn parted_by_from(&self, range: Range<usize>) -> (Range<usize>, Option<Range<usize>>) {
        match self.find(range.start, "from").filter(|&from| from < range.end) {
            Some(from) => (range.start..from, Some(from + 1..range.end)),
            None => (range, None),
        }
    }

    /// Where a word stands that parts one list from the next: the first such word from i on.
    pub fn find(&self, i: usize, word: &str) -> Option<usize> {
        (i..self.words.len()).find(|&i| self.words[i] == word)
    }

    /// OUT, word 1, is no number and no list: else it was left out.
    pub fn has_out(&mut self) -> Done {
        let bytes = self.words[1].as_bytes();
        let digits = bytes.strip_prefix(b"p").unwrap_or(bytes);
        let is_number = digits.first().is_some_and(u8::is_ascii_digit)
            && bytes.iter().all(|b| b.is_ascii_digit() || matches!(b, b',' | b'p'));
        if is_number || (bytes.starts_with(b"@") && !bytes.contains(&b'/')) {
            let name = brief(bytes);
            let why = format!("OUT is {name}: is it left out? A file of that name is ./{name}");
            self.tell(answers::error(why))?;
            return Err(self.misused());
        }
        self.out.all_to_error = bytes == b"-";
        Ok(())
    }

    /// Writes OUT, where it may be written: it is neither word 0, `input`, nor a list of the command. The name that answers have.
    pub fn write(&self, what: &'static str, bytes: &[u8], input: &'static str) -> Result<&[u8], Answer> {
        let lists = self.words[2..].iter().filter_map(|word| numbers::file_of(word)).map(|list| ("list", list));
        let inputs: Vec<Named> = std::iter::once((input, self.words[0].as_os_str())).chain(lists).collect();
        Out::new(&self.words[1], what, &inputs, self.force)?.write(bytes)?;
        Ok(self.words[1].as_bytes())
    }

    pub fn tell(&mut self, answer: Answer) -> Done {
        self.out.tell(&answer);
        Ok(())
    }

    /// How the verb is used.
    pub fn misused(&self) -> Answer {
        self.verb.usage()
    }
}

/// Where answers go: verdicts and lists to standard output, what is refused to standard error; with --json all to standard output.
/// Where a slice goes to standard output, all answers go to standard error.
pub struct Output {
    pub json: bool,
    verb: Vec<u8>,
    /// The plans and slices that were read, by the names given, with their lengths.
    pub read: Vec<(Vec<u8>, usize)>,
    /// The criterion as it was given, of a verb that has one.
    pub criterion: Option<Vec<u16>>,
    pub all_to_error: bool,
    /// The worst of the answers.
    pub status: Status,
    out: Vec<u8>,
    error: Vec<u8>,
}

impl Output {
    pub fn new(json: bool, verb: &OsStr) -> Output {
        let verb = verb.as_bytes().into();
        let (read, out, error) = (Vec::new(), Vec::new(), Vec::new());
        Output { json, verb, read, criterion: None, all_to_error: false, status: Status::Good, out, error }
    }

    pub fn tell(&mut self, answer: &Answer) {
        let line = if self.json { self.object(answer, None) } else { answer.words() };
        self.put(line, answer.status == Status::Refused && !self.json);
        self.status = self.status.max(answer.status);
    }

    /// The answer about one slice of many, on standard output whatever it is.
    pub fn tell_of(&mut self, slice: &[u8], answer: &Answer) {
        let line = if self.json { self.object(answer, Some(slice)) } else { [slice, b": ", &answer.words()].concat() };
        self.put(line, false);
        self.status = self.status.max(answer.status);
    }

    /// A remark beside the answer, in words.
    pub fn note(&mut self, note: &[u8]) {
        self.put([b"note: ", note].concat(), true);
    }

    fn put(&mut self, line: Vec<u8>, is_error: bool) {
        let to = if is_error || self.all_to_error { &mut self.error } else { &mut self.out };
        to.extend_from_slice(&line);
        to.push(b'\n');
    }

    fn object(&self, answer: &Answer, slice: Option<&[u8]>) -> Vec<u8> {
        let mut out = b"{\"verb\":".to_vec();
        quote(&self.verb, &mut out);
        if let Some(slice) = slice {
            out.extend_from_slice(b",\"slice\":");
            quote(slice, &mut out);
        }
        out.push(b',');
        answer.json(&mut out);
        answers::evidence(&self.read, self.criterion.as_deref(), &mut out);
        out.push(b'}');
        out
    }

    /// Writes what was told. Ends the program where nobody reads it, and where it cannot be written.
    pub fn flush(&mut self) {
        let written = files::write_to_output(&std::mem::take(&mut self.out));
        let _ = io::stderr().write_all(&std::mem::take(&mut self.error));
        if let Err(e) = written {
            if e.kind() == ErrorKind::BrokenPipe {
                std::process::exit(141); // as a shell tells of it
            }
            eprintln!("error: the answer could not be written");
            std::process::exit(2);
        }
    }
}
