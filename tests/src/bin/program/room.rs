//! A folder in which the program is run, one case after the other.

use crate::verbs::{Asked, Due, OUT};
use std::collections::BTreeMap;
use std::fs;
use std::path::{Path, PathBuf};
use std::process::{Command, Output, Stdio};

pub struct Room<'a> {
    program: &'a Path,
    folder: PathBuf,
}

/// The files of a folder, by name.
type Files = BTreeMap<String, Vec<u8>>;

/// What a file of the name OUT holds before the program runs, if there is one: it ends as a slice does, and is replaced.
const OLD: &[u8] = b"what stood there before\x01\x01BELL";

impl Room<'_> {
    pub fn new(program: &Path, folder: PathBuf) -> Room<'_> {
        fs::create_dir(&folder).expect("a room");
        Room { program, folder }
    }

    /// Runs the program in the room with the case's files, and with an old file OUT where wanted.
    pub fn run(&self, asked: &Asked, old: bool) -> Ran {
        let mut before: Files = asked.files.iter().map(|(name, bytes)| (name.to_string(), bytes.clone())).collect();
        if old {
            before.insert(OUT.into(), OLD.to_vec());
        }
        for (name, bytes) in &before {
            fs::write(self.folder.join(name), bytes).expect("a file is written");
        }
        let run = Command::new(self.program)
            .args(&asked.words)
            .current_dir(&self.folder)
            .stdin(Stdio::null())
            .output()
            .expect("the program is started");
        Ran { run, before, after: self.empty() }
    }

    /// Takes all files out of the room.
    fn empty(&self) -> Files {
        let mut files = Files::new();
        for entry in fs::read_dir(&self.folder).expect("the room") {
            let entry = entry.expect("a file of the room");
            files.insert(
                entry.file_name().into_string().expect("a name"),
                fs::read(entry.path()).expect("a file is read"),
            );
            fs::remove_file(entry.path()).expect("a file goes");
        }
        files
    }
}

/// What the program did.
pub struct Ran {
    run: Output,
    before: Files,
    after: Files,
}

impl Ran {
    /// What is not as due, if anything.
    pub fn fault(&self, due: &Due) -> Option<String> {
        let (out, error) = (String::from_utf8_lossy(&self.run.stdout), String::from_utf8_lossy(&self.run.stderr));
        let (status, said, silent) = match due.says.split(' ').next() {
            Some("refused" | "error:") => (2, &error, &out),
            Some("stuck" | "full" | "rule" | "sometimes" | "never") => (1, &out, &error),
            _ => (0, &out, &error),
        };
        let fault = |text: &str| Some(format!("  says: {out}{error}  due:  {}\n  {text}\n", due.says));
        if self.run.status.code() != Some(status) || !silent.is_empty() {
            return fault(&format!("{}, and {status} is due, with one stream", self.run.status));
        }
        if !due.is_said(&said) {
            return fault("it says something else");
        }
        let mut files = self.before.clone();
        if let Some(bytes) = &due.written {
            files.insert(OUT.into(), bytes.clone());
        }
        if self.after != files {
            let differ = |name: &&String| self.after.get(*name) != files.get(*name);
            let names: Vec<&String> = self.after.keys().chain(files.keys()).filter(differ).collect();
            return fault(&format!("files that are not as due: {names:?}"));
        }
        None
    }
}
