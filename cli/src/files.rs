//! Files: read whole, at most a byte more than the limit; written whole or not at all.

use crate::answers::{self, Answer};
use crate::library::{undisturbed, was_closed, MAX_FILE_BYTES};
use crate::words::brief;
use std::ffi::OsStr;
use std::fs::{self, Metadata, OpenOptions, Permissions};
use std::io::{self, IsTerminal, Read, Seek, SeekFrom, Write};
use std::os::fd::AsFd;
use std::os::unix::ffi::OsStrExt;
use std::os::unix::fs::{MetadataExt, OpenOptionsExt, PermissionsExt};
use std::path::{Path, PathBuf};

/// A plan or a slice, by the name that the user gave it.
#[derive(Clone)]
pub struct File {
    pub name: Vec<u8>,
    pub bytes: Vec<u8>,
}

/// Standard input, which can be read once.
#[derive(Default)]
pub struct Input {
    taken: bool,
}

pub fn path(name: &[u8]) -> &Path {
    Path::new(OsStr::from_bytes(name))
}

/// A plan or a slice; one byte more than the library takes, so that it sees that there are too many.
pub fn net(name: &OsStr, input: &mut Input) -> Result<File, Answer> {
    let name = name.as_bytes();
    Ok(File { name: name.into(), bytes: read(name, MAX_FILE_BYTES, input)? })
}

/// Up to `limit` + 1 bytes of a file, or of standard input where its name is `-`.
pub fn read(name: &[u8], limit: usize, input: &mut Input) -> Result<Vec<u8>, Answer> {
    let mut bytes = Vec::new();
    let most = limit as u64 + 1;
    if name == b"-" {
        if std::mem::replace(&mut input.taken, true) {
            return Err(answers::error("-: standard input can be read once"));
        }
        if was_closed(0) {
            return Err(failed(name, &io::Error::from_raw_os_error(NOT_OPEN)));
        }
        io::stdin().lock().take(most).read_to_end(&mut bytes)
    } else {
        fs::File::open(path(name)).and_then(|file| file.take(most).read_to_end(&mut bytes))
    }
    .map_err(|e| failed(name, &e))?;
    Ok(bytes)
}

/// Why the system did not do it.
pub fn failed(name: &[u8], error: &io::Error) -> Answer {
    if name.len() >= PATH_MAX {
        return answers::error_of(brief(name).as_bytes(), "the name is too long");
    }
    answers::error_of(name, reason(error))
}

const PATH_MAX: usize = 4096;

// errors of the system, by Linux's numbers
const NOT_OPEN: i32 = 9;
const TOO_LONG: i32 = 36;

fn reason(error: &io::Error) -> String {
    let Some(number) = error.raw_os_error() else {
        return error.to_string();
    };
    match number {
        1 => "not permitted",
        2 => "no such file or folder",
        4 => "interrupted",
        5 => "the device failed to read or write (5)",
        6 | 19 => "no such device",
        NOT_OPEN => "it is not open",
        11 => "it is not ready",
        12 => "no memory",
        13 => "no permission",
        16 => "it is in use",
        17 => "it exists",
        18 => "it is on another disk",
        20 => "a part of the path is no folder",
        21 => "it is a folder",
        22 => "no such name",
        23 | 24 => "too many files are open",
        26 => "it is a program that runs",
        27 => "too large",
        28 | 122 => "the disk is full",
        30 => "the disk is read-only",
        31 => "too many links",
        32 => "nobody reads it",
        TOO_LONG => "the name is too long",
        40 => "links that lead in a circle",
        _ => return format!("system error {number}"),
    }
    .into()
}

/// What an input is, and the word that names it.
pub type Named<'a> = (&'static str, &'a OsStr);

const NO_SLICE: &str = "it is no slice, and only --force replaces it";

/// Writes to standard output at once: what failed is not tried again.
pub fn write_to_output(bytes: &[u8]) -> io::Result<()> {
    if was_closed(1) && !bytes.is_empty() {
        return Err(io::Error::from_raw_os_error(NOT_OPEN));
    }
    fs::File::from(io::stdout().as_fd().try_clone_to_owned()?).write_all(bytes)
}

/// Where a slice or a plan goes.
pub enum Out {
    /// Standard output; and which of both it is.
    Standard(&'static str),
    /// A file that may be written, and its mode where it is there already. `to` is its name without links.
    File { name: Vec<u8>, to: PathBuf, mode: Option<u32> },
}

impl Out {
    /// OUT of a command, which is none of its inputs.
    pub fn new(name: &OsStr, what: &'static str, inputs: &[Named], force: bool) -> Result<Out, Answer> {
        let name = name.as_bytes();
        if name == b"-" {
            if io::stdout().is_terminal() && !force {
                return Err(answers::error(format!("-: standard output is a terminal, and a {what} is no text")));
            }
            return Ok(Out::Standard(what));
        }
        if name.len() >= PATH_MAX {
            return Err(failed(name, &io::Error::from_raw_os_error(TOO_LONG)));
        }
        let mode = replaceable(name, inputs, force).map_err(|why| answers::error_of(name, why))?;
        let to = path(name);
        let is_link = fs::symlink_metadata(to).is_ok_and(|there| there.is_symlink());
        let to = if is_link { fs::canonicalize(to).map_err(|e| failed(name, &e))? } else { to.into() };
        Ok(Out::File { name: name.into(), to, mode })
    }

    /// The name that answers have.
    pub fn name(&self) -> &[u8] {
        match self {
            Out::Standard(_) => b"-",
            Out::File { name, .. } => name,
        }
    }

    pub fn write(&self, bytes: &[u8]) -> Result<(), Answer> {
        match self {
            Out::Standard(what) => {
                write_to_output(bytes).map_err(|_| answers::error(format!("-: the {what} could not be written")))
            }
            Out::File { name, to, mode } => write_whole(to, bytes, *mode).map_err(|e| failed(name, &e)),
        }
    }
}

/// May the file be written, or replaced? The mode of the one that is there, or why not.
fn replaceable(name: &[u8], inputs: &[Named], force: bool) -> Result<Option<u32>, String> {
    let out = path(name);
    let last = name.rsplit(|b| *b == b'/').next().unwrap_or(name);
    let is_link = fs::symlink_metadata(out).is_ok_and(|there| there.is_symlink());
    let there = fs::metadata(out);
    let input = there.as_ref().ok().and_then(|there| inputs.iter().find(|(_, input)| same(there, input)));
    let why = match (&there, input) {
        _ if name.is_empty() => "no such file or folder",
        (Ok(there), _) if there.is_dir() => "it is a folder",
        (Err(_), _) if is_link => "it is a link that leads to no file",
        _ if last.is_empty() => "it ends in a slash, as a folder does",
        _ if last.len() > 255 => "the name is too long",
        (Err(_), _) => return Ok(None),
        (Ok(there), _) if !there.is_file() => "it is no plain file",
        (_, Some((what, _))) => return Err(format!("it is the {what}")),
        (Ok(there), _) if there.mode() & 0o222 == 0 || OpenOptions::new().write(true).open(out).is_err() => {
            "it may not be written"
        }
        _ if !force && !is_slice(out).map_err(|e| reason(&e))? => NO_SLICE,
        (Ok(there), _) => return Ok(Some(there.mode() & 0o7777)),
    };
    Err(why.into())
}

/// Is it the file that an input names? Standard input may be a file too.
fn same(there: &Metadata, input: &OsStr) -> bool {
    let input = if input == "-" { OsStr::new("/dev/stdin") } else { input };
    fs::metadata(input).is_ok_and(|other| (there.dev(), there.ino()) == (other.dev(), other.ino()))
}

/// Is a file empty, or does it end as a slice does: the kind 1, an edition and the letters?
fn is_slice(out: &Path) -> io::Result<bool> {
    let mut file = fs::File::open(out)?;
    let length = file.metadata()?.len();
    if length < 6 {
        return Ok(length == 0);
    }
    file.seek(SeekFrom::End(-6))?;
    let mut last = [0; 6];
    file.read_exact(&mut last)?;
    Ok(last[0] == 1 && last[2..] == *b"BELL")
}

/// Writes a file beside the place, which gets the place's name once it is whole and kept by the disk; no signal comes between. A new
/// file has the mode that the umask leaves; in place of another it has that one's, where the file system has modes.
pub fn write_whole(to: &Path, bytes: &[u8], mode: Option<u32>) -> io::Result<()> {
    undisturbed(|| {
        let (beside, mut file) = new_beside(to, if mode.is_some() { 0o600 } else { 0o666 })?;
        let written = (|| {
            if let Some(mode) = mode {
                let _ = file.set_permissions(Permissions::from_mode(mode));
            }
            file.write_all(bytes)?;
            file.sync_all()?;
            fs::rename(&beside, to)
        })();
        if written.is_err() {
            let _ = fs::remove_file(&beside);
        }
        written
    })
}

/// A new file `.nesfoal-PROCESS-K` in the same folder.
fn new_beside(to: &Path, mode: u32) -> io::Result<(PathBuf, fs::File)> {
    let mut k = 0;
    loop {
        let beside = to.with_file_name(format!(".nesfoal-{}-{k}", std::process::id()));
        match OpenOptions::new().write(true).create_new(true).mode(mode).open(&beside) {
            Err(e) if e.kind() == io::ErrorKind::AlreadyExists && k < 9 => k += 1,
            made => return made.map(|file| (beside, file)),
        }
    }
}

#[cfg(test)]
mod tests {
    use super::*;

    /// A folder of its own, which goes.
    struct Room(PathBuf);

    impl Room {
        fn new(name: &str) -> Room {
            let folder = std::env::temp_dir().join(format!("nesfoal-cli-{name}-{}", std::process::id()));
            fs::create_dir(&folder).unwrap();
            Room(folder)
        }

        fn file(&self, name: &str, bytes: &[u8], mode: u32) -> PathBuf {
            let file = self.0.join(name);
            fs::write(&file, bytes).unwrap();
            fs::set_permissions(&file, Permissions::from_mode(mode)).unwrap();
            file
        }

        fn may(&self, name: &str, inputs: &[(&'static str, &Path)], force: bool) -> Result<Option<u32>, String> {
            let inputs: Vec<Named> = inputs.iter().map(|(what, p)| (*what, p.as_os_str())).collect();
            replaceable(self.0.join(name).as_os_str().as_bytes(), &inputs, force)
        }
    }

    impl Drop for Room {
        fn drop(&mut self) {
            let _ = fs::remove_dir_all(&self.0);
        }
    }

    #[test]
    fn what_may_be_replaced() {
        let room = Room::new("replace");
        let slice = room.file("slice", b"..\x01\x02BELL", 0o640);
        room.file("empty", b"", 0o600);
        let plan = room.file("plan", b"..\x00\x01BELL", 0o644);
        room.file("short", b"BELL", 0o644);
        room.file("locked", b"", 0o444);
        fs::create_dir(room.0.join("folder")).unwrap();
        std::os::unix::fs::symlink(&slice, room.0.join("link")).unwrap();
        std::os::unix::fs::symlink(room.0.join("folder"), room.0.join("door")).unwrap();
        std::os::unix::fs::symlink("circle", room.0.join("circle")).unwrap();
        std::os::unix::fs::symlink(&plan, room.0.join("planlink")).unwrap();
        let no = |why: &str| Err(why.to_string());
        let long = "a".repeat(256);
        for (name, plain, forced) in [
            ("slice", Ok(Some(0o640)), Ok(Some(0o640))),
            ("empty", Ok(Some(0o600)), Ok(Some(0o600))),
            ("new", Ok(None), Ok(None)),
            ("short", no(NO_SLICE), Ok(Some(0o644))),
            ("plan", no("it is the plan"), no("it is the plan")),
            ("locked", no("it may not be written"), no("it may not be written")),
            ("folder", no("it is a folder"), no("it is a folder")),
            ("door", no("it is a folder"), no("it is a folder")),
            ("link", Ok(Some(0o640)), Ok(Some(0o640))),
            ("planlink", no("it is the plan"), no("it is the plan")),
            ("circle", no("it is a link that leads to no file"), no("it is a link that leads to no file")),
            ("new/", no("it ends in a slash, as a folder does"), no("it ends in a slash, as a folder does")),
            (&long, no("the name is too long"), no("the name is too long")),
        ] {
            assert_eq!(room.may(name, &[("plan", &plan)], false), plain, "{name}");
            assert_eq!(room.may(name, &[("plan", &plan)], true), forced, "{name}, by force");
        }
        let inputs: [(_, &Path); 3] = [("plan", &plan), ("list", Path::new("-")), ("list", &slice)];
        assert_eq!(room.may("slice", &inputs, true), no("it is the list"));
        assert_eq!(replaceable(b"/dev/null", &[], true), no("it is no plain file"));
    }

    #[test]
    fn whole_or_not_at_all() {
        let room = Room::new("whole");
        let old = room.file("old", b"old", 0o600);
        write_whole(&old, b"new", Some(0o751)).unwrap();
        assert_eq!(fs::read(&old).unwrap(), b"new");
        assert_eq!(fs::metadata(&old).unwrap().mode() & 0o7777, 0o751);
        let folder = room.0.join("folder");
        fs::create_dir(&folder).unwrap();
        assert!(write_whole(&folder, b"new", None).is_err());
        assert!(write_whole(&room.0.join("missing/new"), b"new", None).is_err());
        assert_eq!(fs::read_dir(&room.0).unwrap().count(), 2, "nothing is left beside");
    }
}
