//! build, install and uninstall. What install puts below PREFIX, and the folders that it made for it, are listed there in LISTING; nothing
//! of it names PREFIX, so that the whole may be moved.

use crate::answers;
use crate::call::{Call, Done};
use crate::files::{path, write_whole};
use crate::help;
use crate::library::VERSION;
use std::ffi::OsString;
use std::fs;
use std::os::unix::ffi::OsStrExt;
use std::path::{Path, PathBuf};

const LISTING: &str = "share/nesfoal/installed";
const PROGRAM: &str = "target/cli/release/nesfoal";

/// The repository, where this program is the one that was built there.
fn repository() -> Option<PathBuf> {
    let program = std::env::current_exe().ok()?;
    let root = program.ancestors().nth(Path::new(PROGRAM).components().count())?;
    (root.join(PROGRAM) == program && root.join("crates.txt").is_file()).then(|| root.into())
}

/// build: the script at the root of the repository has done it.
pub fn build(call: &mut Call) -> Done {
    match repository() {
        Some(_) => call.tell(answers::built(PROGRAM)),
        None => Err(answers::error("an installed nesfoal does not build: the repository has what it is built from")),
    }
}

/// install PREFIX
pub fn install(call: &mut Call) -> Done {
    let Some(root) = repository() else {
        return Err(answers::error("an installed nesfoal does not install: the repository does"));
    };
    let given = call.words[0].clone();
    if given.is_empty() {
        return Err(answers::error("PREFIX is empty"));
    }
    let prefix = Prefix::new(&given);
    if prefix.path.join(LISTING).is_file() {
        prefix.take_away();
    }
    let mut made = Vec::new();
    let files: [(&str, u32, Content); 9] = [
        ("bin/nesfoal", 0o755, Content::Copy(PROGRAM)),
        ("include/nesfoal.h", 0o644, Content::Copy("include/nesfoal.h")),
        ("lib/libnesfoal.a", 0o644, Content::Copy("target/cli/libnesfoal.a")),
        ("lib/pkgconfig/nesfoal.pc", 0o644, Content::Text(package())),
        ("share/man/man1/nesfoal.1", 0o644, Content::Text(help::manual())),
        ("share/doc/nesfoal/LICENSE", 0o644, Content::Copy("LICENSE")),
        ("share/doc/nesfoal/FORMAT.md", 0o644, Content::Copy("docs/FORMAT.md")),
        ("share/doc/nesfoal/samples/box.c", 0o644, Content::Copy("samples/box.c")),
        ("share/doc/nesfoal/samples/words.c", 0o644, Content::Copy("samples/words.c")),
    ];
    for (name, mode, content) in &files {
        let bytes = match content {
            Content::Copy(from) => fs::read(root.join(from))
                .map_err(|_| answers::error_of(from.as_bytes(), "the file could not be read"))?,
            Content::Text(text) => text.clone().into_bytes(),
        };
        prefix.put(name, *mode, &bytes, &mut made)?;
    }
    prefix.folders(LISTING, &mut made)?;
    let mut listing: Vec<String> = files.iter().map(|(name, ..)| name.to_string()).collect();
    listing.push(LISTING.into());
    let count = listing.len();
    listing.extend(made.into_iter().rev());
    prefix.put(LISTING, 0o644, (listing.join("\n") + "\n").as_bytes(), &mut Vec::new())?;
    call.tell(answers::installed(count, given.as_bytes()))
}

/// uninstall PREFIX
pub fn uninstall(call: &mut Call) -> Done {
    let given = &call.words[0];
    let prefix = Prefix::new(given);
    if !prefix.path.join(LISTING).is_file() {
        return Err(answers::error_of(given.as_bytes(), "no nesfoal is installed there"));
    }
    let answer = answers::removed(prefix.take_away(), given.as_bytes());
    call.tell(answer)
}

enum Content {
    /// A file of the repository.
    Copy(&'static str),
    Text(String),
}

struct Prefix {
    path: PathBuf,
}

impl Prefix {
    fn new(given: &OsString) -> Prefix {
        let bytes = given.as_bytes();
        Prefix { path: path(bytes.strip_suffix(b"/").unwrap_or(bytes)).into() }
    }

    /// Makes the folders that a file stands in, and lists those below the prefix that were made.
    fn folders(&self, name: &str, made: &mut Vec<String>) -> Done {
        let no_folder =
            |folder: &Path| answers::error_of(folder.as_os_str().as_bytes(), "the folder could not be made");
        fs::create_dir_all(&self.path).map_err(|_| no_folder(&self.path))?;
        for (end, _) in name.match_indices('/') {
            let folder = self.path.join(&name[..end]);
            if !folder.is_dir() {
                fs::create_dir(&folder).map_err(|_| no_folder(&folder))?;
                made.push(format!("{}/", &name[..end]));
            }
        }
        Ok(())
    }

    fn put(&self, name: &str, mode: u32, bytes: &[u8], made: &mut Vec<String>) -> Done {
        self.folders(name, made)?;
        let to = self.path.join(name);
        write_whole(&to, bytes, Some(mode))
            .map_err(|_| answers::error_of(to.as_os_str().as_bytes(), "the file could not be written"))
    }

    /// Removes what the listing has, folders where nothing else is in them, and counts the files.
    fn take_away(&self) -> usize {
        let listing = fs::read_to_string(self.path.join(LISTING)).unwrap_or_default();
        let within =
            |name: &&str| !name.is_empty() && !name.starts_with('/') && !name.split('/').any(|part| part == "..");
        let mut removed = 0;
        for name in listing.lines().filter(within) {
            let there = self.path.join(name);
            if name.ends_with('/') {
                let _ = fs::remove_dir(there);
            } else if fs::remove_file(there).is_ok() {
                removed += 1;
            }
        }
        removed
    }
}

/// The pkg-config file.
fn package() -> String {
    format!(
        "prefix=${{pcfiledir}}/../..\nincludedir=${{prefix}}/include\nlibdir=${{prefix}}/lib\n\nName: nesfoal\n\
         Description: cuts, checks and replays place/transition nets\nVersion: {VERSION}\n\
         Cflags: -I${{includedir}}\nLibs: -L${{libdir}} -lnesfoal\n"
    )
}
