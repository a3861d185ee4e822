//! How far a command with many parts is: a bar on standard error, where that is a terminal. It stands on the last line, and goes before
//! each answer and at the end.

use crate::answers::counted;
use std::io::{self, IsTerminal, Write};

pub struct Progress {
    parts: usize,
    /// What a part is: `place`.
    what: &'static str,
    watched: bool,
    is_shown: bool,
}

impl Progress {
    pub fn new(parts: usize, what: &'static str) -> Progress {
        Progress { parts, what, watched: io::stderr().is_terminal(), is_shown: false }
    }

    /// So many parts are done.
    pub fn show(&mut self, done: usize) {
        if self.watched {
            let _ = write!(io::stderr(), "\r{}", bar(done, self.parts, self.what));
            self.is_shown = true;
        }
    }

    /// The line is empty again.
    pub fn hide(&mut self) {
        if std::mem::take(&mut self.is_shown) {
            let _ = write!(io::stderr(), "\r\x1b[K");
        }
    }
}

impl Drop for Progress {
    fn drop(&mut self) {
        self.hide();
    }
}

const WIDTH: usize = 30;

/// `[==========          ] 1 of 3 places`.
fn bar(done: usize, parts: usize, what: &str) -> String {
    let filled = WIDTH * done / parts.max(1);
    format!("[{:<WIDTH$}] {done} of {}", "=".repeat(filled), counted(parts as u64, what))
}

#[cfg(test)]
mod tests {
    use super::*;

    #[test]
    fn bars() {
        assert_eq!(bar(0, 3, "place"), format!("[{}] 0 of 3 places", " ".repeat(30)));
        assert_eq!(bar(1, 3, "place"), format!("[{}{}] 1 of 3 places", "=".repeat(10), " ".repeat(20)));
        assert_eq!(bar(1024, 1024, "slice"), format!("[{}] 1024 of 1024 slices", "=".repeat(30)));
        assert_eq!(bar(0, 1, "slice"), format!("[{}] 0 of 1 slice", " ".repeat(30)));
    }
}
