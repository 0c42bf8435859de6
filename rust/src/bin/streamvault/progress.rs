//! How far a sum has come, told on standard error where that is a terminal.

use std::io::{self, Write};
use std::time::{Duration, Instant};

/// How often it is told.
const EVERY: Duration = Duration::from_millis(200);

/// A count of files that tells itself now and then.
pub struct Progress {
    shown: bool,
    files: u64,
    last: Instant,
    told: bool,
}

impl Progress {
    /// Nothing is told unless it is to be shown.
    pub fn new(shown: bool) -> Progress {
        Progress { shown, files: 0, last: Instant::now(), told: false }
    }

    /// One more file.
    pub fn file(&mut self) {
        self.files += 1;
        if self.shown && self.last.elapsed() >= EVERY {
            let _ = write!(io::stderr(), "\r{} files", self.files);
            self.last = Instant::now();
            self.told = true;
        }
    }
}

/// At the end the line is cleared, if there is one.
impl Drop for Progress {
    fn drop(&mut self) {
        if self.told {
            let _ = write!(io::stderr(), "\r\x1b[K");
        }
    }
}
