//! Putting files back that a raise changed which did not end.

use crate::journal::{self, Found};
use crate::raise::Failure;
use crate::show;
use crate::song::Song;
use std::path::Path;

/// Puts files back one after another, and counts what came of them.
#[derive(Default)]
pub struct Recoverer {
    put_back: u64,
    /// Files that were as they should be.
    good: u64,
    failed: u64,
}

impl Recoverer {
    /// Puts a file back, and gives the line that says what came of it.
    pub fn file(&mut self, path: &Path) -> String {
        let (count, what) = match put_back(path) {
            Ok(Found::Nothing) => (&mut self.good, "no journal, nothing to put back".to_string()),
            Ok(Found::Incomplete) => {
                (&mut self.good, "an incomplete journal was removed; nothing to put back".to_string())
            }
            Ok(Found::Whole(_)) => {
                (&mut self.put_back, "put back as it was before a raise that did not end".to_string())
            }
            Err(Failure::Unwritten(error)) => (&mut self.failed, format!("not put back: {error}")),
            Err(failure) => (&mut self.failed, failure.to_string()),
        };
        *count += 1;
        format!("{}: {what}", show::path(path))
    }

    /// The line that counts.
    pub fn counts(&self) -> String {
        let plural = if self.put_back == 1 { "" } else { "s" };
        let line = format!("{} file{plural} put back, {} with nothing to put back", self.put_back, self.good);
        match self.failed {
            0 => line,
            failed => format!("{line}, {failed} not read or written"),
        }
    }

    /// Whether a file could not be read or written.
    pub fn any_failed(&self) -> bool {
        self.failed > 0
    }
}

/// Puts a file back, and gives what its journal was. A file without one is not opened.
fn put_back(path: &Path) -> Result<Found, Failure> {
    if !journal::stands(path).map_err(Failure::Unreadable)? {
        return Ok(Found::Nothing);
    }
    let song = Song::open(path, true)?;
    let left = song.left().map_err(Failure::Unwritten)?;
    song.settle(&left).map_err(Failure::Unwritten)?;
    Ok(left)
}
