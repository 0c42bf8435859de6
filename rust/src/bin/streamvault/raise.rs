//! Raising a counter in files, in place.
//!
//! Of a file only the tag at its front is read. Where the counter has bytes enough, only these are written, by one write;
//! else its frame is replaced, and the bytes that changed are written with a journal. What is wrong with a file is said, and
//! the other files are raised nevertheless.

use crate::files::Identity;
use crate::journal::Found;
use crate::show;
use crate::song::Song;
use std::collections::hash_map::{Entry, HashMap};
use std::fmt;
use std::io;
use std::path::{Path, PathBuf};
use streamvault::Refusal;

/// What is asked of each file.
#[derive(Debug, PartialEq, Eq)]
pub struct Order {
    /// Whose counter is to be raised.
    pub user: Vec<u8>,
    /// By how much.
    pub amount: u64,
    /// Whether the counter is to keep its bytes, and the frame its size.
    pub keep_size: bool,
    /// Whether nothing is to be changed.
    pub dry_run: bool,
}

/// What came of a raise.
#[derive(Debug, PartialEq, Eq)]
struct Raised {
    counter: u64,
    /// Whether that took a new frame, so that other frames may have moved.
    new_frame: bool,
}

/// Why a file was not raised.
#[derive(Debug)]
pub enum Failure {
    /// Its tag or the raise was refused.
    Refused(Refusal),
    /// It is a file that was named before, by this name.
    Again(PathBuf),
    /// It cannot be read.
    Unreadable(io::Error),
    /// It cannot be opened for writing, or was not written.
    Unwritten(io::Error),
    /// It was written, but the disk may not have taken it.
    Unsure(io::Error),
}

impl fmt::Display for Failure {
    fn fmt(&self, f: &mut fmt::Formatter<'_>) -> fmt::Result {
        match self {
            Failure::Refused(refusal) => write!(f, "{refusal}"),
            Failure::Again(before) => write!(f, "the same file as {}, taken once", show::path(before)),
            Failure::Unreadable(error) => write!(f, "not readable: {error}"),
            Failure::Unwritten(error) => write!(f, "not raised: {error}"),
            Failure::Unsure(error) => write!(f, "raised, but the disk may not have taken it: {error}"),
        }
    }
}

/// Raises files one after another, and counts what came of them.
pub struct Raiser<'a> {
    order: &'a Order,
    /// The files that were opened, each with the name that it was opened by.
    opened: HashMap<Identity, PathBuf>,
    raised: u64,
    refused: u64,
    again: u64,
    failed: u64,
}

impl<'a> Raiser<'a> {
    /// Nothing is raised yet.
    pub fn new(order: &'a Order) -> Raiser<'a> {
        Raiser { order, opened: HashMap::new(), raised: 0, refused: 0, again: 0, failed: 0 }
    }

    /// Raises the counter in a file, and gives the line that says what came of it.
    pub fn file(&mut self, path: &Path) -> String {
        let mut note = String::new();
        let done = self.raise(path, &mut note);
        let count = match done {
            Ok(_) => &mut self.raised,
            Err(Failure::Refused(_)) => &mut self.refused,
            Err(Failure::Again(_)) => &mut self.again,
            Err(Failure::Unreadable(_) | Failure::Unwritten(_) | Failure::Unsure(_)) => &mut self.failed,
        };
        *count += 1;
        let what = done.map_or_else(|failure| failure.to_string(), |raised| self.told(&raised));
        format!("{}: {note}{what}", show::path(path))
    }

    /// What is said of a counter that is raised.
    fn told(&self, raised: &Raised) -> String {
        let Order { amount, dry_run, .. } = *self.order;
        let would = if dry_run { "would be " } else { "" };
        let way = if raised.new_frame { ", in a new frame" } else { "" };
        format!("{would}raised by {amount} from {} to {}{way}", raised.counter - amount, raised.counter)
    }

    /// The line that counts: what there is nothing of is left out, but for the refused.
    pub fn counts(&self) -> String {
        let plural = if self.raised == 1 { "" } else { "s" };
        let would = if self.order.dry_run { "would be " } else { "" };
        let mut line = format!("{} file{plural} {would}raised, {} refused", self.raised, self.refused);
        for (count, what) in [(self.failed, "not read or written"), (self.again, "named again")] {
            if count > 0 {
                line += &format!(", {count} {what}");
            }
        }
        line + if self.order.dry_run { "; nothing was changed" } else { "" }
    }

    /// Whether every file that was named was raised.
    pub fn all_raised(&self) -> bool {
        self.refused + self.again + self.failed == 0
    }

    /// Whether a file could not be read or written.
    pub fn any_failed(&self) -> bool {
        self.failed > 0
    }

    /// The new counter in a file. A note says what an earlier run had left.
    fn raise(&mut self, path: &Path, note: &mut String) -> Result<Raised, Failure> {
        let song = Song::open(path, !self.order.dry_run)?;
        self.first_time(&song, path)?;
        let before = self.settled(&song, note)?;
        let mut after = before.clone();
        let raised = self.order.raise(&mut after).map_err(Failure::Refused)?;
        match (self.order.dry_run, raised.new_frame) {
            (true, _) => {}
            (false, true) => song.put_moved(&before, &after)?,
            (false, false) => song.put(&before, &after)?,
        }
        Ok(raised)
    }

    /// That a file was not opened before.
    fn first_time(&mut self, song: &Song<'_>, path: &Path) -> Result<(), Failure> {
        match self.opened.entry(song.identity()) {
            Entry::Occupied(before) => Err(Failure::Again(before.get().clone())),
            Entry::Vacant(place) => {
                place.insert(path.to_path_buf());
                Ok(())
            }
        }
    }

    /// The tag of a file, once what an earlier run left is put back. Where nothing is to be changed that is done in memory.
    fn settled(&self, song: &Song<'_>, note: &mut String) -> Result<Vec<u8>, Failure> {
        let left = song.left().map_err(Failure::Unwritten)?;
        if !self.order.dry_run {
            song.settle(&left).map_err(Failure::Unwritten)?;
        }
        let done = if self.order.dry_run { "would be" } else { "was" };
        let mut tag = song.tag().map_err(Failure::Unreadable)?;
        match left {
            Found::Nothing => {}
            Found::Incomplete => *note = format!("an incomplete journal {done} removed; "),
            Found::Whole(change) => {
                change.lay_over(&mut tag);
                *note = format!("a raise that did not end {done} put back; ");
            }
        }
        Ok(tag)
    }
}

impl Order {
    /// Raises the counter in a tag: in its own bytes, or in a new frame where they are too few and that is allowed.
    fn raise(&self, tag: &mut [u8]) -> Result<Raised, Refusal> {
        match streamvault::raise(tag, &self.user, self.amount) {
            Err(Refusal::COUNTER_TOO_SHORT) if !self.keep_size => {
                streamvault::lift(tag, &self.user, self.amount).map(|counter| Raised { counter, new_frame: true })
            }
            raised => raised.map(|counter| Raised { counter, new_frame: false }),
        }
    }
}

#[cfg(test)]
mod tests {
    use super::*;
    use crate::folder::Folder;

    /// A tag with one popularimeter: two counter bytes, 00 FF, from byte 23 on.
    const TAG: &[u8] = b"ID3\x04\0\0\0\0\0\x0FPOPM\0\0\0\x05\0\0a\0\0\0\xFF";

    /// The bytes of a song whose last tag bytes are these, and the others as above.
    fn song(last: &[u8], sound: &str) -> Vec<u8> {
        [&TAG[..TAG.len() - last.len()], last, sound.as_bytes()].concat()
    }

    #[test]
    fn every_outcome_is_said_and_counted() {
        let folder = Folder::new("outcomes");
        let (path, none) = (folder.file("song", &song(b"", "")), folder.0.join("none"));
        let name = show::path(&path);
        for (dry_run, raised, counts) in [
            (
                true,
                "would be raised by 1 from 255 to 256",
                "1 file would be raised, 1 refused, 2 not read or written, 2 named again; nothing was changed",
            ),
            (false, "raised by 1 from 255 to 256", "1 file raised, 1 refused, 2 not read or written, 2 named again"),
        ] {
            let order = Order { user: b"a".to_vec(), amount: 1, keep_size: false, dry_run };
            let mut raiser = Raiser::new(&order);
            assert_eq!(
                raiser.counts().split(';').next().unwrap(),
                format!("0 files {}raised, 0 refused", if dry_run { "would be " } else { "" })
            );
            assert_eq!(raiser.file(&path), format!("{name}: {raised}"));
            assert!(raiser.all_raised() && !raiser.any_failed());
            for _ in 0..2 {
                assert_eq!(raiser.file(&path), format!("{name}: the same file as {name}, taken once"));
            }
            let other = folder.file("other", b"no tag");
            assert!(raiser.file(&other).contains(": refused 1: "));
            assert!(!raiser.all_raised() && !raiser.any_failed());
            assert!(raiser.file(&none).contains("/none: not readable: "));
            assert_eq!(raiser.file(&folder.0), format!("{}: not readable: not a file", show::path(&folder.0)));
            assert!(raiser.any_failed());
            assert_eq!(raiser.counts(), counts);
        }
    }

    #[test]
    fn what_the_disk_may_not_have_is_said() {
        let failure = Failure::Unsure(io::Error::other("gone"));
        assert_eq!(failure.to_string(), "raised, but the disk may not have taken it: gone");
    }
}
