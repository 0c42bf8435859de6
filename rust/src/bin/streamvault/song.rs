//! A file that is changed in place.

use crate::files::{identity, Identity};
use crate::journal::{self, Change, Found, Real};
use crate::parts;
use crate::raise::Failure;
use std::fs::{self, File, Metadata};
use std::io::{self, ErrorKind};
use std::ops::Range;
use std::os::fd::AsRawFd;
use std::os::unix::fs::{FileExt, MetadataExt};
use std::path::{Path, PathBuf};

extern "C" {
    fn flock(file: i32, operation: i32) -> i32;
}

/// A file that is open.
pub struct Song<'p> {
    path: &'p Path,
    file: File,
    /// As it was then.
    metadata: Metadata,
    /// Where its journal would stand.
    journal: PathBuf,
}

impl<'p> Song<'p> {
    /// Opens a file for reading, and for writing where that is asked for: then no other run of the program changes it before
    /// this song is closed.
    pub fn open(path: &'p Path, write: bool) -> Result<Song<'p>, Failure> {
        // to open a pipe would wait for its other end
        if !fs::metadata(path).map_err(Failure::Unreadable)?.is_file() {
            return Err(Failure::Unreadable(io::Error::other("not a file")));
        }
        let fails = if write { Failure::Unwritten } else { Failure::Unreadable };
        let file = File::options().read(true).write(write).open(path).map_err(fails)?;
        if write {
            lock(&file);
        }
        let metadata = file.metadata().map_err(Failure::Unreadable)?;
        let journal = journal::place(path).map_err(Failure::Unreadable)?;
        Ok(Song { path, file, metadata, journal })
    }

    /// Which file it is.
    pub fn identity(&self) -> Identity {
        identity(&self.metadata)
    }

    /// The tag at its front, as far as it is there.
    pub fn tag(&self) -> io::Result<Vec<u8>> {
        let mut tag = Vec::new();
        parts::read_front(&self.file, 0, &mut tag)?;
        Ok(tag)
    }

    /// What an earlier run left in its journal.
    pub fn left(&self) -> io::Result<Found> {
        journal::find(&self.journal, &self.file)
    }

    /// Makes it what it was before an earlier run that did not end, and removes that one's journal.
    pub fn settle(&self, left: &Found) -> io::Result<()> {
        match left {
            Found::Nothing => Ok(()),
            Found::Incomplete => fs::remove_file(&self.journal),
            Found::Whole(change) => journal::put_back(&Real, &self.file, &self.journal, change),
        }
    }

    /// Writes what changed within one counter to its place, by one write, if the file is still what was read.
    pub fn put(&self, before: &[u8], after: &[u8]) -> Result<(), Failure> {
        let Some(changed) = changed(before, after) else { return Ok(()) };
        self.is_still(before).map_err(Failure::Unwritten)?;
        let (old, new) = (&before[changed.clone()], &after[changed.clone()]);
        let written = self.file.write_at(new, changed.start as u64).map_err(Failure::Unwritten)?;
        if written < new.len() {
            return Err(self.put_back(changed, &old[..written]));
        }
        self.file.sync_data().map_err(Failure::Unsure)
    }

    /// Writes what changed from the first byte to the last, with a journal, if the file is still what was read.
    pub fn put_moved(&self, before: &[u8], after: &[u8]) -> Result<(), Failure> {
        let Some(changed) = changed(before, after) else { return Ok(()) };
        let names = self.metadata.nlink();
        if names > 1 {
            let why = format!("a new frame takes a journal, which would stand beside one of its {names} names only");
            return Err(Failure::Unwritten(io::Error::other(why)));
        }
        let change = Change::new(self.metadata.len(), changed, before, after);
        journal::change(&Real, &self.file, &self.journal, &change, || self.is_still(before))
    }

    /// That its name still leads to it, and it has its length and this tag.
    fn is_still(&self, tag: &[u8]) -> io::Result<()> {
        let now = fs::metadata(self.path)?;
        let mut there = vec![0; tag.len()];
        let same = identity(&now) == self.identity() && now.len() == self.metadata.len();
        if same {
            self.file.read_exact_at(&mut there, 0)?;
        }
        if same && there == tag {
            Ok(())
        } else {
            Err(io::Error::other("the file changed meanwhile"))
        }
    }

    /// Puts the bytes back that a write replaced which stopped too early, and says so.
    fn put_back(&self, wanted: Range<usize>, old: &[u8]) -> Failure {
        let stopped = format!("only {} of {} counter bytes were written", old.len(), wanted.len());
        Failure::Unwritten(io::Error::other(match self.file.write_all_at(old, wanted.start as u64) {
            Ok(()) => format!("{stopped}, and put back as they were"),
            Err(error) => format!("{stopped}, and are wrong now, at byte {}: {error}", wanted.start),
        }))
    }
}

/// Waits until no other run of the program has the file open to change it. A system without such locks goes on at once.
fn lock(file: &File) {
    const EXCLUSIVE: i32 = 2;
    // SAFETY: the descriptor is that of an open file, and no memory is lent.
    while unsafe { flock(file.as_raw_fd(), EXCLUSIVE) } != 0 {
        if io::Error::last_os_error().kind() != ErrorKind::Interrupted {
            return;
        }
    }
}

/// From the first byte to the last that differ, if any do.
pub fn changed(before: &[u8], after: &[u8]) -> Option<Range<usize>> {
    let differs = |at: &usize| before[*at] != after[*at];
    let first = (0..before.len()).find(differs)?;
    let last = (first..before.len()).rfind(differs)?;
    Some(first..last + 1)
}

#[cfg(test)]
mod tests {
    use super::*;
    use crate::folder::Folder;

    /// A tag with one popularimeter: two counter bytes, 00 FF, from byte 23 on.
    const TAG: &[u8] = b"ID3\x04\0\0\0\0\0\x0FPOPM\0\0\0\x05\0\0a\0\0\0\xFF";

    /// The bytes of a song whose last tag bytes are these, and the others as above.
    fn song(last: &[u8], sound: &str) -> Vec<u8> {
        [&TAG[..TAG.len() - last.len()], last, sound.as_bytes()].concat()
    }

    /// Raises by 1 what was read of a file, with something done to it meanwhile. Gives what it holds then, and what failed.
    fn put(path: &Path, meanwhile: impl FnOnce()) -> (Vec<u8>, Option<String>) {
        let song = Song::open(path, true).unwrap();
        let before = song.tag().unwrap();
        let mut after = before.clone();
        assert_eq!(streamvault::raise(&mut after, b"a", 1), Ok(256));
        meanwhile();
        let failure = song.put(&before, &after).err();
        (fs::read(path).unwrap(), failure.map(|failure| failure.to_string()))
    }

    #[test]
    fn what_changed_is_from_the_first_byte_to_the_last() {
        assert_eq!(changed(b"abcdef", b"abcdef"), None);
        assert_eq!(changed(b"abcdef", b"abXdYf"), Some(2..5));
        assert_eq!(changed(b"abcdef", b"Xbcdef"), Some(0..1));
        assert_eq!(changed(b"abcdef", b"abcdeX"), Some(5..6));
    }

    #[test]
    fn a_file_that_changed_meanwhile_is_not_written() {
        let folder = Folder::new("changed");
        let said = Some("not raised: the file changed meanwhile".to_string());
        let rating = song(b"\x07\0\xFF", "sound");
        // longer, shorter, with another rating
        for now in [song(b"", "sound!"), song(b"", "soun"), rating] {
            let path = folder.file("song", &song(b"", "sound"));
            assert_eq!(put(&path, || fs::write(&path, &now).unwrap()), (now.clone(), said.clone()));
        }
        // another file of the same bytes
        let (path, other) = (folder.file("song", &song(b"", "sound")), folder.file("other", &song(b"", "sound")));
        assert_eq!(put(&path, || fs::rename(other, &path).unwrap()), (song(b"", "sound"), said));
    }

    #[test]
    fn other_sound_meanwhile_is_no_matter() {
        let folder = Folder::new("sound");
        let path = folder.file("song", &song(b"", "sound"));
        let done = put(&path, || fs::write(&path, song(b"", "SOUND")).unwrap());
        assert_eq!(done, (song(b"\x01\0", "SOUND"), None));
    }

    #[test]
    fn what_is_open_for_reading_alone_is_not_written() {
        let folder = Folder::new("reading");
        let path = folder.file("song", &song(b"", "sound"));
        let failure = Song::open(&path, false).unwrap().put(TAG, &song(b"\x01\0", "")).unwrap_err();
        assert!(failure.to_string().starts_with("not raised: "), "{failure}");
        assert_eq!(fs::read(&path).unwrap(), song(b"", "sound"));
    }
}
