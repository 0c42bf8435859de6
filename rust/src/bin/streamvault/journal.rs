//! The journal of a change that moves bytes of a file, so that a crash at any moment is survived.
//!
//! Before the first byte of the file changes, the disk has a journal beside it: the place, the bytes there as they were and
//! as they are to be, and a checksum. It is removed when the disk has the whole change, and from then on the change holds.
//! Where a whole journal stands, the bytes that were are put back. One that is not whole was never on the disk before the
//! file was touched, so that the file is as it was.

use crate::raise::Failure;
use crate::song::changed;
use std::ffi::OsString;
use std::fs::{self, File};
use std::io::{self, ErrorKind};
use std::ops::Range;
use std::os::unix::ffi::{OsStrExt, OsStringExt};
use std::os::unix::fs::{FileExt, MetadataExt, OpenOptionsExt};
use std::path::{Path, PathBuf};

/// What follows the name of a file in that of its journal.
pub const SUFFIX: &str = ".streamvault-journal";

/// What a journal begins with.
const FIRST_LINE: &[u8] = b"streamvault journal 1\n";

// ---- where it stands

/// The place of a file's journal: beside the file itself, also where the path is a link to it.
pub fn place(path: &Path) -> io::Result<PathBuf> {
    let is_link = fs::symlink_metadata(path)?.is_symlink();
    let mut name = OsString::from(if is_link { fs::canonicalize(path)? } else { path.to_path_buf() });
    name.push(SUFFIX);
    Ok(PathBuf::from(name))
}

/// The file that a journal of this name stands beside; nothing where the name is no journal's.
pub fn song_of(journal: &Path) -> Option<PathBuf> {
    journal.file_name()?.as_bytes().strip_suffix(SUFFIX.as_bytes()).filter(|name| !name.is_empty())?;
    let bytes = journal.as_os_str().as_bytes().strip_suffix(SUFFIX.as_bytes())?;
    Some(PathBuf::from(OsString::from_vec(bytes.to_vec())))
}

/// Whether a journal stands beside a file.
pub fn stands(path: &Path) -> io::Result<bool> {
    Ok(there(fs::symlink_metadata(place(path)?))?.is_some())
}

/// What was found, if anything is there. A name that is too long for a file is that of none.
fn there<T>(found: io::Result<T>) -> io::Result<Option<T>> {
    const NAME_TOO_LONG: i32 = 36;
    match found {
        Ok(found) => Ok(Some(found)),
        Err(error) if error.kind() == ErrorKind::NotFound || error.raw_os_error() == Some(NAME_TOO_LONG) => Ok(None),
        Err(error) => Err(error),
    }
}

// ---- what it holds

/// A change of a file's bytes at one place.
#[derive(Clone, Debug, PartialEq, Eq)]
pub struct Change {
    /// The length of the file, which stays.
    file_len: u64,
    /// Where the bytes stand.
    place: u64,
    /// The bytes as they were.
    old: Vec<u8>,
    /// As many as they are to be.
    new: Vec<u8>,
}

impl Change {
    /// The change of these places at the front of a file.
    pub fn new(file_len: u64, changed: Range<usize>, before: &[u8], after: &[u8]) -> Change {
        let [old, new] = [before, after].map(|front| front[changed.clone()].to_vec());
        Change { file_len, place: changed.start as u64, old, new }
    }

    /// The bytes of its journal.
    fn to_bytes(&self) -> Vec<u8> {
        let numbers = [self.file_len, self.place, self.old.len() as u64].map(u64::to_be_bytes);
        let bytes = [FIRST_LINE, numbers.as_flattened(), &self.old, &self.new].concat();
        let sum = checksum(&bytes).to_be_bytes();
        [&bytes, &sum[..]].concat()
    }

    /// The change that the bytes of a journal say; nothing where they are not a whole one.
    fn of(bytes: &[u8]) -> Option<Change> {
        let (bytes, sum) = bytes.split_last_chunk()?;
        let rest = bytes.strip_prefix(FIRST_LINE)?;
        let (file_len, rest) = number(rest)?;
        let (place, rest) = number(rest)?;
        let (len, rest) = number(rest)?;
        let (old, new) = rest.split_at_checked(usize::try_from(len).ok()?)?;
        let inside = place.checked_add(len).is_some_and(|end| end <= file_len);
        let whole = inside && old.len() == new.len() && u64::from_be_bytes(*sum) == checksum(bytes);
        whole.then(|| Change { file_len, place, old: old.to_vec(), new: new.to_vec() })
    }

    /// Whether a file is on the way of this change: it has the length, and each byte there is one that was or is to be.
    fn is_of(&self, file: &File) -> io::Result<bool> {
        if file.metadata()?.len() != self.file_len {
            return Ok(false);
        }
        let bytes = self.bytes_in(file)?;
        let mut either = bytes.iter().zip(self.old.iter().zip(&self.new));
        Ok(either.all(|(byte, (old, new))| byte == old || byte == new))
    }

    /// What a file has in the place of the change.
    fn bytes_in(&self, file: &File) -> io::Result<Vec<u8>> {
        let mut bytes = vec![0; self.old.len()];
        file.read_exact_at(&mut bytes, self.place)?;
        Ok(bytes)
    }

    /// Puts the bytes that were over those of a file's front, as far as it goes.
    pub fn lay_over(&self, front: &mut [u8]) {
        let places = front.iter_mut().skip(self.place as usize);
        places.zip(&self.old).for_each(|(byte, old)| *byte = *old);
    }
}

/// The number that bytes begin with, and what follows it.
fn number(bytes: &[u8]) -> Option<(u64, &[u8])> {
    let (number, rest) = bytes.split_first_chunk()?;
    Some((u64::from_be_bytes(*number), rest))
}

/// A checksum of 64 bits: FNV-1a.
fn checksum(bytes: &[u8]) -> u64 {
    bytes.iter().fold(0xCBF2_9CE4_8422_2325, |sum, byte| (sum ^ u64::from(*byte)).wrapping_mul(0x0100_0000_01B3))
}

/// What stands in the journal's place.
#[derive(Debug, PartialEq, Eq)]
pub enum Found {
    /// Nothing.
    Nothing,
    /// A journal that was not written to its end: the file was not touched.
    Incomplete,
    /// A whole one.
    Whole(Change),
}

/// Reads the journal of a file. It is an error where a whole one does not fit the file, or something else is there.
pub fn find(journal: &Path, file: &File) -> io::Result<Found> {
    let Some(bytes) = there(fs::read(journal))? else { return Ok(Found::Nothing) };
    match Change::of(&bytes) {
        Some(change) if change.is_of(file)? => Ok(Found::Whole(change)),
        Some(_) => Err(io::Error::other("its journal does not fit the file, which changed since; neither was touched")),
        None if is_begun(&bytes) => Ok(Found::Incomplete),
        None => Err(io::Error::other("what stands in the place of its journal is none; nothing was touched")),
    }
}

/// Whether bytes can be what a disk has of a journal that it did not get whole: they begin as one does, or are zeros there.
fn is_begun(bytes: &[u8]) -> bool {
    let front = &bytes[..bytes.len().min(FIRST_LINE.len())];
    FIRST_LINE.starts_with(front) || front.iter().all(|byte| *byte == 0)
}

// ---- what is done to the disk

/// The operations of a change, so that tests can stop it at each.
pub trait Disk {
    /// Makes a file, which must not be there, for those who may read and write another.
    fn create(&self, path: &Path, like: &File) -> io::Result<File>;
    /// One write, which may take fewer bytes.
    fn write_at(&self, file: &File, bytes: &[u8], place: u64) -> io::Result<usize>;
    /// Waits until the disk has what was written.
    fn sync(&self, file: &File) -> io::Result<()>;
    /// Waits until the disk has the names in the folder of a file.
    fn sync_folder(&self, path: &Path) -> io::Result<()>;
    /// Removes a file.
    fn remove(&self, path: &Path) -> io::Result<()>;
}

/// The disk itself.
pub struct Real;

impl Disk for Real {
    fn create(&self, path: &Path, like: &File) -> io::Result<File> {
        let mode = like.metadata()?.mode() & 0o666;
        File::options().write(true).create_new(true).mode(mode).open(path)
    }

    fn write_at(&self, file: &File, bytes: &[u8], place: u64) -> io::Result<usize> {
        file.write_at(bytes, place)
    }

    fn sync(&self, file: &File) -> io::Result<()> {
        file.sync_all()
    }

    fn sync_folder(&self, path: &Path) -> io::Result<()> {
        let folder = path.parent().filter(|folder| !folder.as_os_str().is_empty());
        File::open(folder.unwrap_or(Path::new(".")))?.sync_all()
    }

    fn remove(&self, path: &Path) -> io::Result<()> {
        fs::remove_file(path)
    }
}

/// Makes a change of an open file, if it is still what was read.
pub fn change(
    disk: &impl Disk,
    file: &File,
    journal: &Path,
    change: &Change,
    is_still: impl FnOnce() -> io::Result<()>,
) -> Result<(), Failure> {
    make(disk, file, journal, change).map_err(Failure::Unwritten)?;
    is_still().map_err(|error| Failure::Unwritten(dropped(disk, journal, error)))?;
    write_all(disk, file, &change.new, change.place)
        .and_then(|()| disk.sync(file))
        .and_then(|()| disk.remove(journal))
        .map_err(|error| Failure::Unwritten(taken_back(disk, file, journal, change, error)))?;
    disk.sync_folder(journal).map_err(Failure::Unsure)
}

/// Makes the journal of a file, and waits until the disk has it.
fn make(disk: &impl Disk, song: &File, journal: &Path, change: &Change) -> io::Result<()> {
    let about = |error| io::Error::other(format!("its journal: {error}"));
    let file = disk.create(journal, song).map_err(about)?;
    write_all(disk, &file, &change.to_bytes(), 0)
        .and_then(|()| disk.sync(&file))
        .and_then(|()| disk.sync_folder(journal))
        .map_err(|error| dropped(disk, journal, about(error)))
}

/// Writes all bytes, by as many writes as that takes.
fn write_all(disk: &impl Disk, file: &File, mut bytes: &[u8], mut place: u64) -> io::Result<()> {
    while !bytes.is_empty() {
        match disk.write_at(file, bytes, place) {
            Ok(0) => return Err(ErrorKind::WriteZero.into()),
            Ok(count) => {
                bytes = &bytes[count..];
                place += count as u64;
            }
            Err(error) if error.kind() == ErrorKind::Interrupted => {}
            Err(error) => return Err(error),
        }
    }
    Ok(())
}

/// Removes the journal of a file that was not touched, because of an error, which says more where that fails.
fn dropped(disk: &impl Disk, journal: &Path, error: io::Error) -> io::Error {
    match disk.remove(journal) {
        Ok(()) => error,
        Err(other) => io::Error::other(format!("{error}; its journal stays: {other}")),
    }
}

/// Puts back what was changed, because of an error, which then says so.
fn taken_back(disk: &impl Disk, file: &File, journal: &Path, change: &Change, error: io::Error) -> io::Error {
    io::Error::other(match put_back(disk, file, journal, change) {
        Ok(()) => format!("{error}; put back as it was"),
        Err(other) => format!("{error}; its journal stays, for streamvault recover to put it back: {other}"),
    })
}

/// Puts the bytes that were into an open file where it has others, then removes its journal. It can be done again where it
/// stopped.
pub fn put_back(disk: &impl Disk, file: &File, journal: &Path, change: &Change) -> io::Result<()> {
    let now = change.bytes_in(file)?;
    if let Some(changed) = changed(&change.old, &now) {
        write_all(disk, file, &change.old[changed.clone()], change.place + changed.start as u64)?;
    }
    disk.sync(file)?;
    disk.remove(journal)?;
    disk.sync_folder(journal)
}

#[cfg(test)]
mod tests;
