//! A change is stopped at each operation, or one operation fails, or the machine loses what the disk did not have. What is
//! left is put back, and the file is then as it was or as it was to be.

use super::*;
use crate::folder::Folder;
use std::cell::{Cell, RefCell};
use std::os::unix::fs::{symlink, PermissionsExt};
use streamvault::{lift, read, Content, Version, Writer};

// ---- a change

/// A song with three counters; that of `a` has one byte, which is full.
fn song(version: Version) -> Vec<u8> {
    let id = |long, short| {
        if version == Version::Id3v22 {
            streamvault::Id::from(short)
        } else {
            streamvault::Id::from(long)
        }
    };
    let mut writer = Writer::new(version);
    writer.add(id(b"PRIV", b"UFI"), &Content::Raw { body: &[7; 30] }).unwrap();
    for (user, counter) in [("b", 0x1234), ("a", 255), ("c", 0x56_789A)] {
        writer.add(id(b"POPM", b"POP"), &Content::Popularimeter { user, rating: 9, counter }).unwrap();
    }
    [writer.finish(5).unwrap(), b"sound".to_vec()].concat()
}

/// The counters of a song by their users: all are readable.
fn counters(song: &[u8]) -> Vec<(Vec<u8>, u64)> {
    let counters = read(song).unwrap().into_iter().filter_map(|record| match record.content {
        Content::Popularimeter { user, counter, .. } => Some((user, counter)),
        _ => None,
    });
    counters.collect()
}

/// A song before and after `a` is lifted by 1, and the change between.
fn lifted(version: Version) -> (Vec<u8>, Vec<u8>, Change) {
    let before = song(version);
    let mut after = before.clone();
    assert_eq!(lift(&mut after, b"a", 1), Ok(256));
    let change = Change::new(before.len() as u64, changed(&before, &after).unwrap(), &before, &after);
    (before, after, change)
}

const VERSIONS: [Version; 3] = [Version::Id3v22, Version::Id3v23, Version::Id3v24];

/// A file that is open to be changed, and where its journal would be.
struct Open {
    path: PathBuf,
    journal: PathBuf,
    file: File,
}

impl Open {
    fn new(folder: &Folder, bytes: &[u8]) -> Open {
        let path = folder.file("song.mp3", bytes);
        let journal = place(&path).unwrap();
        let _ = fs::remove_file(&journal);
        let file = File::options().read(true).write(true).open(&path).unwrap();
        Open { path, journal, file }
    }

    /// The same with what a run left in the place of the journal.
    fn left(folder: &Folder, journal: Option<Vec<u8>>, bytes: &[u8]) -> Open {
        let open = Open::new(folder, bytes);
        if let Some(bytes) = journal {
            fs::write(&open.journal, bytes).unwrap();
        }
        open
    }

    fn bytes(&self) -> Vec<u8> {
        fs::read(&self.path).unwrap()
    }

    fn change(&self, disk: &impl Disk, change: &Change) -> Result<(), Failure> {
        super::change(disk, &self.file, &self.journal, change, || Ok(()))
    }

    /// What the next run does first. Gives the file then; no journal is left.
    fn settled(&self) -> Vec<u8> {
        self.settled_on(&Real).unwrap();
        assert!(!self.journal.exists());
        self.bytes()
    }

    fn settled_on(&self, disk: &impl Disk) -> io::Result<()> {
        match find(&self.journal, &self.file)? {
            Found::Nothing => Ok(()),
            Found::Incomplete => disk.remove(&self.journal),
            Found::Whole(change) => put_back(disk, &self.file, &self.journal, &change),
        }
    }
}

/// A file is as it was or as it was to be, and every counter in it is readable.
#[track_caller]
fn one_of(bytes: &[u8], before: &[u8], after: &[u8]) {
    assert!(bytes == before || bytes == after, "{bytes:02X?}");
    let a = if bytes == before { 255 } else { 256 };
    let want = [("b", 0x1234), ("a", a), ("c", 0x56_789A)].map(|(user, counter)| (user.as_bytes().to_vec(), counter));
    assert_eq!(counters(bytes), want);
}

// ---- stopped at each operation

/// A disk that stops for good at one operation. Of a write some bytes are taken then.
struct Stopping {
    left: Cell<usize>,
    taken: fn(usize) -> usize,
}

impl Stopping {
    /// Whether this operation is still done. The one at which it stops leaves none.
    fn goes_on(&self) -> io::Result<()> {
        let left = self.left.get();
        self.left.set(left.saturating_sub(1));
        if left > 1 {
            Ok(())
        } else {
            Err(io::Error::other("stopped"))
        }
    }
}

impl Disk for Stopping {
    fn create(&self, path: &Path, like: &File) -> io::Result<File> {
        self.goes_on()?;
        Real.create(path, like)
    }

    fn write_at(&self, file: &File, bytes: &[u8], place: u64) -> io::Result<usize> {
        let last = self.left.get() == 1;
        self.goes_on().inspect_err(|_| {
            if last {
                file.write_all_at(&bytes[..(self.taken)(bytes.len())], place).unwrap();
            }
        })?;
        Real.write_at(file, bytes, place)
    }

    fn sync(&self, _: &File) -> io::Result<()> {
        self.goes_on()
    }

    fn sync_folder(&self, _: &Path) -> io::Result<()> {
        self.goes_on()
    }

    fn remove(&self, path: &Path) -> io::Result<()> {
        self.goes_on()?;
        Real.remove(path)
    }
}

/// How much of a write may be done: nothing, one byte, half, all but one, all.
const TAKEN: [fn(usize) -> usize; 5] = [|_| 0, |_| 1, |len| len / 2, |len| len - 1, |len| len];

/// How many operations a change has.
const OPERATIONS: usize = 8;

#[test]
fn a_change_that_is_stopped_anywhere_is_put_back_or_whole() {
    let folder = Folder::new("stopped");
    for version in VERSIONS {
        let (before, after, change) = lifted(version);
        for taken in TAKEN {
            for stop in 1..=OPERATIONS {
                let open = Open::new(&folder, &before);
                let done = open.change(&Stopping { left: Cell::new(stop), taken }, &change);
                assert!(done.is_err(), "{stop}");
                let settled = open.settled();
                one_of(&settled, &before, &after);
                // from the removal of the journal on it holds
                assert_eq!(settled == after, stop == OPERATIONS);
            }
            let open = Open::new(&folder, &before);
            open.change(&Stopping { left: Cell::new(OPERATIONS + 1), taken }, &change).unwrap();
            assert_eq!(open.settled(), after);
        }
    }
}

#[test]
fn to_put_back_may_be_stopped_as_well() {
    let folder = Folder::new("stopped-back");
    let (before, after, change) = lifted(Version::Id3v24);
    for taken in TAKEN {
        for (stop, again) in (1..OPERATIONS).flat_map(|stop| (1..5).map(move |again| (stop, again))) {
            let open = Open::new(&folder, &before);
            let _ = open.change(&Stopping { left: Cell::new(stop), taken }, &change);
            let _ = open.settled_on(&Stopping { left: Cell::new(again), taken });
            let settled = open.settled();
            one_of(&settled, &before, &after);
            assert_eq!(settled, before);
        }
    }
}

#[test]
fn a_whole_journal_stands_while_the_file_is_between() {
    let folder = Folder::new("between");
    let (before, after, change) = lifted(Version::Id3v23);
    for taken in TAKEN {
        for stop in 1..=OPERATIONS {
            let open = Open::new(&folder, &before);
            let _ = open.change(&Stopping { left: Cell::new(stop), taken }, &change);
            let bytes = open.bytes();
            if bytes != before && bytes != after {
                assert!(stands(&open.path).unwrap());
                assert_eq!(find(&open.journal, &open.file).unwrap(), Found::Whole(change.clone()));
            }
        }
    }
}

// ---- one operation fails

/// A disk of which one operation fails, and the others do not.
struct Failing(Stopping);

impl Failing {
    fn goes_on(&self) -> io::Result<()> {
        let fails = self.0.left.get() == 1;
        self.0.left.set(self.0.left.get().saturating_sub(1));
        if fails {
            Err(io::Error::other("failed"))
        } else {
            Ok(())
        }
    }
}

impl Disk for Failing {
    fn create(&self, path: &Path, like: &File) -> io::Result<File> {
        self.goes_on()?;
        Real.create(path, like)
    }

    fn write_at(&self, file: &File, bytes: &[u8], place: u64) -> io::Result<usize> {
        // a write that stops early says how far it came, and the next one fails
        let fails = self.0.left.get() == 1;
        let taken = (self.0.taken)(bytes.len());
        if fails && 0 < taken && taken < bytes.len() {
            return file.write_at(&bytes[..taken], place);
        }
        self.goes_on()?;
        Real.write_at(file, bytes, place)
    }

    fn sync(&self, _: &File) -> io::Result<()> {
        self.goes_on()
    }

    fn sync_folder(&self, _: &Path) -> io::Result<()> {
        self.goes_on()
    }

    fn remove(&self, path: &Path) -> io::Result<()> {
        self.goes_on()?;
        Real.remove(path)
    }
}

#[test]
fn what_is_said_of_a_failed_operation_is_so() {
    let folder = Folder::new("failing");
    let (before, after, change) = lifted(Version::Id3v24);
    let taken = |len: usize| if len > 1 { 1 } else { 0 };
    let said = |stop| {
        let open = Open::new(&folder, &before);
        let failure = open.change(&Failing(Stopping { left: Cell::new(stop), taken }), &change).unwrap_err();
        (failure.to_string(), open.bytes(), open.journal.exists())
    };
    for stop in 1..=4 {
        assert_eq!(said(stop), ("not raised: its journal: failed".to_string(), before.clone(), false));
    }
    for stop in 5..=7 {
        assert_eq!(said(stop), ("not raised: failed; put back as it was".to_string(), before.clone(), false));
    }
    let unsure = "raised, but the disk may not have taken it: failed".to_string();
    assert_eq!(said(OPERATIONS), (unsure, after, false));
}

#[test]
fn a_disk_that_takes_no_more_leaves_the_journal_and_says_so() {
    let folder = Folder::new("no-more");
    let (before, _, change) = lifted(Version::Id3v24);
    for stop in 5..OPERATIONS {
        let open = Open::new(&folder, &before);
        let failure = open.change(&Stopping { left: Cell::new(stop), taken: |len| len / 2 }, &change).unwrap_err();
        let want = "not raised: stopped; its journal stays, for streamvault recover to put it back: stopped";
        assert_eq!((failure.to_string().as_str(), open.journal.exists()), (want, true));
        assert_eq!(open.settled(), before);
    }
    let open = Open::new(&folder, &before);
    let failure = open.change(&Stopping { left: Cell::new(3), taken: |len| len }, &change).unwrap_err();
    assert_eq!(failure.to_string(), "not raised: its journal: stopped; its journal stays: stopped");
    assert_eq!((open.bytes(), open.settled()), (before.clone(), before));
}

#[test]
fn a_file_that_changed_meanwhile_is_not_touched() {
    let folder = Folder::new("meanwhile");
    let (before, _, change) = lifted(Version::Id3v24);
    let open = Open::new(&folder, &before);
    let changed = || Err(io::Error::other("the file changed meanwhile"));
    let failure = super::change(&Real, &open.file, &open.journal, &change, changed).unwrap_err();
    assert_eq!(failure.to_string(), "not raised: the file changed meanwhile");
    assert_eq!((open.bytes(), open.journal.exists()), (before, false));
}

// ---- the machine stops, and the disk has not all that was done

/// What was done to the disk.
#[derive(Clone, Debug, PartialEq)]
enum Done {
    Create,
    WriteJournal(Vec<u8>),
    WriteSong(Vec<u8>, usize),
    SyncJournal,
    SyncSong,
    SyncFolder,
    Remove,
}

/// A disk that keeps a list of what is done to it.
struct Listing<'a> {
    song: &'a File,
    done: RefCell<Vec<Done>>,
}

impl Listing<'_> {
    fn is_song(&self, file: &File) -> bool {
        self.song.metadata().unwrap().ino() == file.metadata().unwrap().ino()
    }

    fn list(&self, done: Done) {
        self.done.borrow_mut().push(done);
    }
}

impl Disk for Listing<'_> {
    fn create(&self, path: &Path, like: &File) -> io::Result<File> {
        self.list(Done::Create);
        Real.create(path, like)
    }

    fn write_at(&self, file: &File, bytes: &[u8], place: u64) -> io::Result<usize> {
        self.list(if self.is_song(file) {
            Done::WriteSong(bytes.to_vec(), place as usize)
        } else {
            Done::WriteJournal(bytes.to_vec())
        });
        Real.write_at(file, bytes, place)
    }

    fn sync(&self, file: &File) -> io::Result<()> {
        self.list(if self.is_song(file) { Done::SyncSong } else { Done::SyncJournal });
        Ok(())
    }

    fn sync_folder(&self, _: &Path) -> io::Result<()> {
        self.list(Done::SyncFolder);
        Ok(())
    }

    fn remove(&self, path: &Path) -> io::Result<()> {
        self.list(Done::Remove);
        Real.remove(path)
    }
}

/// All that the disk may have of the journal after these operations: none, or one of these bytes.
fn journals(done: &[Done]) -> Vec<Option<Vec<u8>>> {
    let (mut names, mut contents) = (vec![false], vec![Vec::new()]);
    for one in done {
        match one {
            Done::Create => names = vec![false, true],
            Done::Remove => names = vec![true, false],
            Done::SyncFolder => names = vec![*names.last().unwrap()],
            Done::WriteJournal(bytes) => {
                let half = bytes.len() / 2;
                let zeros = vec![0; bytes.len()];
                let torn = [&zeros[..half], &bytes[half..]].concat();
                contents = vec![Vec::new(), bytes[..1].to_vec(), bytes[..half].to_vec(), zeros, torn, bytes.clone()];
            }
            Done::SyncJournal => contents = vec![contents.pop().unwrap()],
            Done::WriteSong(..) | Done::SyncSong => {}
        }
    }
    let there = names.contains(&true).then_some(contents).into_iter().flatten().map(Some);
    names.contains(&false).then_some(None).into_iter().chain(there).collect()
}

/// All that the disk may have of the song, which was these bytes: of a write that it need not have any part.
fn songs(before: &[u8], done: &[Done]) -> Vec<Vec<u8>> {
    let mut songs = vec![before.to_vec()];
    for one in done {
        match one {
            Done::WriteSong(bytes, place) => {
                let parts: [fn(usize, usize) -> bool; 5] =
                    [|_, _| false, |at, len| at < len / 2, |at, len| at >= len / 2, |at, _| at % 2 == 0, |_, _| true];
                let with = |song: &Vec<u8>, part: fn(usize, usize) -> bool| {
                    let mut song = song.clone();
                    for (at, byte) in bytes.iter().enumerate().filter(|(at, _)| part(*at, bytes.len())) {
                        song[place + at] = *byte;
                    }
                    song
                };
                songs = songs.iter().flat_map(|song| parts.map(|part| with(song, part))).collect();
            }
            Done::SyncSong => songs = vec![songs.pop().unwrap()],
            _ => {}
        }
    }
    songs
}

/// All that the disk may have of both.
fn states(before: &[u8], done: &[Done]) -> Vec<(Option<Vec<u8>>, Vec<u8>)> {
    let songs = songs(before, done);
    let with_songs = |journal: Option<Vec<u8>>| songs.iter().map(move |song| (journal.clone(), song.clone()));
    journals(done).into_iter().flat_map(with_songs).collect()
}

#[test]
fn whatever_the_disk_has_is_put_back_or_whole() {
    let folder = Folder::new("power");
    for version in VERSIONS {
        let (before, after, change) = lifted(version);
        let open = Open::new(&folder, &before);
        let disk = Listing { song: &open.file, done: RefCell::default() };
        open.change(&disk, &change).unwrap();
        let done = disk.done.into_inner();
        assert_eq!(done.len(), OPERATIONS, "{done:?}");
        // the file is written from the first byte that differs to the last
        let differs = |at: &usize| before[*at] != after[*at];
        let (first, last) = ((0..before.len()).find(differs).unwrap(), (0..before.len()).rfind(differs).unwrap());
        assert_eq!(done[4], Done::WriteSong(after[first..=last].to_vec(), first));
        for until in 0..=done.len() {
            for (journal, song) in states(&before, &done[..until]) {
                let open = Open::left(&folder, journal, &song);
                let settled = open.settled();
                one_of(&settled, &before, &after);
                // what was said to be raised is
                assert!(until < OPERATIONS || settled == after);
            }
        }
    }
}

#[test]
fn whatever_the_disk_has_of_what_is_put_back_is_as_it_was() {
    let folder = Folder::new("power-back");
    let (before, after, change) = lifted(Version::Id3v24);
    // the first write to the song is the fifth operation
    let open = Open::new(&folder, &before);
    let disk = Listing { song: &open.file, done: RefCell::default() };
    open.change(&disk, &change).unwrap();
    disk.done.borrow_mut().truncate(5);
    fs::write(&open.journal, change.to_bytes()).unwrap();
    open.settled_on(&disk).unwrap();
    let done = disk.done.into_inner();
    assert_eq!(done.len(), 9, "{done:?}");
    for until in 5..=done.len() {
        for (journal, song) in states(&before, &done[..until]) {
            let settled = Open::left(&folder, journal, &song).settled();
            one_of(&settled, &before, &after);
            assert_eq!(settled, before);
        }
    }
}

#[test]
fn without_the_journal_the_same_states_are_met_half_changed() {
    // so that the test above can fail
    let (before, after, change) = lifted(Version::Id3v24);
    let write = Done::WriteSong(change.new.clone(), change.place as usize);
    assert!(songs(&before, &[write]).iter().any(|song| *song != before && *song != after));
}

// ---- what a journal holds, and where it stands

#[test]
fn a_journal_is_whole_or_none() {
    let (_, _, change) = lifted(Version::Id3v24);
    let bytes = change.to_bytes();
    assert_eq!(Change::of(&bytes), Some(change));
    for len in 0..bytes.len() {
        assert_eq!(Change::of(&bytes[..len]), None);
        let mut other = bytes.clone();
        other[len] ^= 1;
        assert_eq!(Change::of(&other), None);
        other[len..].fill(0);
        assert_eq!(Change::of(&other), None);
    }
    assert_eq!(Change::of(&[&bytes[..], b"\0"].concat()), None);
}

#[test]
fn a_journal_with_places_outside_the_file_is_none() {
    let change = |file_len, place| Change { file_len, place, old: vec![1, 2], new: vec![3, 4] };
    for (file_len, place) in [(2, 1), (1, 0), (0, u64::MAX), (u64::MAX, u64::MAX - 1)] {
        assert_eq!(Change::of(&change(file_len, place).to_bytes()), None);
    }
    assert!(Change::of(&change(3, 1).to_bytes()).is_some());
    let longer = Change { new: vec![3, 4, 5], ..change(9, 1) };
    assert_eq!(Change::of(&longer.to_bytes()), None);
}

#[test]
fn a_journal_that_does_not_fit_the_file_touches_nothing() {
    let folder = Folder::new("unfit");
    let (before, after, change) = lifted(Version::Id3v24);
    let mut other = before.clone();
    let place = change.place as usize;
    other[place] = !before[place] ^ after[place] ^ 0x5A;
    assert!(other[place] != before[place] && other[place] != after[place]);
    for now in [other, before[..before.len() - 1].to_vec(), [&before[..], b"!"].concat()] {
        let open = Open::new(&folder, &now);
        fs::write(&open.journal, change.to_bytes()).unwrap();
        assert!(find(&open.journal, &open.file).unwrap_err().to_string().contains("does not fit the file"));
        assert_eq!((open.bytes(), open.journal.exists()), (now, true));
    }
    // other bytes elsewhere are no matter, and stay
    let mut sound = after.clone();
    *sound.last_mut().unwrap() = b'!';
    let open = Open::new(&folder, &sound);
    fs::write(&open.journal, change.to_bytes()).unwrap();
    assert_eq!(open.settled(), [&before[..before.len() - 1], b"!"].concat());
}

#[test]
fn what_is_no_journal_is_not_taken_for_an_incomplete_one() {
    let folder = Folder::new("none");
    let (before, _, change) = lifted(Version::Id3v24);
    let whole = change.to_bytes();
    let other_version = [b"streamvault journal 2\n", &whole[FIRST_LINE.len()..]].concat();
    for other in [other_version, b"a list of songs".to_vec(), b"s0".to_vec()] {
        let open = Open::left(&folder, Some(other.clone()), &before);
        assert!(find(&open.journal, &open.file).unwrap_err().to_string().contains("is none; nothing was touched"));
        assert_eq!(fs::read(&open.journal).unwrap(), other);
    }
    for begun in [&b""[..], b"s", b"streamvault journal 1\n", &[0; 9], &[0; 99], &whole[..whole.len() - 1]] {
        let open = Open::left(&folder, Some(begun.to_vec()), &before);
        assert_eq!(find(&open.journal, &open.file).unwrap(), Found::Incomplete);
    }
}

#[test]
fn a_journal_is_for_those_that_the_file_is_for() {
    let folder = Folder::new("mode");
    let (before, _, change) = lifted(Version::Id3v24);
    let open = Open::new(&folder, &before);
    open.file.set_permissions(fs::Permissions::from_mode(0o700)).unwrap();
    let _ = open.change(&Stopping { left: Cell::new(4), taken: |len| len }, &change);
    assert_eq!(fs::metadata(&open.journal).unwrap().permissions().mode() & 0o777, 0o600);
}

#[test]
fn a_journal_stands_beside_the_file_itself() {
    let folder = Folder::new("places");
    let path = folder.file("song.mp3", b"");
    let link = folder.0.join("link.mp3");
    symlink("song.mp3", &link).unwrap();
    let journal = folder.0.join("song.mp3.streamvault-journal");
    assert_eq!(place(&path).unwrap(), journal);
    assert_eq!(place(&link).unwrap().parent(), fs::canonicalize(&folder.0).ok().as_deref());
    assert_eq!(place(&link).unwrap().file_name(), journal.file_name());
    assert!(!stands(&path).unwrap() && !stands(&link).unwrap());
    fs::write(&journal, b"").unwrap();
    assert!(stands(&path).unwrap() && stands(&link).unwrap());
    assert_eq!(song_of(&journal), Some(path));
    for none in ["song.mp3", ".streamvault-journal", "streamvault-journal", "a.streamvault-journal.mp3", ".."] {
        assert_eq!(song_of(&folder.0.join(none)), None);
    }
}

#[test]
fn a_name_that_leaves_no_room_for_a_journals_has_none() {
    let folder = Folder::new("long-name");
    let (before, _, change) = lifted(Version::Id3v24);
    let path = folder.file(&"n".repeat(250), &before);
    let file = File::options().read(true).write(true).open(&path).unwrap();
    assert!(!stands(&path).unwrap());
    let journal = place(&path).unwrap();
    assert_eq!(find(&journal, &file).unwrap(), Found::Nothing);
    let failure = super::change(&Real, &file, &journal, &change, || Ok(())).unwrap_err();
    assert!(failure.to_string().starts_with("not raised: its journal: File name too long"), "{failure}");
    assert_eq!(fs::read(&path).unwrap(), before);
}
