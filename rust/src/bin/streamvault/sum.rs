//! The sum of counters by user.
//!
//! Counters are read by the meter and by nothing else: the whole popularimeters of the top level of the tag at a file's
//! front. Those inside chapters do not count. All that may be missing from the sum is listed.

use crate::files::{Files, Met};
use crate::journal;
use crate::left::{left, Left};
use crate::parts::{Further, Parts, KEPT};
use crate::progress::Progress;
use crate::show;
use std::collections::BTreeMap;
use std::fmt;
use std::fs::File;
use std::io;
use std::iter::Enumerate;
use std::path::{Path, PathBuf};
use std::sync::Mutex;
use std::thread;
use streamvault::{Meter, Refusal, Work};

/// What one user's popularimeters sum to.
#[derive(Clone, Copy, Debug, Default, PartialEq, Eq)]
pub struct Total {
    /// How many there are.
    pub popularimeters: u64,
    /// The sum of their counters.
    pub counter: u128,
}

impl Total {
    /// Of one popularimeter.
    fn of(counter: u64) -> Total {
        Total { popularimeters: 1, counter: u128::from(counter) }
    }

    /// With another total; nothing where a sum does not fit.
    fn plus(self, other: Total) -> Option<Total> {
        let popularimeters = self.popularimeters.checked_add(other.popularimeters)?;
        let counter = self.counter.checked_add(other.counter)?;
        Some(Total { popularimeters, counter })
    }
}

/// A sum that does not fit 128 bits.
#[derive(Debug, PartialEq, Eq)]
pub struct TooLarge {
    user: String,
}

impl fmt::Display for TooLarge {
    fn fmt(&self, f: &mut fmt::Formatter<'_>) -> fmt::Result {
        write!(f, "the counters of {} sum to more than 128 bits hold", self.user)
    }
}

/// Why counters of a file may be missing from the sum.
#[derive(Debug)]
pub enum Lack {
    /// Its tag was refused.
    Refused {
        /// Why.
        refusal: Refusal,
        /// Its popularimeters before the refusal, which are counted.
        counted: u64,
    },
    /// Its tag was cut.
    Cut {
        /// Bytes of the tag by its header.
        promised: usize,
        /// Bytes of the tag that are there.
        there: usize,
        /// Whether a frame is short.
        short: bool,
        /// Its popularimeters before the cut, which are counted.
        counted: u64,
    },
    /// It has a compressed popularimeter.
    Compressed,
    /// Something stands after the frames of its tag.
    Left(Left),
    /// It has a further tag.
    Further(Further),
    /// A raise of it did not end: its journal stands beside it, and its bytes may be half changed.
    Interrupted,
    /// It is a journal, and its file is not there.
    JournalAlone,
    /// It is a link to a folder that is not summed.
    Elsewhere,
    /// It cannot be read.
    Unreadable(io::Error),
}

/// A file or a folder whose counters may be missing.
#[derive(Debug)]
pub struct Problem {
    /// Its place among all that was met.
    order: usize,
    /// Where it is.
    pub path: PathBuf,
    /// What is wrong.
    pub lack: Lack,
}

/// The sum over many files.
#[derive(Debug, Default)]
pub struct Sum {
    /// By user.
    pub users: BTreeMap<Vec<u8>, Total>,
    /// Over all users.
    pub all: Total,
    /// Files with a tag at their front, refused ones among them.
    pub tags: u64,
    /// Files without one.
    pub without: u64,
    /// Further names of files that were counted.
    pub again: u64,
    /// Links to folders, which were not followed.
    pub links: u64,
    /// All that may be missing, in the order in which it was met.
    pub problems: Vec<Problem>,
}

impl Sum {
    /// The sum over files, which so many threads read. It is the same whatever their number.
    pub fn over(files: Files, jobs: usize, progress: Progress) -> Result<Sum, TooLarge> {
        let queue = Mutex::new(Queue { files: files.enumerate(), progress });
        let share = || Worker::default().sum(&queue);
        thread::scope(|scope| {
            // where no more threads can be started, those that there are do all
            let spawn = |_| thread::Builder::new().spawn_scoped(scope, share).ok();
            let others: Vec<_> = (1..jobs).map_while(spawn).collect();
            let mut sum = share()?;
            for other in others {
                sum.join(other.join().expect("a thread ends")?)?;
            }
            sum.problems.sort_by_key(|problem| problem.order);
            Ok(sum)
        })
    }

    /// Whether nothing is missing.
    pub fn all_read(&self) -> bool {
        self.problems.is_empty()
    }

    /// Whether a file or a folder could not be read.
    pub fn any_unreadable(&self) -> bool {
        self.problems.iter().any(|problem| matches!(problem.lack, Lack::Unreadable(_)))
    }

    /// Takes what another thread summed.
    fn join(&mut self, other: Sum) -> Result<(), TooLarge> {
        for (user, total) in &other.users {
            self.add(user, *total)?;
        }
        self.tags += other.tags;
        self.without += other.without;
        self.again += other.again;
        self.links += other.links;
        self.problems.extend(other.problems);
        Ok(())
    }

    /// Adds to the total of a user; a sum that does not fit changes nothing.
    fn add(&mut self, user: &[u8], more: Total) -> Result<(), TooLarge> {
        self.added(user, more).ok_or_else(|| TooLarge { user: show::user(user) })
    }

    fn added(&mut self, user: &[u8], more: Total) -> Option<()> {
        let all = self.all.plus(more)?;
        match self.users.get_mut(user) {
            Some(total) => *total = total.plus(more)?,
            None => {
                self.users.insert(user.to_vec(), more);
            }
        }
        self.all = all;
        Some(())
    }

    /// Adds the popularimeters of a tag, up to its end or to a refusal. Gives what may be missing.
    fn add_tag(&mut self, tag: &[u8], work: &mut Vec<u8>) -> Result<Vec<Lack>, TooLarge> {
        self.tags += 1;
        let mut meter = match Meter::open(tag, work) {
            Ok(meter) => meter,
            Err(refusal) => return Ok(vec![Lack::Refused { refusal, counted: 0 }]),
        };
        let mut counted = 0;
        while let Some(Ok(found)) = meter.next_popularimeter() {
            self.add(found.user, Total::of(found.counter))?;
            counted += 1;
        }
        Ok(lacks(tag, &meter, counted))
    }
}

/// What may be missing of a tag that is not summed.
pub fn lacks_of(tag: &[u8]) -> Vec<Lack> {
    let mut meter = match Meter::open(tag, Vec::new()) {
        Ok(meter) => meter,
        Err(refusal) => return vec![Lack::Refused { refusal, counted: 0 }],
    };
    let mut counted = 0;
    while let Some(Ok(_)) = meter.next_popularimeter() {
        counted += 1;
    }
    lacks(tag, &meter, counted)
}

/// What may be missing of a tag, by the meter that went through it.
fn lacks<W: Work>(tag: &[u8], meter: &Meter<'_, W>, counted: u64) -> Vec<Lack> {
    let (mut lacks, ending) = (Vec::new(), meter.ending());
    if let Some(refusal) = ending.refusal {
        lacks.push(Lack::Refused { refusal, counted });
    }
    if ending.missing || ending.short {
        let promised = streamvault::header(tag).map_or(0, |header| header.tag_len());
        lacks.push(Lack::Cut { promised, there: tag.len(), short: ending.short, counted });
    }
    if ending.compressed {
        lacks.push(Lack::Compressed);
    }
    lacks.extend(left(tag, meter).map(Lack::Left));
    lacks
}

/// What is still to be summed, each with its place in the order.
struct Queue {
    files: Enumerate<Files>,
    progress: Progress,
}

impl Queue {
    fn next(&mut self) -> Option<(usize, Met)> {
        let next = self.files.next()?;
        if let Met::File(_) = next.1 {
            self.progress.file();
        }
        Some(next)
    }
}

/// One thread's share of a sum, and the buffers that it reads to. It holds one tag at a time.
#[derive(Default)]
struct Worker {
    sum: Sum,
    parts: Parts,
    work: Vec<u8>,
}

impl Worker {
    /// Sums what waits, until nothing does.
    fn sum(mut self, queue: &Mutex<Queue>) -> Result<Sum, TooLarge> {
        while let Some((order, met)) = next(queue) {
            match met {
                Met::File(path) => self.file(order, path)?,
                Met::Again => self.sum.again += 1,
                Met::Journal(path, song) => self.journal(order, path, &song),
                Met::Link => self.sum.links += 1,
                Met::Elsewhere(path) => {
                    self.sum.links += 1;
                    self.lacking(order, path, vec![Lack::Elsewhere]);
                }
                Met::Unreadable(path, error) => self.lacking(order, path, vec![Lack::Unreadable(error)]),
            }
        }
        Ok(self.sum)
    }

    fn file(&mut self, order: usize, path: PathBuf) -> Result<(), TooLarge> {
        let lacks = match self.read(&path) {
            Ok(false) => self.add_parts()?,
            Ok(true) => vec![Lack::Interrupted],
            Err(error) => vec![Lack::Unreadable(error)],
        };
        self.lacking(order, path, lacks);
        Ok(())
    }

    /// Reads the parts of a file. Its length is that of the open file, and not of what the path may lead to by now. Gives
    /// whether a journal stands beside it then: a raise that began meanwhile is met as well.
    fn read(&mut self, path: &Path) -> io::Result<bool> {
        let file = File::open(path)?;
        let len = file.metadata()?.len();
        self.parts.read(&file, len)?;
        journal::stands(path)
    }

    /// A journal holds nothing to be summed. Where its file is there, that one is listed.
    fn journal(&mut self, order: usize, path: PathBuf, song: &Path) {
        if !song.exists() {
            self.lacking(order, path, vec![Lack::JournalAlone]);
        }
    }

    /// Adds what was read of a file. Gives what may be missing.
    fn add_parts(&mut self) -> Result<Vec<Lack>, TooLarge> {
        let mut lacks = Vec::new();
        if self.parts.has_tag() {
            lacks = self.sum.add_tag(self.parts.tag(), &mut self.work)?;
            self.work.truncate(KEPT);
            self.work.shrink_to(KEPT);
        } else {
            self.sum.without += 1;
        }
        lacks.extend(self.parts.further().map(Lack::Further));
        Ok(lacks)
    }

    fn lacking(&mut self, order: usize, path: PathBuf, lacks: Vec<Lack>) {
        let problems = lacks.into_iter().map(|lack| Problem { order, path: path.clone(), lack });
        self.sum.problems.extend(problems);
    }
}

/// What is to be summed next. Only one thread at a time looks at folders.
fn next(queue: &Mutex<Queue>) -> Option<(usize, Met)> {
    queue.lock().expect("no thread failed").next()
}

#[cfg(test)]
impl Sum {
    /// Lists a problem, as the next in order.
    pub fn list(&mut self, path: &str, lack: Lack) {
        self.problems.push(Problem { order: self.problems.len(), path: PathBuf::from(path), lack });
    }
}

#[cfg(test)]
mod tests {
    use super::*;
    use streamvault::{Content, Mode, Version, Writer};

    /// A tag with these popularimeters.
    fn tag(version: Version, users: &[(&[u8], u64)]) -> Vec<u8> {
        let mut writer = Writer::new(version).mode(Mode::Standard);
        for &(user, counter) in users {
            let content = Content::Popularimeter { user, rating: 0, counter };
            let id = if version == Version::Id3v22 { b"POP".into() } else { streamvault::Id::from(b"POPM") };
            writer.add(id, &content).unwrap();
        }
        writer.finish(4).unwrap()
    }

    /// The sum over tags, and what may be missing, in words.
    fn sum_of(tags: &[&[u8]]) -> (Sum, Vec<String>) {
        let mut sum = Sum::default();
        let mut work = Vec::new();
        let lacks = tags.iter().flat_map(|tag| sum.add_tag(tag, &mut work).unwrap());
        let lacks = lacks.map(|lack| format!("{lack:?}")).collect();
        (sum, lacks)
    }

    #[test]
    fn several_popularimeters_of_one_file_count_each() {
        let one = tag(Version::Id3v24, &[(b"a", 3), (b"b", 0xFF00), (b"a", 4)]);
        let (sum, lacks) = sum_of(&[&one]);
        assert_eq!(sum.users[&b"a"[..]], Total { popularimeters: 2, counter: 7 });
        assert_eq!(sum.users[&b"b"[..]], Total { popularimeters: 1, counter: 0xFF00 });
        assert_eq!(sum.all, Total { popularimeters: 3, counter: 7 + 0xFF00 });
        assert!(lacks.is_empty());
    }

    #[test]
    fn counters_of_64_bits_sum_beyond_them() {
        let one = tag(Version::Id3v22, &[(b"a", u64::MAX)]);
        let two = tag(Version::Id3v23, &[(b"a", u64::MAX)]);
        let (sum, _) = sum_of(&[&one, &two]);
        assert_eq!(sum.users[&b"a"[..]].counter, 2 * u128::from(u64::MAX));
    }

    #[test]
    fn a_cut_tag_is_told_and_nothing_of_a_short_frame_counts() {
        let whole = tag(Version::Id3v24, &[(b"a", 3), (b"b", 0x0102_0304)]);
        let cut = &whole[..whole.len() - 6];
        let (sum, lacks) = sum_of(&[cut]);
        assert_eq!(sum.all, Total { popularimeters: 1, counter: 3 });
        let want = format!("Cut {{ promised: {}, there: {}, short: true, counted: 1 }}", whole.len(), cut.len());
        assert_eq!(lacks, [want]);
    }

    #[test]
    fn a_cut_between_frames_and_one_in_the_padding_are_told() {
        let whole = tag(Version::Id3v24, &[(b"a", 3), (b"b", 5)]);
        for (missing, counted) in [(4 + 14, 1), (2, 2)] {
            let (sum, lacks) = sum_of(&[&whole[..whole.len() - missing]]);
            assert_eq!((sum.all.popularimeters, lacks.len()), (counted, 1), "{lacks:?}");
            assert!(lacks[0].contains("short: false"), "{lacks:?}");
        }
    }

    #[test]
    fn a_short_frame_is_told_also_where_no_byte_is_missing() {
        let mut long = tag(Version::Id3v24, &[(b"a", 3)]);
        long[17] = 100;
        let (sum, lacks) = sum_of(&[&long]);
        assert_eq!(sum.all.popularimeters, 0);
        assert_eq!(lacks, [format!("Cut {{ promised: {0}, there: {0}, short: true, counted: 0 }}", long.len())]);
    }

    #[test]
    fn what_was_whole_before_a_refusal_counts() {
        let whole = tag(Version::Id3v23, &[(b"a", 3), (b"b", 0x0102_0304)]);
        let (sum, lacks) = sum_of(&[&whole[..whole.len() - 6]]);
        assert_eq!(sum.all, Total { popularimeters: 1, counter: 3 });
        assert_eq!(lacks[0], "Refused { refusal: Refusal(5), counted: 1 }");
        assert!(lacks[1].starts_with("Cut { "));
    }

    /// A tag of whole popularimeters with these counter bytes, laid out here: the library writes no zeros in front.
    fn with_counters(counters: &[&[u8]]) -> Vec<u8> {
        let frames: Vec<u8> = counters
            .iter()
            .flat_map(|counter| {
                let head = [b'P', b'O', b'P', b'M', 0, 0, 0, 3 + counter.len() as u8, 0, 0];
                [&head, &b"a\0\0"[..], counter].concat()
            })
            .collect();
        [&b"ID3\x04\0\0\0\0\0"[..], &[frames.len() as u8], &frames].concat()
    }

    #[test]
    fn a_counter_of_any_length_counts_as_one_number() {
        let (sum, lacks) = sum_of(&[&with_counters(&[&[0, 0, 0, 0, 0, 0, 0, 0, 0, 0, 1, 2], &[0; 30], &[3]])]);
        assert_eq!(sum.all, Total { popularimeters: 3, counter: 258 + 3 });
        assert!(lacks.is_empty());
    }

    #[test]
    fn a_counter_that_is_too_large_is_told_and_what_was_before_it_counts() {
        let (sum, lacks) = sum_of(&[&with_counters(&[&[5], &[1, 0, 0, 0, 0, 0, 0, 0, 0], &[7]])]);
        assert_eq!(sum.all, Total { popularimeters: 1, counter: 5 });
        assert_eq!(lacks, ["Refused { refusal: Refusal(35), counted: 1 }"]);
    }

    #[test]
    fn a_refused_header_counts_nothing() {
        let (sum, lacks) = sum_of(&[b"ID3\x05\0\0\0\0\0\0"]);
        assert_eq!((sum.tags, sum.all), (1, Total::default()));
        assert_eq!(lacks, ["Refused { refusal: Refusal(2), counted: 0 }"]);
    }

    #[test]
    fn a_compressed_popularimeter_is_told() {
        let mut packed = tag(Version::Id3v24, &[(b"a", 3), (b"b", 5)]);
        packed[19] = 8;
        let (sum, lacks) = sum_of(&[&packed]);
        assert_eq!(sum.all, Total { popularimeters: 1, counter: 5 });
        assert_eq!(lacks, ["Compressed"]);
    }

    #[test]
    fn what_stands_after_the_frames_is_told_and_does_not_count() {
        let whole = tag(Version::Id3v24, &[(b"a", 3), (b"b", 5)]);
        // the size is too small: the tag ends two bytes into the second frame
        let mut small = whole.clone();
        small[9] = 14 + 2;
        // the first frame's id has a zero: padding begins there
        let mut padded = whole.clone();
        padded[10] = 0;
        let (sum, lacks) = sum_of(&[&small, &padded]);
        assert_eq!(sum.all, Total { popularimeters: 1, counter: 3 });
        assert_eq!(lacks, ["Left(CutHeader(24))", "Left(Id(\"POPM\", 24))"]);
    }

    #[test]
    fn popularimeters_inside_chapters_do_not_count() {
        let run = &tag(Version::Id3v23, &[(b"a", 3)])[10..];
        let run = &run[..run.len() - 4];
        let chapter =
            Content::Chapter { element: &b"c"[..], start_time: 0, end_time: 0, start_offset: 0, end_offset: 0, run };
        let mut writer = Writer::new(Version::Id3v23);
        writer.add(b"CHAP", &chapter).unwrap();
        let (sum, lacks) = sum_of(&[&writer.finish(0).unwrap()]);
        assert_eq!((sum.tags, sum.all), (1, Total::default()));
        assert!(lacks.is_empty());
    }

    #[test]
    fn a_sum_that_does_not_fit_is_said_and_changes_nothing() {
        let mut sum = Sum::default();
        let full = Total { popularimeters: 1, counter: u128::MAX };
        sum.users.insert(b"a".to_vec(), full);
        assert_eq!(sum.add(b"a", Total::of(1)), Err(TooLarge { user: "a".to_string() }));
        assert_eq!(sum.add(b"a", Total::of(0)), Ok(()));
        assert_eq!(sum.users[&b"a"[..]], Total { popularimeters: 2, counter: u128::MAX });
        assert_eq!(sum.all, Total { popularimeters: 1, counter: 0 });
    }

    #[test]
    fn what_threads_summed_is_joined() {
        let one = tag(Version::Id3v24, &[(b"a", 3), (b"b", 5)]);
        let (mut sum, _) = sum_of(&[&one]);
        let (mut other, _) = sum_of(&[&one, &one]);
        other.list("x", Lack::Compressed);
        sum.join(other).unwrap();
        assert_eq!(sum.users[&b"a"[..]], Total { popularimeters: 3, counter: 9 });
        assert_eq!((sum.all, sum.tags), (Total { popularimeters: 6, counter: 24 }, 3));
        assert!(!sum.all_read());
    }
}
