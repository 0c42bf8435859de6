//! Hard use of the functions that read.

use crate::common::Numbers;
use crate::words::{field_limits, is_reader, is_record, reader_words, some_words};
use crate::{tags, Buffers, HEADERS, OPENS, STEPS};
use streamvault::calls;
use streamvault::sys::*;

impl Buffers {
    pub fn header(&mut self, numbers: &mut Numbers) {
        self.tag.put(tags::any(numbers), numbers.once_in(2));
        self.state.put(some_words(numbers, SV_HEADER_WORDS), numbers.once_in(2));
        let answer = calls::header(self.tag.lent(), self.state.lent());
        self.meet("header", HEADERS, answer);
        let words = self.state.now();
        assert_eq!(self.tag.now(), self.tag.was());
        if words.len() < SV_HEADER_WORDS {
            assert_eq!(answer, SV_NO_ROOM);
        }
        if answer != 0 {
            assert!(answer != SV_NO_ROOM || words.len() < SV_HEADER_WORDS);
            assert_eq!(words, self.state.was());
            return;
        }
        assert_eq!(words[SV_HEADER_WORDS..], self.state.was()[SV_HEADER_WORDS..]);
        assert_eq!(words[SV_HEADER_VERSION], u64::from(self.tag.was()[3]));
        assert_eq!(words[SV_HEADER_FLAGS], u64::from(self.tag.was()[5]));
        assert!(words[SV_HEADER_SIZE] < 1 << 29 && words[SV_HEADER_EXT] < 1 << 29);
    }

    /// Opens a tag and reads it to its end.
    pub fn reading(&mut self, numbers: &mut Numbers) {
        let tag = tags::any(numbers);
        let room = numbers.below(2 * tag.len() + 2);
        let frames = tag.len() / 6 + 1;
        self.tag.put(tag, numbers.once_in(2));
        self.work.put(numbers.bytes(room), numbers.once_in(2));
        self.state.put(some_words(numbers, SV_READER_WORDS), numbers.once_in(2));
        if !self.open() {
            return;
        }
        for _ in 0..frames {
            let (reader, work) = (self.state.now().to_vec(), self.work.now().to_vec());
            self.state.put(reader, numbers.once_in(2));
            self.work.put(work, numbers.once_in(2));
            self.record.put(some_words(numbers, SV_RECORD_WORDS), numbers.once_in(2));
            if self.record.was().len() >= SV_RECORD_WORDS && self.step() != 0 {
                break;
            }
        }
    }

    /// Opens the tag; whether it was accepted.
    fn open(&mut self) -> bool {
        let answer = calls::open(self.tag.lent(), self.work.lent(), self.state.lent());
        self.meet("open", OPENS, answer);
        let (words, work) = (self.state.now(), self.work.now());
        assert_eq!(self.tag.now(), self.tag.was());
        if words.len() < SV_READER_WORDS {
            assert_eq!(answer, SV_NO_ROOM);
        }
        if answer != 0 {
            assert!(answer != SV_NO_ROOM || words.len() < SV_READER_WORDS);
            assert_eq!((words, work), (self.state.was(), self.work.was()));
            return false;
        }
        assert_eq!(words[SV_READER_WORDS..], self.state.was()[SV_READER_WORDS..]);
        assert!(is_reader(words) && words[SV_READER_STOP] == SV_STOP_RUNNING);
        let (begin, end) = (words[SV_READER_BEGIN] as usize, words[SV_READER_END] as usize);
        assert!(begin <= end && words[SV_READER_AT] as usize == begin);
        if words[SV_READER_IN_WORK] == 0 {
            assert!(end <= self.tag.was().len());
            assert_eq!(work, self.work.was());
        } else {
            assert_eq!(work[end..], self.work.was()[end..]);
        }
        true
    }

    pub fn step_from_any_words(&mut self, numbers: &mut Numbers) {
        let tag = tags::any(numbers);
        let room = numbers.below(tag.len() + 2);
        self.state.put(reader_words(numbers, tag.len()), numbers.once_in(2));
        self.record.put(some_words(numbers, SV_RECORD_WORDS), numbers.once_in(2));
        self.work.put(if numbers.once_in(2) { tag.clone() } else { numbers.bytes(room) }, numbers.once_in(2));
        self.tag.put(tag, numbers.once_in(2));
        self.step();
    }

    /// Makes a step and checks all that the interface says of it.
    fn step(&mut self) -> u32 {
        let answer = calls::step(self.tag.lent(), self.work.lent(), self.state.lent(), self.record.lent());
        assert_eq!(self.tag.now(), self.tag.was());
        self.step_elsewhere(answer);
        let was = self.state.was();
        if was.len() < SV_READER_WORDS || self.record.was().len() < SV_RECORD_WORDS {
            assert_eq!(answer, SV_NO_ROOM);
            self.nothing_changed();
            self.meet("step", STEPS, answer);
        } else if !is_reader(was) {
            assert_eq!(answer, SV_UNKNOWN_VERSION);
            self.nothing_changed();
            self.meet("step", STEPS, answer);
        } else if was[SV_READER_STOP] == SV_STOP_ENDED {
            assert_eq!(answer, SV_END);
            self.nothing_changed();
        } else if was[SV_READER_STOP] == SV_STOP_REFUSED {
            assert_eq!(u64::from(answer), was[SV_READER_NUMBER]);
            self.nothing_changed();
        } else {
            assert!(answer != SV_NO_ROOM && answer != SV_UNKNOWN_VERSION);
            self.moved(answer);
            self.meet("step", STEPS, answer);
        }
        answer
    }

    /// The same step over copies has the same answer and leaves the same.
    fn step_elsewhere(&self, answer: u32) {
        let (mut work, mut reader) = (self.work.was().to_vec(), self.state.was().to_vec());
        let mut record = self.record.was().to_vec();
        let again = calls::step(self.tag.was(), &mut work, &mut reader, &mut record);
        assert_eq!(again, answer);
        assert_eq!(work, self.work.now());
        assert_eq!(reader, self.state.now());
        assert_eq!(record, self.record.now());
    }

    fn nothing_changed(&self) {
        assert_eq!(self.state.now(), self.state.was());
        assert_eq!(self.record.now(), self.record.was());
        assert_eq!(self.work.now(), self.work.was());
    }

    /// The buffer that the frames lie in.
    fn buffer(&self) -> &[u8] {
        if self.state.was()[SV_READER_IN_WORK] == 1 {
            self.work.was()
        } else {
            self.tag.was()
        }
    }

    /// What a step answers by the popularimeter that comes next, if a plain one does.
    fn by_popularimeter(&self) -> Option<u32> {
        let (was, buffer) = (self.state.was(), self.buffer());
        let end = was[SV_READER_END].min(buffer.len() as u64);
        let rest = buffer.get(was[SV_READER_AT] as usize..end as usize)?;
        at_popularimeter(was[SV_READER_VERSION], rest)
    }

    /// What a running reader's step leaves.
    fn moved(&self, answer: u32) {
        let (was, now) = (self.state.was(), self.state.now());
        let mut want = was.to_vec();
        match answer {
            0 => want[SV_READER_AT] = now[SV_READER_AT],
            SV_END => want[SV_READER_STOP] = SV_STOP_ENDED,
            number => {
                want[SV_READER_STOP] = SV_STOP_REFUSED;
                want[SV_READER_NUMBER] = u64::from(number);
            }
        }
        assert_eq!(now, want);
        if let Some(want) = self.by_popularimeter() {
            assert_eq!(answer, want);
        }
        if was[SV_READER_IN_WORK] == 1 || answer == SV_END {
            assert_eq!(self.work.now(), self.work.was());
        }
        if answer != 0 {
            assert_eq!(self.record.now(), self.record.was());
            return;
        }
        let buffer = self.buffer();
        assert!(was[SV_READER_AT] < now[SV_READER_AT]);
        assert!(now[SV_READER_AT] <= was[SV_READER_END].min(buffer.len() as u64));
        self.shown();
    }

    /// The record of an accepted step.
    fn shown(&self) {
        let record = self.record.now();
        assert_eq!(record[SV_RECORD_WORDS..], self.record.was()[SV_RECORD_WORDS..]);
        assert!(is_record(record) && record[SV_RECORD_IN_WORK] <= 1);
        let limits = field_limits(record[SV_RECORD_KIND]).len();
        assert!(record[4 + limits..9].iter().all(|word| *word == 0));
        let buffer = if record[SV_RECORD_IN_WORK] == 1 { self.work.now() } else { self.tag.was() };
        let (body, len) = (record[SV_RECORD_BODY_START], record[SV_RECORD_BODY_LEN]);
        assert!(body + len <= buffer.len() as u64);
        if record[SV_RECORD_KIND] == SV_KIND_POPULARIMETER {
            let behind_user = (record[SV_RECORD_NAME_START] + record[SV_RECORD_NAME_LEN]) as usize;
            let counter = number(&buffer[behind_user + 2..(body + len) as usize]);
            assert_eq!(counter, Some(record[SV_POPULARIMETER_COUNTER]));
        }
        for part in [SV_RECORD_NAME_START, SV_RECORD_NAMES_START, SV_RECORD_REST_START] {
            let (start, part) = (record[part], record[part + 1]);
            let inside = body <= start && start + part <= body + len;
            assert!(inside || (start, part) == (0, 0));
        }
    }
}

/// The number that bytes make, highest first, if 64 bits hold it.
fn number(bytes: &[u8]) -> Option<u64> {
    bytes.iter().try_fold(0_u64, |number, byte| Some(number.checked_mul(256)? + u64::from(*byte)))
}

/// What a step answers where a popularimeter stands first that is whole and without flags.
fn at_popularimeter(version: u64, rest: &[u8]) -> Option<u32> {
    let (id, header) = if version == 2 { (&b"POP"[..], 6) } else { (&b"POPM"[..], 10) };
    let (head, behind) = rest.split_at_checked(header)?;
    let size = head.strip_prefix(id)?;
    let size = match version {
        2 => number(size)?,
        3 if size[4..] == [0, 0] => number(&size[..4])?,
        4 if size[4..] == [0, 0] => size[..4].iter().fold(0, |size, byte| size << 7 | u64::from(*byte)),
        _ => return None,
    };
    let body = behind.get(..size as usize)?;
    let zero = body.iter().position(|byte| *byte == 0);
    let Some(counter) = zero.and_then(|zero| body.get(zero + 2..)) else { return Some(SV_MISSING_FIELD) };
    Some(if number(counter).is_some() { 0 } else { SV_COUNTER_TOO_LARGE })
}
