//! Hard use of the functions that write, and of the one that unpacks references.

use crate::common::Numbers;
use crate::words::{is_given_record, is_writer, record_words, some_words, word, writer_words};
use crate::{tags, Buffers, ADDS, BEGINS, FINISHES, REFERENCES};
use streamvault::calls::{self, Given};
use streamvault::sys::*;

impl Buffers {
    pub fn begin(&mut self, numbers: &mut Numbers) {
        let plain = numbers.once_in(3);
        let given = if plain { [word(numbers), 0, 0] } else { [word(numbers), word(numbers) % 5, word(numbers) % 4] };
        self.state.put(some_words(numbers, SV_WRITER_WORDS), numbers.once_in(2));
        let answer = if plain {
            calls::begin_plain(given[0], self.state.lent())
        } else {
            calls::begin(given[0], given[1], given[2], self.state.lent())
        };
        self.meet("begin", BEGINS, answer);
        let mut want = self.state.was().to_vec();
        if want.len() < SV_WRITER_WORDS {
            assert_eq!(answer, SV_NO_ROOM);
        } else if (2..=4).contains(&given[0]) && given[1] <= 2 && given[2] <= 1 {
            assert_eq!(answer, 0);
            want[..SV_WRITER_WORDS].copy_from_slice(&[given[0], given[1], given[2], 0]);
        } else {
            assert_eq!(answer, SV_UNKNOWN_VERSION);
        }
        assert_eq!(self.state.now(), want);
    }

    // ---- adding

    pub fn add(&mut self, numbers: &mut Numbers) {
        self.put_frame(numbers);
        let given = Given {
            record: self.record.lent(),
            name: self.name.lent(),
            names: self.names.lent(),
            rest: self.rest.lent(),
            deviations: self.deviations.lent(),
        };
        let answer = calls::add(given, self.output.lent(), self.state.lent(), self.count.lent());
        self.meet("add", ADDS, answer);
        self.record_stayed();
        let enough = self.state.was().len() >= SV_WRITER_WORDS && self.record.was().len() >= SV_RECORD_WORDS;
        if self.counted(answer, enough) {
            self.appended();
        } else {
            assert_eq!(self.state.now(), self.state.was());
            assert_eq!(self.output.now(), self.output.was());
        }
        if enough && !self.count.was().is_empty() {
            self.answered_to_words(answer);
        }
    }

    /// A record, a writer and a collecting buffer.
    fn put_frame(&mut self, numbers: &mut Numbers) {
        let room = numbers.below(200);
        let used = if numbers.once_in(10) { numbers.below(300) } else { numbers.below(room + 1) };
        self.put_record(numbers);
        self.output.put(numbers.bytes(room), numbers.once_in(2));
        self.state.put(writer_words(numbers, used), numbers.once_in(2));
        self.count.put(some_words(numbers, SV_COUNT_WORDS), numbers.once_in(2));
    }

    /// A record with its bytes.
    pub fn put_record(&mut self, numbers: &mut Numbers) {
        let small = numbers.once_in(2);
        let deviation = |numbers: &mut Numbers| if small { numbers.below(2) as u32 } else { word(numbers) as u32 };
        let deviations = (0..numbers.below(9)).map(|_| deviation(numbers)).collect();
        self.record.put(record_words(numbers), numbers.once_in(2));
        self.name.put(tags::part(numbers), numbers.once_in(2));
        self.names.put(tags::part(numbers), numbers.once_in(2));
        self.rest.put(tags::part(numbers), numbers.once_in(2));
        self.deviations.put(deviations, numbers.once_in(2));
    }

    /// No call changes a record that is given.
    pub fn record_stayed(&self) {
        assert_eq!(self.record.now(), self.record.was());
        assert_eq!(self.name.now(), self.name.was());
        assert_eq!(self.names.now(), self.names.was());
        assert_eq!(self.rest.now(), self.rest.was());
        assert_eq!(self.deviations.now(), self.deviations.was());
    }

    /// Checks the count; whether the call was accepted. Where words are lacking, nothing at all changes.
    fn counted(&self, answer: u32, enough: bool) -> bool {
        let now = self.count.now();
        let mut want = self.count.was().to_vec();
        if !enough || want.is_empty() {
            assert_eq!(answer, SV_NO_ROOM);
        } else {
            want[0] = if answer == 0 { now[0] } else { 0 };
        }
        assert_eq!(now, want);
        answer == 0
    }

    /// Words that no call leaves have their answer.
    fn answered_to_words(&self, answer: u32) {
        match (is_writer(self.state.was()), is_given_record(self.record.was())) {
            (true, true) => assert_ne!(answer, SV_UNKNOWN_VERSION),
            (true, false) => assert_eq!(answer, SV_WRONG_ID),
            (false, _) => assert_eq!(answer, SV_UNKNOWN_VERSION),
        }
    }

    /// What an accepted frame changes: its bytes, and how many are used.
    fn appended(&self) {
        let count = self.count.now()[0];
        let mut writer = self.state.was().to_vec();
        let used = writer[SV_WRITER_USED] as usize;
        writer[SV_WRITER_USED] += count;
        assert_eq!(self.state.now(), writer);
        let (was, now) = (self.output.was(), self.output.now());
        if count == 0 {
            assert_eq!(now, was);
            return;
        }
        let behind = used + count as usize;
        assert_eq!((&now[..used], &now[behind..]), (&was[..used], &was[behind..]));
        let bytes = (self.record.was()[SV_RECORD_ID] as u32).to_be_bytes();
        let id = if writer[SV_WRITER_VERSION] == 2 { &bytes[1..] } else { &bytes[..] };
        assert!(now[used..].starts_with(id));
    }

    // ---- finishing

    pub fn finish(&mut self, numbers: &mut Numbers) {
        let padding = if numbers.once_in(8) { word(numbers) } else { numbers.below(20) as u64 };
        self.put_frames(numbers);
        let (rest, output) = (self.rest.lent(), self.output.lent());
        let answer = calls::finish(padding, rest, output, self.state.lent(), self.count.lent());
        self.meet("finish", FINISHES, answer);
        assert_eq!(self.rest.now(), self.rest.was());
        assert_eq!(self.state.now(), self.state.was());
        let enough = self.state.was().len() >= SV_WRITER_WORDS;
        if self.counted(answer, enough) {
            self.finished(padding as usize);
        } else {
            assert_eq!(self.output.now(), self.output.was());
        }
        if enough && !self.count.was().is_empty() {
            assert_eq!(answer == SV_UNKNOWN_VERSION, !is_writer(self.state.was()));
        }
    }

    /// A writer, its frames and an output buffer.
    fn put_frames(&mut self, numbers: &mut Numbers) {
        let len = numbers.below(60);
        let used = if numbers.once_in(8) { numbers.below(80) } else { numbers.below(len + 1) };
        let room = numbers.below(180);
        self.rest.put(numbers.bytes(len), numbers.once_in(2));
        self.output.put(numbers.bytes(room), numbers.once_in(2));
        self.state.put(writer_words(numbers, used), numbers.once_in(2));
        self.count.put(some_words(numbers, SV_COUNT_WORDS), numbers.once_in(2));
    }

    /// A finished tag begins with its name, ends in its padding, and nothing after it changed.
    fn finished(&self, padding: usize) {
        let len = self.count.now()[0] as usize;
        let (was, now) = (self.output.was(), self.output.now());
        assert!(10 + padding <= len && now.starts_with(b"ID3"));
        assert!(now[len - padding..len].iter().all(|byte| *byte == 0));
        assert_eq!(now[len..], was[len..]);
    }

    // ---- references

    pub fn references(&mut self, numbers: &mut Numbers) {
        self.put_table(numbers);
        let (record, rest) = (self.record.lent(), self.rest.lent());
        let answer = calls::references(record, rest, self.deviations.lent(), self.count.lent());
        self.meet("references", REFERENCES, answer);
        assert_eq!(self.record.now(), self.record.was());
        assert_eq!(self.rest.now(), self.rest.was());
        let enough = self.record.was().len() >= SV_RECORD_WORDS;
        if self.counted(answer, enough) {
            let count = self.count.now()[0] as usize;
            assert_eq!(self.deviations.now()[count..], self.deviations.was()[count..]);
        } else {
            assert_eq!(self.deviations.now(), self.deviations.was());
        }
        if enough && !self.count.was().is_empty() {
            assert_eq!((answer, self.count.now()[0]), self.unpacked());
        }
    }

    /// A record that is mostly a table, packed references and room for their deviations.
    fn put_table(&mut self, numbers: &mut Numbers) {
        let mut record = record_words(numbers);
        if record.len() >= SV_RECORD_WORDS && !numbers.once_in(8) {
            record[SV_RECORD_KIND] = SV_KIND_TABLE;
            record[SV_TABLE_BITS_FOR_BYTES] = numbers.below(35) as u64;
            record[SV_TABLE_BITS_FOR_MILLIS] = numbers.below(35) as u64;
        }
        let deviations = (0..numbers.below(100)).map(|_| numbers.any() as u32).collect();
        self.record.put(record, numbers.once_in(2));
        self.rest.put(tags::part(numbers), numbers.once_in(2));
        self.deviations.put(deviations, numbers.once_in(2));
        self.count.put(some_words(numbers, SV_COUNT_WORDS), numbers.once_in(2));
    }

    /// The answer and the count that a table has: as many references as fit whole. Another record has none.
    fn unpacked(&self) -> (u32, u64) {
        let record = self.record.was();
        if !is_given_record(record) {
            return (SV_WRONG_ID, 0);
        }
        if record[SV_RECORD_KIND] != SV_KIND_TABLE {
            return (0, 0);
        }
        let widths = [record[SV_TABLE_BITS_FOR_BYTES], record[SV_TABLE_BITS_FOR_MILLIS]];
        if widths.iter().any(|width| !(1..=32).contains(width)) {
            return (SV_WRONG_WIDTH, 0);
        }
        let count = 8 * self.rest.was().len() as u64 / (widths[0] + widths[1]) * 2;
        if count > self.deviations.was().len() as u64 {
            return (SV_NO_ROOM, 0);
        }
        (0, count)
    }
}
