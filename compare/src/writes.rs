//! One list of records, given to both.
use crate::classes::Class;
use crate::reads::{closed, number, Comparison};
use compare::answers::{Entry, Frame, Order, Stop, Written};
use compare::counters;
use compare::ids::{edition_of, is_id, is_lost, is_people, kind_of, widths_refusal, wrapped, Kind};
use oracle::{Fields, List, Record, Subs, Unwritten};

/// The run of a chapter's subframes, or the number with which one of them is refused.
pub type Run = Result<Vec<u8>, u32>;

/// Padding above it is not made: there is no room for it, here or at the crate.
const FAR: usize = 1 << 14;

/// A record and the run of its subframes.
pub type Given = (Record, Vec<u8>);

impl Comparison<'_> {
    /// Has the records written, each refusal worked out beforehand; what was accepted is written by the crate too and compared.
    pub fn list(&mut self, list: &List) {
        let mut given = Vec::new();
        for record in &list.records {
            match self.run(list, record) {
                Err(number) => self.note(Class::Refused(number)),
                Ok(run) => given.push((record.clone(), run)),
            }
        }
        let written = self.library.write(&order(list, &given, room(&list.records), output_room(list)));
        let accepted = self.accepted(list, given, &written);
        if self.library.is_waiting() {
            return;
        }
        let theirs = self.theirs(list, &accepted);
        self.finished(list, &written, theirs);
        if list.padding % 4 == 1 {
            self.rooms(list, &accepted, &written);
        }
    }

    // the records that were accepted; each answer must be the expected one
    fn accepted(&mut self, list: &List, given: Vec<Given>, written: &Written) -> Vec<Given> {
        self.must(written.clean, "bytes or counts are changed that should not be");
        let mut out = Vec::new();
        for ((record, run), (answer, _)) in given.into_iter().zip(&written.added) {
            let foretold = self.refusal(list, &record, &run);
            if *answer != foretold {
                self.fault(|| format!("a record is answered {answer}, and {foretold} was foretold"));
            }
            if *answer == 0 {
                out.push((record, run));
            } else {
                self.note(Class::Refused(*answer));
            }
        }
        out
    }

    /// What the crate writes for the accepted records, a record that it cannot hold as its body.
    pub fn theirs(&mut self, list: &List, accepted: &[Given]) -> Result<Vec<u8>, Unwritten> {
        let mut given = Vec::new();
        for (record, run) in accepted {
            let edition = edition_of(list.version);
            if edition == 2 && list.file_altered && record.id == "RVA" {
                self.note(Class::OldRva);
                // an empty body it keeps too, and panics at it
                let lost = alone(list, record).is_ok_and(|tag| tag.len() == 10);
                self.must(!lost, "the crate does not keep RVA");
            } else if is_people(record.id.as_bytes()) && kind_of_record(record) == Kind::Text {
                self.note(Class::PeopleWritten);
                let refused = matches!(alone(list, record), Err(Unwritten::Refused(_) | Unwritten::NotHeld(_)));
                self.must(refused, "the crate writes a list of people as a text");
                given.push(as_raw(record));
            } else {
                self.long_counters(list, run);
                given.push(record.clone());
            }
        }
        match asked(list, &given) {
            Err(Unwritten::NotHeld(_)) => {
                let held: Vec<Record> = given.iter().map(|record| self.held(list, record)).collect();
                asked(list, &held)
            }
            answer => answer,
        }
    }

    // notes a run that has, at any depth, a counter of more than eight bytes: the crate's own popularimeter is written with other bytes, so that
    // the oracle gives it a raw frame
    fn long_counters(&mut self, list: &List, run: &[u8]) {
        if run.is_empty() {
            return;
        }
        for frame in self.library.read(&wrapped(edition_of(list.version), run)).frames {
            if is_chapter(&frame) {
                self.long_counters(list, &frame.rest);
            } else if frame.kind == Kind::Popularimeter as u64 && counters::is_long(&frame.body) {
                let [rating, counter, ..] = frame.numbers;
                let fields = Fields::Popularimeter { user: frame.name, rating: rating as u8, counter };
                let own = Record { id: "POPM".to_string(), fields };
                let written = oracle::write(list.version, false, 0, false, &[own]);
                let other = written.is_ok_and(|tag| tag[20..] != frame.body);
                self.must(other, "the crate's popularimeter holds a long counter");
                self.note(Class::RunNotHeld);
            }
        }
    }

    fn lost(&self, list: &List, record: &Record) -> bool {
        list.file_altered && is_lost(edition_of(list.version), record.id.as_bytes())
    }

    // the record, or its body under the same id where the crate has no value for it
    fn held(&mut self, list: &List, record: &Record) -> Record {
        if !matches!(alone(list, record), Err(Unwritten::NotHeld(_))) {
            return record.clone();
        }
        let text = matches!(record.fields, Fields::Text { .. });
        self.note(if text { Class::TextNotHeld } else { Class::RunNotHeld });
        let run = self.run(list, record).unwrap_or_default();
        Record { id: record.id.clone(), fields: Fields::Raw { body: body(&record.fields, &run) } }
    }

    fn finished(&mut self, list: &List, written: &Written, theirs: Result<Vec<u8>, Unwritten>) {
        let theirs = match theirs {
            Ok(tag) => tag,
            Err(why) => return self.fault(|| format!("only the crate refuses: {why:?}")),
        };
        let size = (theirs.len() - 10) as u128 + if is_far(list) { list.padding as u128 } else { 0 };
        let foretold = if size >= 1 << 28 {
            24
        } else if size + 10 > output_room(list) as u128 {
            20
        } else {
            0
        };
        let answer = written.finished;
        if answer != foretold {
            self.fault(|| format!("finishing is answered {answer}, and {foretold} was foretold"));
        } else if answer != 0 {
            self.note(Class::Refused(answer));
        } else {
            self.must(written.tag == theirs, "the bytes of the tag");
        }
    }

    // the same with buffers that are exactly full, and one byte short
    fn rooms(&mut self, list: &List, accepted: &[Given], written: &Written) {
        let (room, output) = (written.frames.len(), written.tag.len());
        let same = self.library.write(&order(list, accepted, room, output));
        let full = same.clean
            && same.added.iter().all(|(n, _)| *n == 0)
            && same.frames == written.frames
            && same.tag == written.tag;
        self.must(full, "buffers that are exactly full");
        if room > 0 {
            let short = self.library.write(&order(list, accepted, room - 1, output));
            let numbers: Vec<u32> = short.added.iter().map(|(n, _)| *n).collect();
            let refused = numbers.contains(&20) && numbers.iter().all(|n| *n == 0 || *n == 20);
            self.must(short.clean && refused, "a collecting buffer that is one byte short");
        }
        if written.finished == 0 {
            let short = self.library.write(&order(list, accepted, room, output - 1));
            self.must(short.clean && short.finished == 20 && short.tag.is_empty(), "an output that is one byte short");
        }
    }

    /// The run of a record's subframes: as given, or as this library writes them.
    pub fn run(&mut self, list: &List, record: &Record) -> Run {
        let subs = match &record.fields {
            Fields::Chapter { subs, .. } | Fields::Contents { subs, .. } => subs,
            _ => return Ok(Vec::new()),
        };
        match subs {
            Subs::Run(run) => {
                if edition_of(list.version) > 2 {
                    self.tag(&wrapped(edition_of(list.version), run));
                }
                Ok(run.clone())
            }
            Subs::Records(records) => self.written_run(list, records),
        }
    }

    // plain frames, as the crate writes subframes
    fn written_run(&mut self, list: &List, records: &[Record]) -> Run {
        let inner =
            List { unsynchronisation: false, file_altered: false, padding: 0, records: Vec::new(), ..list.clone() };
        let mut given = Vec::new();
        for record in records {
            given.push((record.clone(), self.run(&inner, record)?));
        }
        let written = self.library.write(&order(&inner, &given, room(records), 0));
        for ((record, run), (answer, _)) in given.iter().zip(&written.added) {
            let foretold = self.refusal(&inner, record, run);
            if *answer != foretold {
                self.fault(|| format!("a subframe is answered {answer}, and {foretold} was foretold"));
            }
            if *answer != 0 {
                return Err(*answer);
            }
        }
        Ok(written.frames)
    }

    /// The first check of the table that speaks of a record, or 0.
    pub fn refusal(&mut self, list: &List, record: &Record, run: &[u8]) -> u32 {
        let edition = edition_of(list.version);
        let id = record.id.as_bytes();
        let kind = kind_of_record(record);
        if !is_id(edition, id) || (kind != Kind::Raw && kind_of(edition, id) != kind) {
            return 21;
        }
        if kind == Kind::Raw && kind_of(edition, id) != Kind::Raw {
            return 25;
        }
        let content = self.content_refusal(list, &record.fields, run);
        if content != 0 || self.lost(list, record) {
            return content;
        }
        let len = body(&record.fields, run).len();
        match edition {
            2 if len == 0 => 22,
            2 if len >= 1 << 24 => 23,
            _ => 0,
        }
    }

    fn content_refusal(&mut self, list: &List, fields: &Fields, run: &[u8]) -> u32 {
        match fields {
            Fields::Text { encoding, bytes } => match oracle::text_end(list.version, *encoding, bytes) {
                None => 12,
                Some(end) if end != bytes.len() => 26,
                _ => 0,
            },
            Fields::Popularimeter { user, .. } => {
                if user.contains(&0) {
                    27
                } else {
                    0
                }
            }
            Fields::Chapter { element, .. } => self.chapter_refusal(list, element, &[], run),
            Fields::Contents { element, children, .. } => self.chapter_refusal(list, element, children, run),
            Fields::Table { bytes, millis, bits_for_bytes: a, bits_for_millis: b, deviations, .. } => {
                let fits = |(i, n): (usize, &u32)| u64::from(*n) >> [a, b][i % 2] == 0;
                let good = deviations.len() % 2 == 0 && *bytes < 1 << 24 && *millis < 1 << 24;
                match widths_refusal(*a, *b) {
                    0 if !good || !deviations.iter().enumerate().all(fits) => 33,
                    0 if a + b == 4 && deviations.len() % 4 == 2 => 34,
                    number => number,
                }
            }
            Fields::Raw { .. } => 0,
        }
    }

    fn chapter_refusal(&mut self, list: &List, element: &[u8], children: &[Vec<u8>], run: &[u8]) -> u32 {
        if element.contains(&0) {
            27
        } else if children.len() > 255 {
            28
        } else if !self.is_fit(edition_of(list.version), run, 2) {
            29
        } else {
            0
        }
    }

    // a run that is read to its last byte, with no frame short or flagged and no counter that does not fit, at every depth
    fn is_fit(&mut self, edition: u8, run: &[u8], depth: usize) -> bool {
        let seen = self.library.read(&wrapped(edition, run));
        let ended = seen.stop == Stop::End { at: run.len() };
        ended
            && (run.is_empty() || depth <= 8)
            && seen.frames.iter().all(|frame| {
                let flagged = edition == 4 && run[frame.at + 9] & 2 != 0;
                let counted = frame.kind != Kind::Popularimeter as u64
                    || counters::field(&frame.body).is_some_and(|field| counters::whole(field).is_some());
                let inside = !is_chapter(frame) || self.is_fit(edition, &frame.rest, depth + 1);
                !frame.short && !flagged && counted && inside
            })
    }
}

fn is_chapter(frame: &Frame) -> bool {
    frame.kind == Kind::Chapter as u64 || frame.kind == Kind::Contents as u64
}

// the crate's answer; far padding, which it would make in memory, is left out
fn asked(list: &List, records: &[Record]) -> Result<Vec<u8>, Unwritten> {
    let padding = if is_far(list) { 0 } else { list.padding };
    oracle::write(list.version, list.unsynchronisation, padding, list.file_altered, records)
}

fn alone(list: &List, record: &Record) -> Result<Vec<u8>, Unwritten> {
    oracle::write(list.version, list.unsynchronisation, 0, list.file_altered, std::slice::from_ref(record))
}

fn is_far(list: &List) -> bool {
    list.padding > FAR
}

// room enough for the frames of these records, however many zeros are put into them
fn room(records: &[Record]) -> usize {
    records.iter().map(record_room).sum()
}

fn record_room(record: &Record) -> usize {
    let inside = |subs: &Subs| match subs {
        Subs::Records(records) => room(records),
        Subs::Run(run) => run.len(),
    };
    let body = match &record.fields {
        Fields::Text { bytes, .. } => bytes.len(),
        Fields::Popularimeter { user, .. } => user.len(),
        Fields::Table { deviations, .. } => 4 * deviations.len(),
        Fields::Chapter { element, subs, .. } => element.len() + inside(subs),
        Fields::Contents { element, children, subs, .. } => element.len() + closed(children).len() + inside(subs),
        Fields::Raw { body } => body.len(),
    };
    10 + 2 * (20 + body)
}

fn output_room(list: &List) -> usize {
    10 + 2 * room(&list.records) + if is_far(list) { 0 } else { list.padding }
}

fn order(list: &List, given: &[Given], room: usize, output: usize) -> Order {
    Order {
        edition: edition_of(list.version),
        mode: list.unsynchronisation.into(),
        altered: list.file_altered,
        room,
        entries: given.iter().map(|(record, run)| entry(record, run)).collect(),
        padding: list.padding as u64,
        output,
    }
}

/// A record as the library takes it.
pub fn entry(record: &Record, run: &[u8]) -> Entry {
    let mut out = Entry { kind: kind_of_record(record) as u64, id: number(record.id.as_bytes()), ..Entry::default() };
    match &record.fields {
        Fields::Text { encoding, bytes } => {
            out.numbers[0] = (*encoding).into();
            out.rest = bytes.clone();
        }
        Fields::Popularimeter { user, rating, counter } => {
            out.numbers[..2].copy_from_slice(&[(*rating).into(), *counter]);
            out.name = user.clone();
        }
        Fields::Table { frames, bytes, millis, bits_for_bytes, bits_for_millis, deviations } => {
            let widths = [u64::from(*bits_for_bytes), u64::from(*bits_for_millis)];
            out.numbers = [(*frames).into(), (*bytes).into(), (*millis).into(), widths[0], widths[1]];
            out.deviations = deviations.clone();
        }
        Fields::Chapter { element, times, .. } => {
            out.numbers[..4].copy_from_slice(&times.map(u64::from));
            out.name = element.clone();
            out.rest = run.to_vec();
        }
        Fields::Contents { element, top_level, ordered, children, .. } => {
            out.numbers[..2].copy_from_slice(&[*top_level, *ordered].map(u64::from));
            out.name = element.clone();
            out.names = closed(children);
            out.rest = run.to_vec();
        }
        Fields::Raw { body } => out.rest = body.clone(),
    }
    out
}

fn kind_of_record(record: &Record) -> Kind {
    match &record.fields {
        Fields::Text { .. } => Kind::Text,
        Fields::Popularimeter { .. } => Kind::Popularimeter,
        Fields::Table { .. } => Kind::Table,
        Fields::Chapter { .. } => Kind::Chapter,
        Fields::Contents { .. } => Kind::Contents,
        Fields::Raw { .. } => Kind::Raw,
    }
}

fn as_raw(record: &Record) -> Record {
    Record { id: record.id.clone(), fields: Fields::Raw { body: body(&record.fields, &[]) } }
}

// a body by document 01; of a table only its length is right
fn body(fields: &Fields, run: &[u8]) -> Vec<u8> {
    match fields {
        Fields::Text { encoding, bytes } => [&[*encoding], &bytes[..]].concat(),
        Fields::Popularimeter { user, rating, counter } => {
            let zeros = counter.leading_zeros() as usize / 8;
            [&user[..], &[0, *rating], &counter.to_be_bytes()[zeros..]].concat()
        }
        Fields::Table { bits_for_bytes: a, bits_for_millis: b, deviations, .. } => {
            let bits = deviations.len() / 2 * (usize::from(*a) + usize::from(*b));
            vec![0; 10 + bits.div_ceil(8)]
        }
        Fields::Chapter { element, times, .. } => {
            let numbers: Vec<u8> = times.iter().flat_map(|n| n.to_be_bytes()).collect();
            [&element[..], &[0], &numbers, run].concat()
        }
        Fields::Contents { element, top_level, ordered, children, .. } => {
            let flags = 2 * u8::from(*top_level) + u8::from(*ordered);
            [&element[..], &[0, flags, children.len() as u8], &closed(children), run].concat()
        }
        Fields::Raw { body } => body.clone(),
    }
}
