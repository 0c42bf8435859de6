//! One edit. The crate has nothing like it: what must come of it is worked out from the crate's reading of the tag and from the
//! frame that the crate writes, and afterwards both must read the old list with that one edit.
use crate::raises::{is_plain_frame, plain_header, replace_end, summed, Numbers};
use crate::reads::Comparison;
use crate::writes::{entry, Given};
use compare::answers::{Change, Changed, Edit, Entry, Frame, Seen, Stop};
use compare::ids::{version_of, wrapped, Kind};
use compare::plains;
use oracle::{Fields, Header, Item, Kind as Theirs, List, Reading, Record, Stop as TheirStop, Subs};

/// An accepted edit: so many frames of the top level, from one on, give way to another.
#[derive(Default)]
struct Splice {
    from: usize,
    count: usize,
    /// The bytes of the other; none where a frame is removed.
    frame: Vec<u8>,
    /// The record that they must be read as.
    entry: Option<Entry>,
    /// The counter that a lift answers.
    counter: u64,
}

impl Comparison<'_> {
    /// Has a tag edited, and compares the answer, the bytes, and what both read before and after.
    pub fn edit(&mut self, edit: &Edit<Record>) {
        let list = settings(&edit.tag);
        let change = edit.change.clone().map(|record| self.with_run(&list, record));
        let ours = self.library.read(&edit.tag);
        if self.library.is_waiting() {
            return;
        }
        let asked = change.clone().map(|(record, run)| entry(&record, &run));
        let edited = self.library.edit(&Edit { tag: edit.tag.clone(), change: asked });
        if self.library.is_waiting() {
            return;
        }
        let theirs = oracle::read_past(&edit.tag);
        let foretold = plain_header(&edit.tag, &ours, edited.roomless, &theirs)
            .and_then(|header| self.foretold(&list, &edit.tag, &change, header, &theirs.items));
        if self.library.is_waiting() {
            return;
        }
        self.met.edited[sort(&change)][edited.number.min(46) as usize] += 1;
        self.must(edited.clean, "an edit changes a word or a byte that it should not");
        match foretold {
            Err(numbers) => self.must_refuse(&edit.tag, &edited, &numbers),
            Ok(splice) => self.must_edit(&edit.tag, &edited, &splice, ours, theirs),
        }
    }

    // a record and the run of its subframes; it has none where one of them is refused
    fn with_run(&mut self, list: &List, mut record: Record) -> Given {
        let run = self.run(list, &record).unwrap_or_else(|_| {
            if let Fields::Chapter { subs, .. } | Fields::Contents { subs, .. } = &mut record.fields {
                *subs = Subs::Run(Vec::new());
            }
            Vec::new()
        });
        (record, run)
    }

    // of a plain tag, in the order of the numbers: 46, those of adding, and 20; for a lift those of raising before
    fn foretold(
        &mut self,
        list: &List,
        tag: &[u8],
        change: &Change<Given>,
        header: &Header,
        items: &[Item],
    ) -> Result<Splice, Numbers> {
        let splice = match change {
            Change::Replace(number, given) => {
                let from = place(*number, items)?;
                Splice { from, count: 1, ..self.written(list, given)? }
            }
            Change::Remove(number) => Splice { from: place(*number, items)?, count: 1, ..Splice::default() },
            Change::Append(given) => Splice { from: items.len(), ..self.written(list, given)? },
            Change::Lift(user, amount) => self.lifted(list, &tag[header.start..], user, *amount, items)?,
        };
        let others = items[..splice.from].iter().chain(&items[splice.from + splice.count..]);
        let len = others.map(|item| item.took).sum::<usize>() + splice.frame.len();
        let room = header.size as usize;
        self.met.fits[0] += u64::from(len == room);
        self.met.fits[1] += u64::from(len == room + 1);
        if len > room {
            return Err(vec![20]);
        }
        Ok(splice)
    }

    // the frame that the crate writes for a record, where adding does not refuse it
    fn written(&mut self, list: &List, given: &Given) -> Result<Splice, Numbers> {
        let (record, run) = given;
        match self.refusal(list, record, run) {
            0 => {}
            number => return Err(vec![number]),
        }
        match self.theirs(list, std::slice::from_ref(given)) {
            Ok(tag) => Ok(Splice { frame: tag[10..].to_vec(), entry: Some(entry(record, run)), ..Splice::default() }),
            Err(why) => {
                self.fault(|| format!("only the crate refuses: {why:?}"));
                Err(Vec::new())
            }
        }
    }

    // the frame of that user with the sum: in the bytes that the counter has, or written anew
    fn lifted(
        &mut self,
        list: &List,
        frames: &[u8],
        user: &[u8],
        amount: u64,
        items: &[Item],
    ) -> Result<Splice, Numbers> {
        let sum = summed(user, amount, items)?;
        let item = &items[sum.frame];
        let record = popularimeter(item, sum.counter);
        let splice = match sum.field {
            Some(field) => {
                let mut frame = frames[item.at..item.at + item.took].to_vec();
                replace_end(&mut frame, &field);
                Splice { frame, entry: Some(entry(&record, &[])), ..Splice::default() }
            }
            None => {
                self.met.anew += 1;
                self.written(list, &(record, Vec::new()))?
            }
        };
        Ok(Splice { from: sum.frame, count: 1, counter: sum.counter, ..splice })
    }

    fn must_refuse(&mut self, tag: &[u8], edited: &Changed, numbers: &[u32]) {
        if !numbers.contains(&edited.number) {
            self.fault(|| format!("an edit is answered {}, and {numbers:?} was foretold", edited.number));
        }
        self.must(edited.tag == tag, "a refused edit changes the tag");
    }

    // every byte as foretold; both read what they read before, with what they read of the new frame alone in its place
    fn must_edit(&mut self, tag: &[u8], edited: &Changed, splice: &Splice, ours: Seen, theirs: Reading) {
        if edited.number != 0 {
            return self.fault(|| format!("an edit is answered {}, and 0 was foretold", edited.number));
        }
        self.must(edited.counter == splice.counter, "the counter of a lift");
        self.must(edited.tag == spliced(tag, splice, &theirs), "the bytes after an edit");
        let alone = wrapped(tag[3], &splice.frame);
        let (after, new) = (self.library.read(&edited.tag), self.library.read(&alone).frames);
        if self.library.is_waiting() {
            return;
        }
        let shown = match (&splice.entry, &new[..]) {
            (Some(entry), [frame]) => shows(frame, entry),
            (None, []) => true,
            _ => false,
        };
        self.must(shown, "the record that was given is read otherwise");
        self.must(after == with_frames(ours, splice, new), "this library's reading after an edit");
        let new = oracle::read_past(&alone).items;
        let plain = new.iter().all(|item| is_plain_frame(tag[3], item));
        self.must(
            oracle::read_past(&edited.tag) == with_items(theirs, splice, new),
            "the crate's reading after an edit",
        );
        self.must_go_on(tag, &edited.tag, splice, plain);
    }

    // removing what was added gives the old tag back; after another edit the tag is asked for a frame that it has not
    fn must_go_on(&mut self, tag: &[u8], edited: &[u8], splice: &Splice, plain: bool) {
        let added = splice.count == 0;
        let number = if added { splice.from as u64 } else { u64::MAX };
        let next = self.library.edit(&Edit { tag: edited.to_vec(), change: Change::Remove(number) });
        if self.library.is_waiting() {
            return;
        }
        let foretold = match (plain, added) {
            (true, true) => (0, tag),
            (true, false) => (46, edited),
            (false, _) => (40, edited),
        };
        self.met.unplain += u64::from(!plain);
        self.must((next.number, &next.tag[..]) == foretold, "the edit after an edit");
    }
}

// a writer's settings: the tag's own edition, mode off, altered mark off
fn settings(tag: &[u8]) -> List {
    let version = version_of(plains::edition(tag));
    List { version, unsynchronisation: false, padding: 0, file_altered: false, records: Vec::new() }
}

fn sort<R>(change: &Change<R>) -> usize {
    match change {
        Change::Replace(..) => 0,
        Change::Remove(_) => 1,
        Change::Append(_) => 2,
        Change::Lift(..) => 3,
    }
}

// the frame of this number (46)
fn place(number: u64, items: &[Item]) -> Result<usize, Numbers> {
    usize::try_from(number).ok().filter(|number| *number < items.len()).ok_or(vec![46])
}

// the popularimeter that was read, with another counter
fn popularimeter(item: &Item, counter: u64) -> Record {
    let (user, rating) = match &item.kind {
        Theirs::Popularimeter { user, rating, .. } => (user.clone(), *rating),
        _ => Default::default(),
    };
    let id = String::from_utf8_lossy(&item.id).into_owned();
    Record { id, fields: Fields::Popularimeter { user, rating, counter } }
}

// header, frames, zeros up to the tag's end, and what follows it
fn spliced(tag: &[u8], splice: &Splice, theirs: &Reading) -> Vec<u8> {
    let Ok(header) = &theirs.header else { return Vec::new() };
    let bytes = |item: &Item| tag[header.start + item.at..][..item.took].to_vec();
    let mut frames: Vec<Vec<u8>> = theirs.items.iter().map(bytes).collect();
    frames.splice(splice.from..splice.from + splice.count, [splice.frame.clone()]);
    let mut out = tag[..header.start].to_vec();
    out.extend(frames.concat());
    out.resize(header.end, 0);
    out.extend(&tag[header.end..]);
    out
}

// whether a frame was read as the record; of a table the packed bytes stand beside its numbers
fn shows(frame: &Frame, entry: &Entry) -> bool {
    let rest = frame.kind == Kind::Table as u64 || frame.rest == entry.rest;
    let numbers = (frame.kind, frame.id, frame.numbers) == (entry.kind, entry.id, entry.numbers);
    let parts = (&frame.name, &frame.names, &frame.deviations) == (&entry.name, &entry.names, &entry.deviations);
    numbers && parts && rest && !frame.short && !frame.compressed
}

// the frames with that edit, each at its place
fn with_frames(mut seen: Seen, splice: &Splice, new: Vec<Frame>) -> Seen {
    seen.frames.splice(splice.from..splice.from + splice.count, new);
    let mut at = 0;
    for frame in &mut seen.frames {
        frame.at = at;
        at += frame.took;
    }
    seen.stop = Stop::End { at };
    seen
}

// the same of the crate's
fn with_items(mut reading: Reading, splice: &Splice, new: Vec<Item>) -> Reading {
    reading.items.splice(splice.from..splice.from + splice.count, new);
    let mut at = 0;
    for (number, item) in reading.items.iter_mut().enumerate() {
        item.at = at;
        at += item.took;
        renumber(item, number);
    }
    let size = reading.header.as_ref().map_or(0, |header| header.size as usize);
    reading.stop = Some(TheirStop::End { at, left: size - at });
    reading
}

// the number of a top-level frame, in its path and in those of all frames inside
fn renumber(item: &mut Item, number: usize) {
    item.path[0] = number;
    if let Theirs::Chapter { subs: Some(subs), .. } | Theirs::Contents { subs: Some(subs), .. } = &mut item.kind {
        subs.iter_mut().for_each(|sub| renumber(sub, number));
    }
}
