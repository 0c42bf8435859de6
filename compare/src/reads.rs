//! One tag, asked of both.
use crate::classes::Class;
use crate::library::Library;
use compare::answers::{Frame, Seen, Stop};
use compare::counters;
use compare::ids::{framed, is_compressed, is_people, kind_of, version_of, widths_refusal, wrapped, Kind};
use compare::listing::is_short;
use oracle::{Item, Kind as Theirs, Reading, Stop as TheirStop};
use std::panic::{catch_unwind, AssertUnwindSafe};

/// What a comparison found.
pub struct Comparison<'a> {
    /// The new library.
    pub library: &'a mut Library,
    /// Listed differences, in the order in which they were met.
    pub listed: Vec<Class>,
    /// The first difference of no class.
    pub unlisted: Option<String>,
    /// What was met on the way.
    pub met: Met,
}

/// What the cases were about, so that a run shows that it got everywhere.
#[derive(Clone, Copy)]
pub struct Met {
    /// Frames that both show, by their kind here.
    pub kinds: [u64; 6],
    /// How this library ended a tag: quietly (0), or the number of its refusal.
    pub ends: [u64; 36],
    /// Runs of subframes, compared as tags of their own.
    pub runs: u64,
    /// Raises: accepted (0), or the number of the refusal.
    pub raised: [u64; 45],
    /// Edits, by their sort, the same.
    pub edited: [[u64; 47]; 4],
    /// Edits after which the frames would have just the header's size, and one byte more.
    pub fits: [u64; 2],
    /// Lifts that take a new frame.
    pub anew: u64,
    /// Accepted edits after which the tag is not plain.
    pub unplain: u64,
}

impl Default for Met {
    fn default() -> Met {
        let (kinds, ends, raised, edited) = ([0; 6], [0; 36], [0; 45], [[0; 47]; 4]);
        Met { kinds, ends, runs: 0, raised, edited, fits: [0; 2], anew: 0, unplain: 0 }
    }
}

/// How each side ended at one level, and how many levels of frames were met there.
#[derive(Default)]
struct Level {
    ours: Option<u32>,
    theirs: Option<String>,
    height: usize,
    /// The crate did not get to the end of what the library read.
    cut: bool,
}

/// Runs a comparison; what was listed, and what was not. A panic outside the crate is of no class.
pub fn compared(library: &mut Library, run: impl FnOnce(&mut Comparison)) -> Verdict {
    let mut comparison = Comparison { library, listed: Vec::new(), unlisted: None, met: Met::default() };
    let done = catch_unwind(AssertUnwindSafe(|| run(&mut comparison)));
    if let Err(payload) = done {
        let said = payload.downcast_ref::<String>().cloned().unwrap_or_default();
        comparison.unlisted = Some(format!("a panic in the comparison: {said}"));
    }
    Verdict { listed: comparison.listed, unlisted: comparison.unlisted, met: comparison.met }
}

/// Runs a comparison, again and again while an answer is missing.
pub fn settled(library: &mut Library, run: impl Fn(&mut Comparison)) -> Verdict {
    loop {
        let verdict = compared(library, &run);
        if !library.take_waiting() {
            return verdict;
        }
        library.fetch();
    }
}

/// What a comparison came to.
pub struct Verdict {
    /// Listed differences.
    pub listed: Vec<Class>,
    /// A difference of no class.
    pub unlisted: Option<String>,
    /// What was met on the way.
    pub met: Met,
}

impl Comparison<'_> {
    /// Asks both for a tag and compares all that they say.
    pub fn tag(&mut self, tag: &[u8]) {
        let level = self.level(tag);
        self.met.ends[level.ours.unwrap_or(0).min(35) as usize] += 1;
    }

    /// Notes a listed difference.
    pub fn note(&mut self, class: Class) {
        self.listed.push(class);
    }

    /// Notes a difference of no class.
    pub fn fault(&mut self, what: impl FnOnce() -> String) {
        if self.unlisted.is_none() {
            self.unlisted = Some(what());
        }
    }

    /// Notes a difference of no class, unless this holds.
    pub fn must(&mut self, holds: bool, what: &str) {
        if !holds {
            self.fault(|| what.to_string());
        }
    }

    // a tag, or the run of a chapter as one
    fn level(&mut self, tag: &[u8]) -> Level {
        let ours = self.library.read(tag);
        if self.library.is_waiting() {
            return Level::default();
        }
        let theirs = oracle::read_past(tag);
        self.must(theirs.doubts.is_empty(), "the oracle is in doubt");
        let mut level = Level {
            ours: our_refusal(&ours).or(ours.header.err()),
            theirs: their_refusal(&theirs),
            ..Level::default()
        };
        if let Some(edition) = self.headers(&theirs, &ours) {
            self.frames(edition, &theirs, &ours, &mut level);
        }
        level
    }

    // the edition, where both take the header
    fn headers(&mut self, theirs: &Reading, ours: &Seen) -> Option<u8> {
        match (&theirs.header, &ours.header) {
            (Ok(t), Ok(o)) => {
                let same = (t.edition.into(), t.flags.into(), t.size.into(), t.ext.into())
                    == (o.edition, o.flags, o.size, o.ext);
                self.must(same, "header fields");
                return Some(t.edition);
            }
            (Err(failure), Err(number)) => {
                self.must(u32::from(failure.number) == *number, "header refused with another number");
            }
            _ => self.must(false, "header refused by one alone"),
        }
        None
    }

    fn frames(&mut self, edition: u8, theirs: &Reading, ours: &Seen, level: &mut Level) {
        let mut i = 0;
        loop {
            match (theirs.items.get(i), ours.frames.get(i)) {
                (Some(item), Some(frame)) => self.both(edition, item, frame, level),
                (Some(item), None) => return self.ours_ended(edition, item, ours.stop, level),
                (None, Some(frame)) => return self.theirs_ended(theirs.stop.as_ref(), frame, level),
                (None, None) => return self.both_ended(theirs.stop.as_ref(), ours.stop, level),
            }
            i += 1;
        }
    }

    // both show a frame, or the crate goes on after one that it refuses
    fn both(&mut self, edition: u8, item: &Item, frame: &Frame, level: &mut Level) {
        level.height = level.height.max(1);
        self.must(item.at == frame.at, "a frame's place");
        self.must(item.took == frame.took, "the bytes that a frame took");
        self.must(number(&item.id) == frame.id, "a frame's id");
        self.must(is_short(item) == frame.short, "a frame's short mark");
        if is_compressed(edition, item.flags) {
            self.must(frame.compressed && frame.kind == Kind::Raw as u64, "a compressed frame is not raw");
            self.note(Class::Compressed);
            return;
        }
        self.must(!frame.compressed, "a compressed mark");
        self.must(item.body == frame.body, "a frame's body");
        self.met.kinds[frame.kind.min(5) as usize] += 1;
        self.kinds(edition, item, frame);
        if frame.kind == Kind::Chapter as u64 || frame.kind == Kind::Contents as u64 {
            self.inside(edition, item, None, level);
        }
    }

    // kinds and fields; a chapter that the crate refuses is looked at by its parts
    fn kinds(&mut self, edition: u8, item: &Item, frame: &Frame) {
        let kind = kind_of(edition, &item.id);
        if kind == Kind::Popularimeter && counters::is_long(&item.body) {
            return self.long_counter(item, frame);
        }
        if same_fields(&item.kind, frame) {
            return;
        }
        let text = frame.kind == Kind::Text as u64;
        match &item.kind {
            Theirs::Text { .. } => self.must(item.id == b"GRP1" && raw(item, frame), "a text"),
            Theirs::Raw if edition == 2 && item.id == b"MLL" => {
                self.note(Class::TableOld);
                self.table(item, frame);
            }
            Theirs::Other(_) | Theirs::Refused(_) if is_people(&item.id) => {
                self.note(Class::People);
                self.must(text && text_of(edition, item) == Some(&frame.rest), "a text for a list of people");
            }
            Theirs::Raw | Theirs::Other(_) => self.must(kind == Kind::Raw && raw(item, frame), "a raw body"),
            Theirs::Refused(failure) => match kind {
                Kind::Text => {
                    self.must(failure.kind == "StringDecoding", "a text that only the crate refuses");
                    self.note(Class::TextEncoding);
                    self.must(
                        text && text_of(edition, item) == Some(&frame.rest),
                        "a text that the crate does not decode",
                    );
                }
                Kind::Raw => {
                    self.note(Class::Undecoded);
                    self.must(raw(item, frame), "a raw body that the crate does not decode");
                }
                Kind::Table => self.refused_table(item, frame),
                Kind::Chapter | Kind::Contents => self.front(edition, item, frame),
                Kind::Popularimeter => self.must(false, "a popularimeter that only the crate refuses"),
            },
            _ => self.must(false, "kind or fields"),
        }
    }

    // a counter of more than eight bytes: all of them are one number here, and the crate takes the first eight
    fn long_counter(&mut self, item: &Item, frame: &Frame) {
        let field = counters::field(&item.body).unwrap_or_default();
        let (whole, first) = (counters::whole(field), counters::first_eight(field));
        let [rating, counter, ..] = frame.numbers;
        let ours = frame.kind == Kind::Popularimeter as u64 && whole == Some(counter);
        let theirs = matches!(&item.kind, Theirs::Popularimeter { user, rating: r, counter }
            if *user == frame.name && u64::from(*r) == rating && *counter == first);
        self.must(ours, "a long counter");
        self.must(theirs, "a long counter at the crate, or its user or rating");
        if ours && theirs && whole != Some(first) {
            self.note(Class::LongCounter);
        }
    }

    // a counter that does not fit 64 bits: it is refused here, and the crate takes its first eight bytes
    fn too_large(&mut self, item: &Item) {
        let field = counters::field(&item.body).unwrap_or_default();
        let first = counters::first_eight(field);
        let theirs = matches!(&item.kind, Theirs::Popularimeter { counter, .. } if *counter == first);
        if theirs && counters::whole(field).is_none() {
            self.note(Class::LongCounter);
        } else {
            self.must(false, "a counter that is refused as too large");
        }
    }

    // the crate has no whole references here
    fn refused_table(&mut self, item: &Item, frame: &Frame) {
        self.table(item, frame);
        let bits = usize::from(item.body[8]) + usize::from(item.body[9]);
        let bytes = item.body.len() - 10;
        if bits % 8 != 0 && bytes > 0 {
            self.note(Class::TableNoEights);
        } else if bits % 8 == 0 && bytes % (bits / 8) != 0 {
            self.note(Class::TableCut);
        } else {
            self.must(false, "a table that only the crate refuses");
        }
    }

    // by document 01's rule: five numbers, and as many references as fit whole
    fn table(&mut self, item: &Item, frame: &Frame) {
        let b = &item.body;
        let same = frame.kind == Kind::Table as u64
            && b.len() >= 10
            && widths_refusal(b[8], b[9]) == 0
            && frame.numbers == [number(&b[..2]), number(&b[2..5]), number(&b[5..8]), b[8].into(), b[9].into()]
            && frame.deviations == unpacked(b[8], b[9], &b[10..]);
        self.must(same, "a table");
    }

    // the parts of a chapter before its subframes, asked for without them
    fn front(&mut self, edition: u8, item: &Item, frame: &Frame) {
        let run = oracle::run_of(&item.id, &item.body).unwrap_or(&[]);
        let front = &item.body[..item.body.len() - run.len()];
        let asked = oracle::read(&wrapped(edition, &framed(edition, &item.id, front)));
        let same = asked.items.first().is_some_and(|alone| match &alone.kind {
            Theirs::Chapter { element, times, .. } => {
                *element == frame.name && times.map(u64::from) == frame.numbers[..4]
            }
            Theirs::Contents { element, top_level, ordered, children, .. } => {
                *element == frame.name
                    && closed(children) == frame.names
                    && [*top_level, *ordered].map(u64::from) == frame.numbers[..2]
            }
            _ => false,
        });
        self.must(same && frame.rest == run, "the parts of a chapter whose subframes the crate refuses");
    }

    // the subframes of a chapter that is shown, or that is refused here with a number
    fn inside(&mut self, edition: u8, item: &Item, refused: Option<u32>, level: &mut Level) {
        let theirs = match &item.kind {
            Theirs::Refused(failure) => Some(failure),
            _ => None,
        };
        let number = theirs.map_or(0, |failure| u32::from(failure.number));
        let said = theirs.map(|failure| failure.description.clone());
        let Some(run) = oracle::run_of(&item.id, &item.body) else {
            return self.must(refused == Some(11) && number == 11, "a chapter without its parts");
        };
        self.met.runs += 1;
        let before = self.listed.len();
        let inner = self.level(&wrapped(edition, run));
        let explained = self.listed.len() > before;
        level.height = level.height.max(1 + inner.height);
        level.cut |= inner.cut;
        let deep = 1 + inner.height > 8;
        let follows = match refused {
            None => !deep && inner.ours.is_none(),
            Some(13) => deep,
            Some(_) => !deep && inner.ours == refused,
        };
        self.must(follows || inner.cut, "a chapter and its subframes are answered differently here");
        self.must(said == inner.theirs, "a chapter and its subframes are answered differently by the crate");
        if refused == Some(13) {
            self.note(Class::Depth);
        } else if refused.unwrap_or(0) != number || (theirs.is_some() && number == 0) {
            self.must(explained, "a chapter that is refused by one alone, or with another number");
        }
    }

    // the crate shows a frame, or refuses its body, where the library stopped
    fn ours_ended(&mut self, edition: u8, item: &Item, stop: Stop, level: &mut Level) {
        level.height = level.height.max(1);
        let Stop::Refused { at, number } = stop else {
            return self.must(false, "the end comes early");
        };
        self.must(at == item.at, "the place of a refusal");
        let kind = kind_of(edition, &item.id);
        if is_compressed(edition, item.flags) {
            return self.must(false, "a compressed frame is refused");
        }
        if kind == Kind::Chapter || kind == Kind::Contents {
            return self.inside(edition, item, Some(number), level);
        }
        if kind == Kind::Popularimeter && number == counters::TOO_LARGE {
            return self.too_large(item);
        }
        if let Theirs::Refused(failure) = &item.kind {
            if kind != Kind::Raw && u32::from(failure.number) == number {
                return;
            }
        }
        let b = &item.body;
        let short = if b.len() < 10 { 11 } else { widths_refusal(b[8], b[9]) };
        if kind == Kind::Table && short == number {
            self.note(if edition == 2 { Class::TableOld } else { Class::TableWidths });
        } else {
            self.must(false, "a frame that only this library refuses, or with another number");
        }
    }

    // the library shows a frame where the crate stopped
    fn theirs_ended(&mut self, stop: Option<&TheirStop>, frame: &Frame, level: &mut Level) {
        level.height = level.height.max(1);
        match stop {
            Some(TheirStop::Refused { at, .. }) if frame.compressed => {
                level.cut = true;
                self.must(*at == frame.at, "the place of a compressed frame");
                self.note(Class::Compressed);
            }
            Some(TheirStop::Panic { message, .. }) => self.fault(|| format!("the crate panics: {message}")),
            _ => self.must(false, "a frame that only this library shows"),
        }
    }

    fn both_ended(&mut self, theirs: Option<&TheirStop>, ours: Stop, level: &mut Level) {
        match (theirs, ours) {
            (Some(TheirStop::End { at, .. }), Stop::End { at: place }) => {
                self.must(*at == place, "the place of the end")
            }
            (Some(TheirStop::Refused { at, failure, .. }), Stop::Refused { at: place, number }) => {
                level.height = level.height.max(1);
                self.must(*at == place, "the place of a refusal");
                self.must(u32::from(failure.number) == number, "a frame refused with another number");
            }
            (Some(TheirStop::Panic { message, .. }), _) => self.fault(|| format!("the crate panics: {message}")),
            _ => self.must(false, "one ends and the other refuses"),
        }
    }
}

fn our_refusal(seen: &Seen) -> Option<u32> {
    match seen.stop {
        Stop::Refused { number, .. } => Some(number),
        Stop::End { .. } => None,
    }
}

// the first refusal of the crate, by what it says
fn their_refusal(reading: &Reading) -> Option<String> {
    let body = reading.items.iter().find_map(|item| match &item.kind {
        Theirs::Refused(failure) => Some(failure),
        _ => None,
    });
    let frame = match &reading.stop {
        Some(TheirStop::Refused { failure, .. }) => Some(failure),
        _ => None,
    };
    body.or(frame).map(|failure| failure.description.clone())
}

fn same_fields(theirs: &Theirs, ours: &Frame) -> bool {
    let n = &ours.numbers;
    let kind = |kind: Kind| ours.kind == kind as u64;
    match theirs {
        Theirs::Text { encoding, bytes, .. } => kind(Kind::Text) && n[0] == u64::from(*encoding) && ours.rest == *bytes,
        Theirs::Popularimeter { user, rating, counter } => {
            kind(Kind::Popularimeter) && ours.name == *user && n[..2] == [u64::from(*rating), *counter]
        }
        Theirs::Table { frames, bytes, millis, bits_for_bytes, bits_for_millis, deviations } => {
            let numbers = [
                u64::from(*frames),
                (*bytes).into(),
                (*millis).into(),
                (*bits_for_bytes).into(),
                (*bits_for_millis).into(),
            ];
            kind(Kind::Table) && *n == numbers && ours.deviations == *deviations
        }
        Theirs::Chapter { element, times, run, .. } => {
            kind(Kind::Chapter) && ours.name == *element && n[..4] == times.map(u64::from) && ours.rest == *run
        }
        Theirs::Contents { element, top_level, ordered, children, run, .. } => {
            kind(Kind::Contents)
                && ours.name == *element
                && n[..2] == [*top_level, *ordered].map(u64::from)
                && ours.names == closed(children)
                && ours.rest == *run
        }
        Theirs::Raw | Theirs::Other(_) | Theirs::Refused(_) => false,
    }
}

fn raw(item: &Item, frame: &Frame) -> bool {
    frame.kind == Kind::Raw as u64 && frame.rest == item.body
}

// the text of a body, up to where the crate's own search ends it
fn text_of(edition: u8, item: &Item) -> Option<&[u8]> {
    let encoding = *item.body.first()?;
    let end = oracle::text_end(version_of(edition), encoding, &item.body[1..])?;
    item.body.get(1..1 + end)
}

/// Names, each closed by a zero.
pub fn closed(names: &[Vec<u8>]) -> Vec<u8> {
    names.iter().flat_map(|name| name.iter().copied().chain([0])).collect()
}

/// Bytes as one number, highest first.
pub fn number(bytes: &[u8]) -> u64 {
    bytes.iter().fold(0, |n, byte| n << 8 | u64::from(*byte))
}

// references of two widths, highest bit first, as many as fit whole
fn unpacked(a: u8, b: u8, bytes: &[u8]) -> Vec<u32> {
    let (a, b) = (usize::from(a), usize::from(b));
    let bits: Vec<u32> = bytes.iter().flat_map(|byte| (0..8).rev().map(move |i| u32::from(byte >> i & 1))).collect();
    let joined = |bits: &[u32]| bits.iter().fold(0, |n, bit| n << 1 | bit);
    bits.chunks_exact(a + b).flat_map(|pair| [joined(&pair[..a]), joined(&pair[a..])]).collect()
}
