//! An upload that stopped: every cut of generated tags, read through the C interface and held against the list of what was
//! written. In some tags that were written with mode off a counter was raised in place since.
//!
//! A cut of n bytes is lent a work buffer of n - 10. The frames that come whole are the first so many of what was written:
//! as many as have their last byte among the n, which the lengths of the writer's own tags say. The numbers are the same in
//! each run; `STREAMVAULT_STOPPED_TAGS` says how many tags of each edition there are (334 if it does not),
//! `STREAMVAULT_STOPPED_FROM` with which the run begins. What was met is printed.

mod common;

use common::records::record;
use common::{setting, Case, Numbers, MODES};
use std::collections::{BTreeMap, BTreeSet};
use std::fmt;
use streamvault::{
    raise, Content, Encoding, Ending, Header, Kind, Meter, Mode, Popularimeter, Reader, Record, Refusal, Version,
    Writer,
};

/// How many tags of an edition there are, if nothing else is said.
const TAGS: u64 = 334;

const FROM: &str = "STREAMVAULT_STOPPED_FROM";

/// What a work buffer holds at first.
const FILLED: u8 = 0xA5;

const FIELD_MISSING: u32 = Refusal::MISSING_FIELD.number();
const BYTES_MISSING: u32 = Refusal::MISSING_BYTES.number();
const WORK_TOO_SMALL: u32 = Refusal::WORK_TOO_SMALL.number();

// ---- the tags

/// A tag that was finished, with what was written to it.
struct Tag {
    version: Version,
    mode: Mode,
    bytes: Vec<u8>,
    records: Vec<Record>,
    /// Where each frame begins among the frames, before those of 2.2 and 2.3 are unsynchronised.
    places: Vec<usize>,
    /// How many bytes the tag has up to the last one of each frame.
    ends: Vec<usize>,
    /// Whether one of its counters was raised in place since.
    raised: bool,
}

/// Where a tag is cut.
#[derive(Clone, Copy)]
enum Place {
    Between,
    InHeader,
    InBody,
    InPadding,
    Nowhere,
}

impl Place {
    fn name(self) -> &'static str {
        match self {
            Place::Between => "between frames",
            Place::InHeader => "in a header",
            Place::InBody => "in a body",
            Place::InPadding => "in padding",
            Place::Nowhere => "nowhere",
        }
    }
}

impl Tag {
    /// A tag with some records and padding. After each record it is finished without padding: there its last byte stands.
    fn made(numbers: &mut Numbers, version: Version) -> Tag {
        let mode = *numbers.one(&MODES);
        let mut writer = Writer::new(version).mode(mode);
        let (mut records, mut places, mut fronts) = (Vec::new(), Vec::new(), Vec::new());
        for _ in 0..1 + numbers.below(7) {
            let (record, place) = (record(numbers, version), writer.used());
            if writer.add_record(&record).is_ok() {
                records.push(record);
                places.push(place);
                fronts.push(writer.finish(0).unwrap());
            }
        }
        let padding = if numbers.once_in(3) { 0 } else { numbers.below(24) };
        let bytes = writer.finish(padding).unwrap();
        for front in &fronts {
            assert_eq!(bytes[Header::LEN..front.len()], front[Header::LEN..], "the frames so far stand at the front");
        }
        let ends = fronts.iter().map(Vec::len).collect();
        let mut tag = Tag { version, mode, bytes, records, places, ends, raised: false };
        if numbers.once_in(2) {
            tag.raise(numbers);
        }
        tag
    }

    /// Raises one of its counters in place, as a box does, where that is not refused.
    fn raise(&mut self, numbers: &mut Numbers) {
        let counted = self.records.iter_mut().filter_map(|record| match &mut record.content {
            Content::Popularimeter { user, counter, .. } => Some((&*user, counter)),
            _ => None,
        });
        let mut counted: Vec<_> = counted.collect();
        if counted.is_empty() {
            return;
        }
        let (user, counter) = counted.swap_remove(numbers.below(counted.len()));
        let amount = numbers.below(300) as u64;
        if let Ok(raised) = raise(&mut self.bytes, user, amount) {
            assert_eq!(raised, *counter + amount);
            (*counter, self.raised) = (raised, true);
        }
    }

    /// Bytes of a frame's header.
    fn header_len(&self) -> usize {
        if self.version == Version::Id3v22 {
            6
        } else {
            10
        }
    }

    /// How many frames have their last byte among the first so many of the tag.
    fn whole(&self, len: usize) -> usize {
        self.ends.iter().filter(|end| **end <= len).count()
    }

    /// Where the tag ends after so many frames, padding apart.
    fn end(&self, frames: usize) -> usize {
        frames.checked_sub(1).map_or(Header::LEN, |last| self.ends[last])
    }

    /// Whether opening resynchronises the frames.
    fn resynchronised(&self) -> bool {
        self.mode != Mode::Off && self.version != Version::Id3v24
    }

    /// Bytes of the frames in a cut, once those of 2.2 and 2.3 are resynchronised: each 00 directly after an FF is dropped.
    fn walked(&self, len: usize) -> usize {
        let stored = &self.bytes[Header::LEN..len];
        let pairs = stored.windows(2).filter(|pair| *pair == [0xFF, 0]);
        stored.len() - if self.resynchronised() { pairs.count() } else { 0 }
    }

    fn place(&self, len: usize) -> Place {
        let whole = self.whole(len);
        if len == self.bytes.len() {
            Place::Nowhere
        } else if len == self.end(whole) {
            Place::Between
        } else if whole == self.records.len() {
            Place::InPadding
        } else if self.walked(len) < self.places[whole] + self.header_len() {
            Place::InHeader
        } else {
            Place::InBody
        }
    }

    /// Whether the cut parts an FF from the 00 that was put after it.
    fn parts_a_pair(&self, len: usize) -> bool {
        let at_end = len == self.end(self.whole(len)) || self.whole(len) == self.records.len();
        self.mode != Mode::Off && !at_end && self.bytes[len - 1..].starts_with(&[0xFF, 0])
    }

    /// The popularimeters among the first so many records.
    fn popularimeters(&self, records: usize) -> Vec<Popularimeter<'_>> {
        let numbered = (0..).zip(&self.records[..records]);
        let found = numbered.filter_map(|(frame, record)| match &record.content {
            Content::Popularimeter { user, rating, counter } => {
                Some(Popularimeter { user, rating: *rating, counter: *counter, frame })
            }
            _ => None,
        });
        found.collect()
    }
}

// ---- reading

/// What a cut was read as: so many whole frames, then perhaps a short one, then the end or a refusal.
#[derive(Clone, Copy, Debug, PartialEq, Eq)]
struct Reading {
    whole: usize,
    short: bool,
    refusal: Option<u32>,
}

/// Reads a cut, or says what opening it was refused with. Frames that are not short are what was written, one by one; after
/// a short one comes nothing.
fn read(tag: &Tag, cut: &[u8], work: &mut [u8]) -> Result<Reading, u32> {
    let mut reader = Reader::open(cut, work).map_err(Refusal::number)?;
    let mut reading = Reading { whole: 0, short: false, refusal: None };
    while let Some(frame) = reader.next_frame() {
        assert!(!reading.short, "{} bytes: after a short frame comes {frame:?}", cut.len());
        let frame = match frame {
            Ok(frame) => frame,
            Err(refusal) => {
                reading.refusal = Some(refusal.number());
                continue;
            }
        };
        let record = tag.records.get(reading.whole).expect("no more frames than were written");
        assert_eq!((frame.id, frame.at), (record.id, tag.places[reading.whole]), "{} bytes", cut.len());
        if frame.short {
            reading.short = true;
            continue;
        }
        assert_eq!((frame.content, frame.compressed), (record.content.borrowed(), false), "{} bytes", cut.len());
        reading.whole += 1;
    }
    Ok(reading)
}

/// The meter answers the popularimeters among the whole frames of a reading, and ends as it did.
fn meter(tag: &Tag, cut: &[u8], work: &mut [u8], reading: Result<Reading, u32>) {
    let (mut meter, reading) = match (Meter::open(cut, work), reading) {
        (Ok(meter), Ok(reading)) => (meter, reading),
        (opened, reading) => return assert_eq!(opened.map(|_| ()).map_err(Refusal::number), reading.map(|_| ())),
    };
    for wanted in tag.popularimeters(reading.whole) {
        assert_eq!(meter.next_popularimeter(), Some(Ok(wanted)), "{} bytes", cut.len());
    }
    let refusal = meter.next_popularimeter().map(|last| last.expect_err("no further popularimeter"));
    assert_eq!(refusal.map(Refusal::number), reading.refusal);
    let frames = reading.whole + usize::from(reading.short);
    let wanted = Ending {
        refusal,
        frames: frames as u64,
        short: reading.short,
        compressed: false,
        missing: cut.len() < tag.bytes.len(),
    };
    assert_eq!(meter.ending(), wanted, "{} bytes", cut.len());
}

/// Reads and meters a cut with a work buffer of so many bytes.
fn both(tag: &Tag, len: usize, room: usize) -> Result<Reading, u32> {
    let cut = tag.bytes[..len].to_vec();
    let reading = read(tag, &cut, &mut vec![FILLED; room]);
    meter(tag, &cut, &mut vec![FILLED; room], reading);
    reading
}

// ---- what is promised

/// Reads a cut with room enough: all whole frames, and after them what the place of the cut leaves.
fn cut(tag: &Tag, len: usize, met: &mut Met) -> Reading {
    let place = tag.place(len);
    let reading = both(tag, len, len - Header::LEN).expect("a cut from the tenth byte on is opened");
    met.cut(tag, len, reading);
    let (short, refusal) = (reading.short, reading.refusal);
    assert_eq!(reading.whole, tag.whole(len), "whole frames of {len} bytes, cut {}", place.name());
    match (place, tag.version) {
        (Place::InBody, Version::Id3v23) => assert_eq!((short, refusal), (false, Some(BYTES_MISSING)), "{len} bytes"),
        (Place::InBody, _) => assert_ne!(short, refusal.is_some(), "{len} bytes"),
        _ => assert_eq!((short, refusal), (false, None), "{len} bytes, cut {}", place.name()),
    }
    reading
}

/// Reads a cut with less room: the same comes of it, or where something is resynchronised 14 in the place of a record. In
/// 2.2 and 2.3 that is at once, and exactly where the resynchronised bytes are more.
fn cut_with_less_room(tag: &Tag, len: usize, room: usize, enough: Reading, met: &mut Met) {
    let reading = both(tag, len, room);
    let refused_at_once = tag.resynchronised() && tag.walked(len) > room;
    assert_eq!(reading.err(), refused_at_once.then_some(WORK_TOO_SMALL));
    let what = match reading {
        Err(_) => "14 at once",
        Ok(reading) if reading == enough => "the same",
        Ok(reading) => {
            assert_eq!((tag.version, tag.mode == Mode::Off), (Version::Id3v24, false));
            assert_eq!((reading.short, reading.refusal), (false, Some(WORK_TOO_SMALL)));
            assert!(reading.whole <= enough.whole);
            "14 at a frame"
        }
    };
    met.add("with less room", what, 1);
}

fn every_cut(numbers: &mut Numbers, version: Version, met: &mut Met) {
    let tag = Tag::made(numbers, version);
    met.tag(&tag);
    for len in Header::LEN..=tag.bytes.len() {
        let reading = cut(&tag, len, met);
        let most = len - Header::LEN;
        if most > 0 && numbers.once_in(16) {
            cut_with_less_room(&tag, len, most - 1, reading, met);
            cut_with_less_room(&tag, len, numbers.below(most), reading, met);
        }
    }
}

// ---- what was met

/// How often each thing was met, and each refusal by its number and the kind of the frame that is cut.
#[derive(Default)]
struct Met {
    things: BTreeMap<(&'static str, &'static str), u64>,
    refusals: BTreeMap<(u32, Kind), u64>,
}

impl Met {
    fn add(&mut self, what: &'static str, which: &'static str, count: usize) {
        if count > 0 {
            *self.things.entry((what, which)).or_default() += count as u64;
        }
    }

    fn tag(&mut self, tag: &Tag) {
        self.add("all", "tags", 1);
        self.add("all", "bytes", tag.bytes.len());
        self.add("mode", mode_name(tag.mode), 1);
        self.add("raised in place", "a counter", usize::from(tag.raised));
        for (record, end) in tag.records.iter().zip(&tag.ends) {
            self.add("written", record.kind().name(), 1);
            match tag.bytes[end - 1..] {
                [0xFF] => self.add("written", "FF at the tag's end", 1),
                [0xFF, 0, ..] => self.add("written", "FF directly before padding", 1),
                [0xFF, ..] => self.add("written", "FF directly before a frame", 1),
                _ => {}
            }
            if let Some(name) = special(record, tag.version) {
                self.add("written", name, 1);
            }
        }
    }

    fn cut(&mut self, tag: &Tag, len: usize, reading: Reading) {
        let place = tag.place(len);
        self.add("all", "cuts", 1);
        self.add("all", "whole frames", reading.whole);
        self.add("all", "whole popularimeters", tag.popularimeters(reading.whole).len());
        self.add("cut", place.name(), 1);
        if tag.parts_a_pair(len) {
            let in_size = tag.walked(len) <= tag.places[reading.whole] + tag.header_len();
            self.add("cut between FF and its 00", if in_size { "in a size" } else { "in a body" }, 1);
        }
        match (reading.refusal, tag.records.get(reading.whole)) {
            (Some(number), Some(record)) => *self.refusals.entry((number, record.kind())).or_default() += 1,
            (None, Some(record)) if reading.short => self.add("shown short", record.kind().name(), 1),
            (Some(number), None) => panic!("refused with {number} where nothing is cut"),
            _ => self.add("all", "ends", 1),
        }
    }
}

fn mode_name(mode: Mode) -> &'static str {
    match mode {
        Mode::Off => "off",
        Mode::Crate => "crate",
        Mode::Standard => "standard",
    }
}

/// Whether a chapter has one inside.
fn has_chapter(record: &Record, version: Version) -> bool {
    record.content.subframes(version).any(|sub| sub.is_ok_and(|sub| sub.kind() == Kind::Chapter))
}

/// What is special in a record, if something is.
fn special(record: &Record, version: Version) -> Option<&'static str> {
    let name = match &record.content {
        Content::Text { encoding: Encoding::Latin1, .. } => "a text in Latin-1",
        Content::Text { encoding: Encoding::Utf16, .. } => "a text in UTF-16",
        Content::Text { encoding: Encoding::Utf16Be, .. } => "a text in UTF-16, big-endian",
        Content::Text { encoding: Encoding::Utf8, .. } => "a text in UTF-8",
        Content::Popularimeter { counter: 0, .. } => "the counter 0",
        Content::Popularimeter { counter: 255, .. } => "the counter 255",
        Content::Popularimeter { counter: 65_280, .. } => "the counter 65280",
        Content::Popularimeter { counter: u64::MAX, .. } => "the largest counter",
        Content::Popularimeter { user, .. } if user.contains(&0xFF) => "a user with FF",
        Content::Raw { body } => match body[..] {
            [] => "a body of no bytes",
            [0xFF, 0x00] => "the body FF 00",
            [0xFF, 0xE0] => "the body FF E0",
            [0xFF, 0xFF] => "the body FF FF",
            _ if body.len() == 255 => "a body of 255 bytes",
            _ => return None,
        },
        Content::Chapter { .. } if has_chapter(record, version) => "a chapter in a chapter",
        _ => return None,
    };
    Some(name)
}

impl fmt::Display for Met {
    fn fmt(&self, f: &mut fmt::Formatter<'_>) -> fmt::Result {
        for ((what, which), count) in &self.things {
            writeln!(f, "  {what}: {which}: {count}")?;
        }
        for ((number, kind), count) in &self.refusals {
            writeln!(f, "  refused {number}: {kind}: {count}")?;
        }
        Ok(())
    }
}

/// The kinds that an edition has.
fn kinds(version: Version) -> &'static [Kind] {
    let all = &[Kind::Text, Kind::Popularimeter, Kind::Table, Kind::Raw, Kind::Chapter, Kind::Contents];
    if version == Version::Id3v22 {
        &all[..4]
    } else {
        all
    }
}

/// What is met in every edition.
const EVERYWHERE: [(&str, &str); 27] = [
    ("raised in place", "a counter"),
    ("mode", "off"),
    ("mode", "crate"),
    ("mode", "standard"),
    ("cut", "between frames"),
    ("cut", "in a header"),
    ("cut", "in a body"),
    ("cut", "in padding"),
    ("cut", "nowhere"),
    ("cut between FF and its 00", "in a body"),
    ("with less room", "the same"),
    ("written", "a text in Latin-1"),
    ("written", "a text in UTF-16"),
    ("written", "a text in UTF-16, big-endian"),
    ("written", "a text in UTF-8"),
    ("written", "the counter 0"),
    ("written", "the counter 255"),
    ("written", "the counter 65280"),
    ("written", "the largest counter"),
    ("written", "a user with FF"),
    ("written", "the body FF 00"),
    ("written", "the body FF E0"),
    ("written", "the body FF FF"),
    ("written", "a body of 255 bytes"),
    ("written", "FF at the tag's end"),
    ("written", "FF directly before padding"),
    ("written", "FF directly before a frame"),
];

/// What is met in an edition besides. The sizes of 2.4 have no FF; only 2.2 and 2.3 are resynchronised at once.
fn met_in(version: Version) -> &'static [(&'static str, &'static str)] {
    match version {
        Version::Id3v22 => &[("cut between FF and its 00", "in a size"), ("with less room", "14 at once")],
        Version::Id3v23 => &[
            ("cut between FF and its 00", "in a size"),
            ("with less room", "14 at once"),
            ("written", "a body of no bytes"),
            ("written", "a chapter in a chapter"),
        ],
        Version::Id3v24 => &[
            ("with less room", "14 at a frame"),
            ("written", "a body of no bytes"),
            ("written", "a chapter in a chapter"),
        ],
    }
}

/// The refusals that a cut can have, by the kind of the frame that is cut. In 2.3 each is refused. In 2.2 and 2.4 a frame is
/// refused whose first fields are not there, or which has such a subframe; a raw one has none.
fn refusals(version: Version) -> BTreeSet<(u32, Kind)> {
    let of = |number| kinds(version).iter().map(move |kind| (number, *kind));
    match version {
        Version::Id3v22 => of(FIELD_MISSING).filter(|(_, kind)| *kind != Kind::Raw).collect(),
        Version::Id3v23 => of(BYTES_MISSING).collect(),
        Version::Id3v24 => {
            // the data length of a subframe is cut
            let inside = of(BYTES_MISSING).filter(|(_, kind)| matches!(kind, Kind::Chapter | Kind::Contents));
            of(FIELD_MISSING).filter(|(_, kind)| *kind != Kind::Raw).chain(inside).collect()
        }
    }
}

impl Met {
    /// Every situation was met: the tags are not all of one sort.
    fn all_was_met(&self, version: Version) {
        let mut wanted = [&EVERYWHERE, met_in(version)].concat();
        for kind in kinds(version) {
            wanted.push(("written", kind.name()));
            if version != Version::Id3v23 {
                wanted.push(("shown short", kind.name()));
            }
        }
        wanted.retain(|thing| !self.things.contains_key(thing));
        assert!(wanted.is_empty(), "not met: {wanted:?}");
        let met: BTreeSet<_> = self.refusals.keys().copied().collect();
        assert_eq!(met, refusals(version));
    }
}

// ---- the tests

fn every_cut_of_an_edition(version: Version) {
    let from = setting(FROM, 0);
    let tags = setting("STREAMVAULT_STOPPED_TAGS", TAGS);
    let mut met = Met::default();
    for number in from..from + tags {
        let _case = Case { number, from: FROM };
        let seed = number.wrapping_mul(0x1000_0000_01B3) ^ u64::from(version.edition());
        every_cut(&mut Numbers(seed), version, &mut met);
    }
    println!("{version}\n{met}");
    if tags >= TAGS {
        met.all_was_met(version);
    }
}

#[test]
fn every_cut_of_2_2_tags_reads_as_what_was_written_up_to_it() {
    every_cut_of_an_edition(Version::Id3v22);
}

#[test]
fn every_cut_of_2_3_tags_reads_as_what_was_written_up_to_it() {
    every_cut_of_an_edition(Version::Id3v23);
}

#[test]
fn every_cut_of_2_4_tags_reads_as_what_was_written_up_to_it() {
    every_cut_of_an_edition(Version::Id3v24);
}
