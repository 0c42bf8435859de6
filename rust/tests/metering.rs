//! The meter through the safe interface: what it shows, what it marks, and that it is the reader's steps repeated.

mod common;

use common::{id, unsynchronised, Numbers, LARGE_COUNTER, LONG_COUNTER};
use streamvault::{
    calls, read, sys, Content, Encoding, Ending, Id, Meter, Mode, Reader, Record, Refusal, Version, Work, Writer,
};

/// User, rating, counter and frame number, with bytes of its own.
type Kept = (Vec<u8>, u8, u64, u64);

/// The popularimeters of a tag, and how it ended.
fn metered(tag: &[u8]) -> Result<(Vec<Kept>, Ending), Refusal> {
    let mut meter = Meter::open(tag, Vec::new())?;
    let mut found = Vec::new();
    while let Some(next) = meter.next_popularimeter() {
        let Ok(one) = next else { break };
        found.push((one.user.to_vec(), one.rating, one.counter, one.frame));
    }
    Ok((found, meter.ending()))
}

/// The same from the frames that a reader shows.
fn by_reader(tag: &[u8]) -> Result<(Vec<Kept>, Ending), Refusal> {
    let missing = tag.len() < streamvault::header(tag)?.tag_len();
    let mut reader = Reader::open(tag, Vec::new())?;
    let mut ending = Ending { refusal: None, frames: 0, short: false, compressed: false, missing };
    let mut found = Vec::new();
    while let Some(Ok(frame)) = reader.next_frame() {
        if let (Content::Popularimeter { user, rating, counter }, false) = (frame.content, frame.short) {
            found.push((user.to_vec(), rating, counter, ending.frames));
        }
        ending.frames += 1;
        ending.short |= frame.short;
        ending.compressed |= frame.compressed && frame.id == Id::from(b"POPM");
    }
    ending.refusal = reader.refusal();
    Ok((found, ending))
}

// ---- tags

fn popularimeter(version: Version, user: &[u8], counter: u64) -> Record {
    Record::new(id(version, b"POP", b"POPM"), Content::Popularimeter { user: user.to_vec(), rating: 7, counter })
}

/// A title, two popularimeters around a private frame, and in later editions a chapter with a popularimeter inside.
fn records(version: Version) -> Vec<Record> {
    let title = Content::Text { encoding: Encoding::Latin1, text: b"A song".to_vec() };
    let mut records = vec![
        Record::new(id(version, b"TT2", b"TIT2"), title),
        popularimeter(version, b"room\xFF\xFE1", 0xFF00),
        Record::new(id(version, b"UFI", b"PRIV"), Content::Raw { body: b"\xFF\xE0\xFF\0".to_vec() }),
        popularimeter(version, b"", 3),
    ];
    if version != Version::Id3v22 {
        let run = written(version, Mode::Off, &[popularimeter(version, b"inner", 99)])[10..].to_vec();
        let element = b"c1".to_vec();
        let chapter = Content::Chapter { element, start_time: 0, end_time: 1, start_offset: 2, end_offset: 3, run };
        records.insert(1, Record::new(b"CHAP", chapter));
    }
    records
}

fn written(version: Version, mode: Mode, records: &[Record]) -> Vec<u8> {
    let mut writer = Writer::new(version).mode(mode);
    for record in records {
        writer.add_record(record).unwrap();
    }
    writer.finish(0).unwrap()
}

/// A tag of each edition and mode, with its edition.
fn tags() -> Vec<(Version, Vec<u8>)> {
    let mut tags = Vec::new();
    for version in [Version::Id3v22, Version::Id3v23, Version::Id3v24] {
        for mode in [Mode::Off, Mode::Crate, Mode::Standard] {
            tags.push((version, written(version, mode, &records(version))));
        }
    }
    tags
}

// ---- what is shown and marked

#[test]
fn the_whole_popularimeters_of_the_top_level_are_shown() {
    for (version, tag) in tags() {
        let (found, ending) = metered(&tag).unwrap();
        let chapters = u64::from(version != Version::Id3v22);
        let want = [(b"room\xFF\xFE1".to_vec(), 7, 0xFF00, 1 + chapters), (Vec::new(), 7, 3, 3 + chapters)];
        assert_eq!(found, want, "{version}");
        assert!(ending.is_whole());
        assert_eq!(ending.frames, 4 + chapters);
        assert_eq!(Meter::open(&tag, Vec::new()).unwrap().version(), version);
    }
}

#[test]
fn a_user_is_lent_from_the_tag_where_it_lies_there() {
    let tag = written(Version::Id3v24, Mode::Off, &[popularimeter(Version::Id3v24, b"room 1", 5)]);
    let mut meter = Meter::open(&tag, &mut []).unwrap();
    let found = meter.next_popularimeter().unwrap().unwrap();
    assert_eq!(found.user.as_ptr(), tag[20..].as_ptr());
}

#[test]
fn compressed_popularimeters_are_marked_and_other_compressed_frames_are_not() {
    let whole = written(Version::Id3v24, Mode::Off, &records(Version::Id3v24));
    let at = |id: &[u8]| whole.windows(4).rposition(|four| four == id).unwrap();
    for (id, marked) in [(&b"POPM"[..], true), (b"PRIV", false)] {
        let mut tag = whole.clone();
        tag[at(id) + 9] = 8;
        let (found, ending) = metered(&tag).unwrap();
        assert_eq!((found.len(), ending.compressed), (if marked { 1 } else { 2 }, marked));
        assert_eq!((ending.frames, ending.is_whole()), (5, !marked));
    }
}

#[test]
fn after_a_refusal_there_is_nothing_more() {
    let mut tag = written(Version::Id3v23, Mode::Off, &records(Version::Id3v23));
    let last = tag.len() - 1;
    tag.truncate(last);
    let mut meter = Meter::open(&tag, Vec::new()).unwrap();
    assert_eq!(meter.ending().refusal, None);
    assert_eq!(meter.next_popularimeter().unwrap().unwrap().counter, 0xFF00);
    assert_eq!(meter.next_popularimeter().unwrap().unwrap_err().number(), sys::SV_MISSING_BYTES);
    assert!(meter.next_popularimeter().is_none());
    let ending = meter.ending();
    assert_eq!((ending.refusal.unwrap().number(), ending.frames), (sys::SV_MISSING_BYTES, 4));
    assert!(ending.missing && !ending.short && !ending.is_whole());
}

#[test]
fn what_a_reader_does_not_open_a_meter_refuses() {
    for tag in [&b"ID3\x04\0\0\0\0\0"[..], b"ID3\x05\0\0\0\0\0\0", b"ID3\x04\0\x01\0\0\0\0", b"ID3\x02\0\x40\0\0\0\0"] {
        let refusal = Meter::open(tag, Vec::new()).err().unwrap();
        assert_eq!(Some(refusal), Reader::open(tag, Vec::new()).err());
    }
}

// ---- what the frames leave

/// Lets a meter go to its end, which it has to reach, and gives the rest.
fn rest_of<W: Work>(tag: &[u8], work: W) -> Vec<u8> {
    let mut meter = Meter::open(tag, work).unwrap();
    assert!(meter.rest().is_empty());
    while let Some(found) = meter.next_popularimeter() {
        found.unwrap();
        assert!(meter.rest().is_empty());
    }
    meter.rest().to_vec()
}

#[test]
fn the_rest_is_lent_after_the_end_also_from_the_work_buffer() {
    for (version, tag) in tags() {
        assert_eq!(rest_of(&tag, Vec::new()), []);
        for rest in [&b"\0"[..], b"\0\0POPM", b"\0\xFF", b"XYZ12", b"\0A\0B\0C\0D\0E\0F\0G\0H"] {
            let mut long = [&tag[..], rest].concat();
            let size = long.len() - 10;
            (long[8], long[9]) = ((size >> 7) as u8, size as u8 & 0x7F);
            let followed = [&long[..], b"POPM and so on"].concat();
            let mut work = vec![0; followed.len()];
            assert_eq!(rest_of(&long, Vec::new()), rest, "{version}");
            assert_eq!(rest_of(&followed, &mut work[..]), rest, "{version}");
            // of a tag that is cut it is what is there
            assert_eq!(rest_of(&long[..long.len() - 1], &mut work), rest[..rest.len() - 1], "{version}");
        }
    }
}

#[test]
fn the_rest_is_resynchronised_with_the_tag() {
    for (edition, want) in [(3, &b"\0\xFF\x01\xFF\0"[..]), (4, b"\0\xFF\0\x01\xFF\0\0")] {
        let tag = [b"ID3", &[edition, 0, 0x80, 0, 0, 0, 7][..], b"\0\xFF\0\x01\xFF\0\0"].concat();
        assert_eq!(rest_of(&tag, Vec::new()), want);
    }
}

#[test]
fn after_a_refusal_there_is_no_rest() {
    let tag = b"ID3\x03\0\0\0\0\0\x20PRIV\0\0\0\x7F\0\0and no more of it";
    let mut meter = Meter::open(tag, Vec::new()).unwrap();
    assert!(meter.next_popularimeter().unwrap().is_err());
    assert!(meter.next_popularimeter().is_none());
    assert!(meter.rest().is_empty());
}

// ---- work buffers

/// A private frame, chapters inside one another and a popularimeter, all of them resynchronised.
fn deep_tag() -> Vec<u8> {
    let frame = |id: &[u8; 4], body: &[u8]| {
        let n = body.len();
        [&id[..], &[0, 0, (n >> 7) as u8, n as u8 & 0x7F, 0, 2], body].concat()
    };
    let mut run = frame(b"PRIV", b"\xFF\0\0");
    for _ in 0..7 {
        run = frame(b"CHAP", &[&[0; 17], &run[..]].concat());
    }
    run = [frame(b"PRIV", b"x"), run, frame(b"POPM", b"room\xFF\x001\0\x07\x05")].concat();
    let n = run.len();
    [&[b'I', b'D', b'3', 4, 0, 0, 0, 0, (n >> 7) as u8, n as u8 & 0x7F], &run[..]].concat()
}

#[test]
fn a_vector_grows_and_a_slice_does_not() {
    let tag = deep_tag();
    assert_eq!(metered(&tag).unwrap().0, [(b"room\xFF1".to_vec(), 7, 5, 2)]);
    let mut work = vec![0; tag.len()];
    let mut meter = Meter::open(&tag, &mut work[..]).unwrap();
    assert_eq!(meter.next_popularimeter().unwrap().unwrap_err().number(), sys::SV_WORK_TOO_SMALL);
    let mut work = Vec::new();
    let mut meter = Meter::open(&tag, &mut work).unwrap();
    assert!(meter.next_popularimeter().unwrap().is_ok());
    // a call that was made again counts its frames once
    assert_eq!(meter.ending().frames, 3);
    assert!(work.len() > tag.len() && work.len() <= 8 * tag.len());
}

// ---- counters of more than eight bytes

/// A tag of this edition and these flags around frames as they are stored.
fn around(version: Version, flags: u8, frames: &[u8]) -> Vec<u8> {
    let n = frames.len();
    [&[b'I', b'D', b'3', version.edition(), 0, flags, 0, 0, (n >> 7) as u8, n as u8 & 0x7F], frames].concat()
}

/// A frame with these flags, which 2.2 has none of.
fn frame(version: Version, id: Id, flags: u8, body: &[u8]) -> Vec<u8> {
    assert!(body.len() < 0x80);
    let size = body.len() as u8;
    let head = if version == Version::Id3v22 { vec![0, 0, size] } else { vec![0, 0, 0, size, 0, flags] };
    [id.as_bytes(), &head, body].concat()
}

/// A tag of each edition, plain and as standard mode stores it, with three popularimeters: of room 1 (7), of room 2 with
/// these counter bytes, of room 3 (5).
fn with_counter(counter: &[u8]) -> Vec<(Version, Vec<u8>)> {
    let mut tags = Vec::new();
    for version in [Version::Id3v22, Version::Id3v23, Version::Id3v24] {
        let bodies = [&b"room 1\0\x07\x07"[..], &[b"room 2\0\x07", counter].concat(), b"room 3\0\x07\x05"];
        let id = id(version, b"POP", b"POPM");
        let plain = bodies.map(|body| frame(version, id, 0, body)).concat();
        let stored = match version {
            Version::Id3v24 => bodies.map(|body| frame(version, id, 2, &unsynchronised(body))).concat(),
            _ => unsynchronised(&plain),
        };
        tags.push((version, around(version, 0, &plain)));
        tags.push((version, around(version, 0x80, &stored)));
    }
    tags
}

#[test]
fn a_long_counter_is_shown_in_every_edition_and_mode() {
    for (version, tag) in with_counter(&LONG_COUNTER) {
        let (found, ending) = metered(&tag).unwrap();
        let want = [(&b"room 1"[..], 7), (b"room 2", 65_280), (b"room 3", 5)];
        let want = want.iter().zip(0..).map(|((user, counter), frame)| (user.to_vec(), 7, *counter, frame));
        assert_eq!(found, want.collect::<Vec<_>>(), "{version}");
        assert!(ending.is_whole());
        assert_eq!(ending.frames, 3);
        assert_eq!(counters(&tag), [7, 65_280, 5], "{version}");
    }
}

/// The counters of a tag by the calls, which go to its end.
fn counters(tag: &[u8]) -> Vec<u64> {
    let (mut work, mut meter) = (vec![0; tag.len()], [0; sys::SV_METER_WORDS]);
    assert_eq!(calls::meter_open(tag, &mut work, &mut meter), 0);
    let next = || {
        let mut metered = [0; sys::SV_METERED_WORDS];
        let answer = calls::meter_next(tag, &mut work, &mut meter, &mut metered);
        assert!(answer == 0 || answer == sys::SV_END, "{answer}");
        (answer == 0).then_some(metered[sys::SV_METERED_COUNTER])
    };
    std::iter::from_fn(next).collect()
}

#[test]
fn a_counter_that_is_too_large_is_refused_where_the_reader_refuses_it() {
    for (version, tag) in with_counter(&LARGE_COUNTER) {
        let (found, ending) = metered(&tag).unwrap();
        assert_eq!(found, [(b"room 1".to_vec(), 7, 7, 0)], "{version}");
        let refusal = Some(Refusal::COUNTER_TOO_LARGE);
        assert_eq!(ending, Ending { refusal, frames: 1, short: false, compressed: false, missing: false });
        assert_eq!(metered(&tag), by_reader(&tag));
        let mut meter = Meter::open(&tag, Vec::new()).unwrap();
        assert!(meter.next_popularimeter().unwrap().is_ok());
        assert_eq!(meter.next_popularimeter().unwrap(), Err(Refusal::COUNTER_TOO_LARGE));
        assert!(meter.next_popularimeter().is_none());
        assert!(meter.rest().is_empty());
    }
}

/// A popularimeter (3), a chapter around one with these counter bytes, and one with the long counter.
fn with_chapter(version: Version, counter: &[u8]) -> Vec<u8> {
    let popularimeter = |counter: &[u8]| frame(version, b"POPM".into(), 0, &[b"room 1\0\x07", counter].concat());
    let chapter = frame(version, b"CHAP".into(), 0, &[&[0; 17], &popularimeter(counter)[..]].concat());
    around(version, 0, &[popularimeter(&[3]), chapter, popularimeter(&LONG_COUNTER)].concat())
}

#[test]
fn a_counter_inside_a_chapter_is_not_shown_and_refused_where_it_is_too_large() {
    let shown = |counter, frame| (b"room 1".to_vec(), 7, counter, frame);
    for version in [Version::Id3v23, Version::Id3v24] {
        let (found, ending) = metered(&with_chapter(version, &LONG_COUNTER)).unwrap();
        assert_eq!((found, ending.is_whole()), (vec![shown(3, 0), shown(65_280, 2)], true), "{version}");
        let tag = with_chapter(version, &LARGE_COUNTER);
        let (found, ending) = metered(&tag).unwrap();
        assert_eq!((found, ending.frames), (vec![shown(3, 0)], 1), "{version}");
        assert_eq!(ending.refusal, Some(Refusal::COUNTER_TOO_LARGE), "{version}");
        assert_eq!(metered(&tag), by_reader(&tag));
    }
}

/// By the calls: the meter leaves the words of a reader and the work buffer as the steps do, and answers its number again.
#[test]
fn a_refused_counter_leaves_what_the_steps_leave() {
    for (version, tag) in with_counter(&LARGE_COUNTER).into_iter().chain(with_counter(&[0xFF; 9])) {
        let (mut work, mut reader) = (vec![0x55; tag.len()], [0; sys::SV_READER_WORDS]);
        let (mut metering, mut meter) = (work.clone(), [0; sys::SV_METER_WORDS]);
        assert_eq!(calls::open(&tag, &mut work, &mut reader), 0);
        assert_eq!(calls::meter_open(&tag, &mut metering, &mut meter), 0);
        let (mut record, mut metered) = ([0; sys::SV_RECORD_WORDS], [0; sys::SV_METERED_WORDS]);
        let refused = sys::SV_COUNTER_TOO_LARGE;
        for answer in [0, refused, refused] {
            assert_eq!(calls::step(&tag, &mut work, &mut reader, &mut record), answer, "{version}");
            assert_eq!(calls::meter_next(&tag, &mut metering, &mut meter, &mut metered), answer, "{version}");
            assert_eq!(meter[..sys::SV_READER_WORDS], reader);
            assert_eq!(meter[sys::SV_METER_FRAMES..], [1, 0, 0, 0]);
            assert_eq!(metering, work);
            // what was shown before the refusal stays
            assert_eq!((metered[sys::SV_METERED_COUNTER], metered[sys::SV_METERED_FRAME]), (7, 0));
        }
    }
}

// ---- the reader's steps repeated

/// Tags that a writer wrote, and those with long counters.
fn all_tags() -> impl Iterator<Item = (Version, Vec<u8>)> {
    let long = [&LONG_COUNTER[..], &LARGE_COUNTER, &[0xFF; 9]].map(with_counter);
    tags().into_iter().chain(long.into_iter().flatten())
}

#[test]
fn every_cut_of_a_tag_shows_what_the_reader_shows() {
    for (version, tag) in all_tags() {
        for len in 0..=tag.len() {
            assert_eq!(metered(&tag[..len]), by_reader(&tag[..len]), "{version}, {len} bytes");
        }
    }
}

#[test]
fn damaged_tags_show_what_the_reader_shows() {
    let mut numbers = Numbers(25);
    for (version, tag) in all_tags() {
        for _ in 0..400 {
            let mut damaged = tag.clone();
            for _ in 0..1 + numbers.below(3) {
                let at = numbers.below(tag.len());
                damaged[at] = numbers.byte();
            }
            assert_eq!(metered(&damaged), by_reader(&damaged), "{version}, {damaged:02X?}");
        }
    }
}

#[test]
fn nothing_of_a_cut_tag_is_shown_that_was_not_written() {
    for (version, tag) in tags() {
        let whole = metered(&tag).unwrap().0;
        let frames = read(&tag).unwrap().len() as u64;
        for len in 10..tag.len() {
            let (found, ending) = metered(&tag[..len]).unwrap();
            assert!(whole.starts_with(&found), "{version}, {len} bytes");
            assert!(ending.missing && ending.frames <= frames);
        }
    }
}
