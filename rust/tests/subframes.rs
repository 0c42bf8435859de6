//! The subframes of chapters and of tables of contents.

mod common;

use common::{Numbers, LARGE_COUNTER, LONG_COUNTER};
use streamvault::{read, Content, Encoding, Id, Mode, Record, Refusal, Subframes, Version, Writer};

/// A tag of this version around frames.
fn tag(version: Version, frames: &[u8]) -> Vec<u8> {
    let n = frames.len();
    assert!(n < 1 << 14);
    let size = [0, 0, (n >> 7) as u8, n as u8 & 0x7F];
    [&b"ID3"[..], &[version.edition(), 0, 0], &size, frames].concat()
}

/// A frame of 2.4 with these flags; below 128 bytes its body's size is the same in 2.3.
fn frame(id: &[u8; 4], flags: u8, body: &[u8]) -> Vec<u8> {
    let n = body.len();
    [&id[..], &[0, 0, (n >> 7) as u8, n as u8 & 0x7F, 0, flags], body].concat()
}

/// A chapter of no name and no times around a run of subframes.
fn chapter(flags: u8, run: &[u8]) -> Vec<u8> {
    frame(b"CHAP", flags, &[&[0; 17], run].concat())
}

/// A table of contents of no name and no children around a run of subframes.
fn contents(flags: u8, run: &[u8]) -> Vec<u8> {
    frame(b"CTOC", flags, &[&[0; 3], run].concat())
}

fn raw(body: &[u8]) -> Record {
    Record::new(b"PRIV", Content::Raw { body: body.to_vec() })
}

fn subframes(version: Version, record: &Record) -> Vec<Record> {
    record.content.subframes(version).collect::<Result<_, _>>().unwrap()
}

/// The records of a 2.4 tag.
fn records(frames: &[u8]) -> Vec<Record> {
    read(&tag(Version::Id3v24, frames)).unwrap()
}

#[test]
fn a_chapter_and_a_table_of_contents_have_their_subframes() {
    let run = [frame(b"TIT2", 0, b"\0one"), frame(b"POPM", 0, b"a\0\x05\x07")].concat();
    let want = [
        Record::new(b"TIT2", Content::Text { encoding: Encoding::Latin1, text: b"one".to_vec() }),
        Record::new(b"POPM", Content::Popularimeter { user: b"a".to_vec(), rating: 5, counter: 7 }),
    ];
    for version in [Version::Id3v23, Version::Id3v24] {
        for outer in [chapter(0, &run), contents(0, &run)] {
            let records = read(&tag(version, &outer)).unwrap();
            assert_eq!(subframes(version, &records[0]), want);
        }
    }
}

#[test]
fn other_kinds_have_none() {
    let frames = [frame(b"TIT2", 0, b"\0one"), frame(b"PRIV", 0, &frame(b"PRIV", 0, b"x")), chapter(0, b"")].concat();
    for record in records(&frames) {
        assert_eq!(record.content.subframes(Version::Id3v24).count(), 0);
    }
}

#[test]
fn chapters_inside_chapters() {
    let mut run = frame(b"PRIV", 0, b"x");
    for level in 0..7 {
        run = if level % 2 == 0 { chapter(0, &run) } else { contents(0, &run) };
    }
    let mut found = records(&run);
    for _ in 0..7 {
        assert_eq!(found.len(), 1);
        found = subframes(Version::Id3v24, &found[0]);
    }
    assert_eq!(found, [raw(b"x")]);
}

/// A run of two popularimeters with the flags of a 2.4 frame: one with the counter 7, and one with these counter bytes.
fn with_counter(flags: u8, counter: &[u8]) -> Vec<u8> {
    let popularimeter = |counter: &[u8]| frame(b"POPM", flags, &[&b"a\0\x05"[..], counter].concat());
    [popularimeter(&[7]), popularimeter(counter)].concat()
}

fn popularimeter(counter: u64) -> Record {
    Record::new(b"POPM", Content::Popularimeter { user: b"a".to_vec(), rating: 5, counter })
}

#[test]
fn a_long_counter_inside_a_chapter_is_one_number() {
    let want = [popularimeter(7), popularimeter(65_280)];
    for version in [Version::Id3v23, Version::Id3v24] {
        let run = with_counter(0, &LONG_COUNTER);
        for outer in [chapter(0, &run), contents(0, &run)] {
            assert_eq!(subframes(version, &read(&tag(version, &outer)).unwrap()[0]), want, "{version}");
        }
        assert_eq!(Subframes::new(version, &run).collect::<Result<Vec<_>, _>>().unwrap(), want);
    }
    let pop = [&b"POP\0\0\x0Fa\0\x05"[..], &LONG_COUNTER].concat();
    let found: Vec<_> = Subframes::new(Version::Id3v22, &pop).collect();
    assert_eq!(found, [Ok(Record { id: b"POP".into(), ..popularimeter(65_280) })]);
}

#[test]
fn a_long_counter_is_resynchronised_first() {
    let run = with_counter(2, &unsynchronised(&LONG_COUNTER));
    let twice = frame(b"CHAP", 2, &unsynchronised(&[&[0; 17], &run[..]].concat()));
    for outer in [chapter(0, &run), twice] {
        assert_eq!(subframes(Version::Id3v24, &records(&outer)[0]), [popularimeter(7), popularimeter(65_280)]);
    }
    let refused = with_counter(2, &unsynchronised(&[0xFF; 9]));
    let twice = frame(b"CHAP", 2, &unsynchronised(&[&[0; 17], &refused[..]].concat()));
    for outer in [chapter(0, &refused), twice] {
        assert_eq!(read(&tag(Version::Id3v24, &outer)), Err(Refusal::COUNTER_TOO_LARGE));
    }
}

#[test]
fn a_counter_that_is_too_large_refuses_the_chapter_and_the_run() {
    let run = with_counter(0, &LARGE_COUNTER);
    for version in [Version::Id3v23, Version::Id3v24] {
        for outer in [chapter(0, &run), contents(0, &run)] {
            assert_eq!(read(&tag(version, &outer)), Err(Refusal::COUNTER_TOO_LARGE), "{version}");
        }
        let mut subframes = Subframes::new(version, &run);
        assert_eq!(subframes.next(), Some(Ok(popularimeter(7))));
        assert_eq!(subframes.next(), Some(Err(Refusal::COUNTER_TOO_LARGE)));
        assert_eq!(subframes.next(), None);
        assert_eq!(subframes.refusal(), Some(Refusal::COUNTER_TOO_LARGE));
    }
}

/// A zero after each FF, which resynchronising drops.
fn unsynchronised(bytes: &[u8]) -> Vec<u8> {
    bytes.iter().flat_map(|&byte| if byte == 0xFF { vec![byte, 0] } else { vec![byte] }).collect()
}

#[test]
fn subframes_are_resynchronised_by_their_own_flag() {
    let bodies = [&b"\xFF\0\xFF\xE0"[..], b"\xFF\0"];
    let run = [frame(b"PRIV", 2, &unsynchronised(bodies[0])), frame(b"PRIV", 0, bodies[1])].concat();
    let twice = frame(b"CHAP", 2, &unsynchronised(&[&[0; 17], &run[..]].concat()));
    for outer in [chapter(0, &run), twice] {
        let records = records(&outer);
        assert_eq!(subframes(Version::Id3v24, &records[0]), bodies.map(raw));
    }
}

#[test]
fn a_tag_that_is_unsynchronised_as_a_whole_has_plain_subframes() {
    for mode in [Mode::Off, Mode::Crate, Mode::Standard] {
        for version in [Version::Id3v23, Version::Id3v24] {
            let mut inner = Writer::new(version);
            inner.add_record(&raw(b"\xFF\0\xFF\xE0")).unwrap();
            let run = inner.frames().to_vec();
            let element = b"c".to_vec();
            let chapter = Content::Chapter { element, start_time: 0, end_time: 0, start_offset: 0, end_offset: 0, run };
            let mut writer = Writer::new(version).mode(mode);
            writer.add(b"CHAP", &chapter).unwrap();
            let records = read(&writer.finish(1).unwrap()).unwrap();
            assert_eq!(subframes(version, &records[0]), [raw(b"\xFF\0\xFF\xE0")], "{version} {mode:?}");
        }
    }
}

#[test]
fn a_subframe_that_the_end_cuts_is_short() {
    let mut cut = tag(Version::Id3v24, &chapter(0, &frame(b"PRIV", 0, b"xyz")));
    cut.truncate(cut.len() - 1);
    let records = read(&cut).unwrap();
    assert!(records[0].short);
    let found = subframes(Version::Id3v24, &records[0]);
    assert_eq!(found, [Record { short: true, ..raw(b"xy") }]);
}

#[test]
fn frames_are_lent_in_place() {
    let run = [frame(b"PRIV", 0, b"x"), frame(b"PRIV", 0, b"yz"), vec![0; 12]].concat();
    let mut subframes = Subframes::new(Version::Id3v24, &run);
    let first = subframes.next_frame().unwrap().unwrap();
    assert_eq!((first.at, first.body.as_ptr()), (0, run[10..].as_ptr()));
    let second = subframes.next_frame().unwrap().unwrap();
    assert_eq!((second.at, second.body), (11, &b"yz"[..]));
    assert!(subframes.next_frame().is_none());
    assert!(subframes.next().is_none());
    assert_eq!(subframes.refusal(), None);
}

#[test]
fn a_run_that_was_not_read_can_be_refused() {
    let run = [frame(b"PRIV", 0, b"x"), frame(b"PRIV", 4, b"y"), frame(b"PRIV", 0, b"z")].concat();
    let mut subframes = Subframes::new(Version::Id3v24, &run);
    assert_eq!(subframes.next(), Some(Ok(raw(b"x"))));
    assert_eq!(subframes.refusal(), None);
    assert_eq!(subframes.next(), Some(Err(Refusal::ENCRYPTED)));
    assert_eq!(subframes.next(), None);
    assert_eq!(subframes.refusal(), Some(Refusal::ENCRYPTED));
}

/// Depth is counted from the run on: eight levels are read as a run, and are too many inside a chapter.
#[test]
fn depth_is_counted_from_the_run_on() {
    let mut run = frame(b"PRIV", 0, b"x");
    for _ in 0..7 {
        run = chapter(0, &run);
    }
    assert!(Subframes::new(Version::Id3v24, &run).all(|record| record.is_ok()));
    let deeper = chapter(0, &run);
    assert_eq!(Subframes::new(Version::Id3v24, &deeper).next(), Some(Err(Refusal::TOO_DEEP)));
    assert_eq!(read(&tag(Version::Id3v24, &deeper)), Err(Refusal::TOO_DEEP));
    let element = &b""[..];
    let content =
        Content::Chapter { element, start_time: 0, end_time: 0, start_offset: 0, end_offset: 0, run: &run[..] };
    assert_eq!(Writer::new(Version::Id3v24).add(b"CHAP", &content), Err(Refusal::WRONG_RUN));
}

// ---- many tags

/// Some frames, among them chapters down to this depth, with flags and bytes of every sort.
fn some_frames(numbers: &mut Numbers, depth: usize) -> Vec<u8> {
    let count = numbers.below(4);
    (0..count).flat_map(|_| some_frame(numbers, depth)).collect()
}

fn some_frame(numbers: &mut Numbers, depth: usize) -> Vec<u8> {
    let flags = *numbers.one(&[0, 0, 0, 2, 2, 8]);
    let len = numbers.below(12);
    let bytes = numbers.bytes(len);
    match numbers.below(if depth > 0 { 6 } else { 3 }) {
        0 => frame(b"PRIV", flags, &bytes),
        1 => frame(b"TIT2", flags, &[&[numbers.below(4) as u8], &bytes[..]].concat()),
        2 => frame(b"POPM", flags, &[&b"a\0\x05"[..], &vec![0; numbers.below(8)], &bytes].concat()),
        3 => contents(flags, &some_frames(numbers, depth - 1)),
        _ => chapter(flags, &some_frames(numbers, depth - 1)),
    }
}

/// Holds the subframes of a record against a tag around its run; gives how many were met at all levels.
fn check(version: Version, record: &Record) -> usize {
    let (Content::Chapter { run, .. } | Content::Contents { run, .. }) = &record.content else {
        return 0;
    };
    let found = subframes(version, record);
    assert_eq!(found, read(&tag(version, run)).unwrap());
    found.len() + found.iter().map(|record| check(version, record)).sum::<usize>()
}

#[test]
fn no_subframe_of_a_chapter_that_was_read_is_refused() {
    let mut numbers = Numbers(16);
    let mut met = 0;
    for _ in 0..5_000 {
        let version = *numbers.one(&[Version::Id3v23, Version::Id3v24]);
        let mut tag = tag(version, &some_frames(&mut numbers, 4));
        if numbers.once_in(4) {
            let place = 10 + numbers.below(tag.len());
            if let Some(byte) = tag.get_mut(place) {
                *byte = numbers.byte();
            }
        }
        if numbers.once_in(4) {
            tag.truncate(10 + numbers.below(tag.len()));
        }
        let Ok(records) = read(&tag) else { continue };
        met += records.iter().map(|record| check(version, record)).sum::<usize>();
    }
    assert!(met > 3_000, "{met}");
}

#[test]
fn subframes_of_2_2_have_ids_of_three() {
    let found: Result<Vec<_>, _> = Subframes::new(Version::Id3v22, b"UFI\0\0\x01x").collect();
    assert_eq!(found.unwrap()[0].id, Id::from(b"UFI"));
}
