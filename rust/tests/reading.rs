//! Reading through the safe interface: cases of document 01, the lending reader, work buffers.

mod common;

use common::{unsynchronised, LARGE_COUNTER, LONG_COUNTER};
use streamvault::{
    calls, header, read, references, sys, Content, Encoding, Id, Kind, Meter, Reader, Record, Reference, Refusal,
    Version,
};

/// A tag of this edition and these flags around frames.
fn tag(edition: u8, flags: u8, frames: &[u8]) -> Vec<u8> {
    let n = frames.len();
    let mut tag = b"ID3".to_vec();
    tag.extend([edition, 0, flags, 0, 0, (n >> 7) as u8 & 0x7F, n as u8 & 0x7F]);
    tag.extend(frames);
    tag
}

/// A 2.4 frame; below 128 bytes its body's size is the same in 2.3.
fn frame(id: &[u8; 4], flags: u8, body: &[u8]) -> Vec<u8> {
    let n = body.len();
    [&id[..], &[0, 0, (n >> 7) as u8, n as u8 & 0x7F, 0, flags], body].concat()
}

/// A chapter of no name and no times around a run of subframes.
fn chapter(flags: u8, run: &[u8]) -> Vec<u8> {
    frame(b"CHAP", flags, &[&[0; 17], run].concat())
}

/// The only record of a tag.
fn only(tag: &[u8]) -> Record {
    let mut records = read(tag).unwrap();
    assert_eq!(records.len(), 1);
    records.remove(0)
}

/// The number that a tag is refused with.
fn number(tag: &[u8]) -> u32 {
    read(tag).unwrap_err().number()
}

// ---- the header

#[test]
fn headers_are_refused_in_their_order() {
    let refused = |tag: &[u8]| header(tag).unwrap_err().number();
    assert_eq!(refused(b"ID3\x04\0\0\0\0\0"), 1);
    assert_eq!(refused(b"TAG\x04\0\0\0\0\0\0"), 1);
    assert_eq!(refused(b"ID3\x05\0\x4F\0\0\0\0"), 2);
    assert_eq!(refused(b"ID3\x02\0\x4F\0\0\0\0"), 3);
    assert_eq!(refused(b"ID3\x02\0\x40\0\0\0\0"), 4);
    assert_eq!(refused(b"ID3\x03\0\x40\0\0\0\x05\0\0\0\x06\0\0"), 5);
    assert_eq!(refused(b"ID3\x03\0\x40\0\0\0\x06\0\0\0\x05\0\0"), 6);
}

#[test]
fn sizes_join_bits_and_clear_none() {
    let size = |bytes: [u8; 4]| header(&[&b"ID3\x04\0\0"[..], &bytes].concat()).unwrap().size;
    assert_eq!(size([0, 0, 1, 0x7F]), 255);
    assert_eq!(size([0, 0, 1, 0xFF]), 255);
    assert_eq!(size([0xFF; 4]), 0x1FFF_FFFF);
}

#[test]
fn the_fields_of_a_header() {
    let found = header(b"ID3\x03\0\xC0\0\0\x01\0\0\0\0\x0A\0\0").unwrap();
    assert_eq!((found.version, found.flags, found.size, found.ext), (Version::Id3v23, 0xC0, 128, 10));
    assert_eq!(found.tag_len(), 138);
}

#[test]
fn a_reader_and_a_meter_have_the_header_of_their_tag() {
    let extended = [&b"\0\0\0\x06\0\0"[..], &frame(b"PRIV", 0, b"x")].concat();
    for tag in [tag(2, 0, b""), tag(3, 0x40, &extended), whole_tag(), tag(4, 0x80, &[0; 300])] {
        let want = header(&tag).unwrap();
        let mut reader = Reader::open(&tag, Vec::new()).unwrap();
        assert_eq!(reader.header(), want);
        while reader.next_frame().is_some() {}
        assert_eq!(reader.header(), want);
        assert_eq!(Meter::open(&tag, Vec::new()).unwrap().header(), want);
    }
}

// ---- the five kinds

#[test]
fn texts_end_by_their_edition() {
    let text = |edition, body: &[u8]| match only(&tag(edition, 0, &frame(b"TIT2", 0, body))).content {
        Content::Text { text, .. } => text,
        other => panic!("{other:?}"),
    };
    assert_eq!(text(4, b"\0A\0"), b"A\0");
    assert_eq!(text(4, b"\0AB\0"), b"AB");
    assert_eq!(text(3, b"\0A\0B"), b"A");
    assert_eq!(text(3, b"\x01A\0\0\0B\0"), b"A\0");
}

#[test]
fn a_text_has_its_encoding() {
    let record = only(&tag(2, 0, b"TT2\0\0\x03\x03hi"));
    let want = Content::Text { encoding: Encoding::Utf8, text: b"hi".to_vec() };
    assert_eq!(record, Record::new(b"TT2", want));
    assert_eq!(number(&tag(2, 0, b"TT2\0\0\x03\x04hi")), 12);
    assert_eq!(number(&tag(2, 0, b"TT2\0\0\0")), 11);
}

#[test]
fn counters_of_any_length() {
    let counter = |bytes: &[u8]| {
        let body = [&b"a\0\x05"[..], bytes].concat();
        match only(&tag(4, 0, &frame(b"POPM", 0, &body))).content {
            Content::Popularimeter { user, rating: 5, counter } if user == b"a" => counter,
            other => panic!("{other:?}"),
        }
    };
    assert_eq!(counter(&[]), 0);
    assert_eq!(counter(&[0xFF, 0]), 65_280);
    assert_eq!(counter(&[0xFF; 8]), u64::MAX);
    assert_eq!(counter(&[0; 100]), 0);
    assert_eq!(counter(&[0, 1, 2, 3, 4, 5, 6, 7, 8]), 0x0102_0304_0506_0708);
    for zeros in 0..=100 {
        assert_eq!(counter(&[&vec![0; zeros][..], &[0xFF; 8]].concat()), u64::MAX);
        assert_eq!(counter(&[&vec![0; zeros][..], &[7]].concat()), 7);
    }
    assert_eq!(number(&tag(4, 0, &frame(b"POPM", 0, b"no zero"))), 11);
    assert_eq!(number(&tag(4, 0, &frame(b"POPM", 0, b"no rating\0"))), 11);
}

#[test]
fn a_table_and_its_references() {
    let body = [0, 1, 0, 0, 2, 0, 0, 3, 4, 8, 0xA5, 0xC3, 0x01];
    let Content::Table { table, packed } = only(&tag(3, 0, &frame(b"MLLT", 0, &body))).content else {
        panic!("no table");
    };
    assert_eq!((table.frames, table.bytes, table.millis), (1, 2, 3));
    let want = [Reference { bytes: 0xA, millis: 0x5C }, Reference { bytes: 3, millis: 1 }];
    assert_eq!(references(&table, &packed).unwrap(), want);
    assert_eq!(number(&tag(3, 0, &frame(b"MLLT", 0, &[0; 10]))), 30);
    assert_eq!(number(&tag(3, 0, &frame(b"MLLT", 0, &[0, 0, 0, 0, 0, 0, 0, 0, 1, 1]))), 31);
}

#[test]
fn references_of_widths_that_are_none_are_refused() {
    let table = streamvault::Table { bits_for_bytes: 0, bits_for_millis: 4, ..Default::default() };
    assert_eq!(references(&table, &[0; 4]).unwrap_err().number(), 30);
}

#[test]
fn chapters_and_contents() {
    let sub = frame(b"TIT2", 0, b"\0one");
    let body = [&b"c1\0"[..], &[0, 0, 0, 1, 0, 0, 0, 2, 0, 0, 0, 3, 0, 0, 0, 4], &sub].concat();
    let want = Content::Chapter {
        element: b"c1".to_vec(),
        start_time: 1,
        end_time: 2,
        start_offset: 3,
        end_offset: 4,
        run: sub.clone(),
    };
    assert_eq!(only(&tag(4, 0, &frame(b"CHAP", 0, &body))), Record::new(b"CHAP", want));

    let body = [&b"toc\0\x03\x02c1\0c2\0"[..], &sub].concat();
    let want = Content::Contents {
        element: b"toc".to_vec(),
        top_level: true,
        ordered: true,
        children: b"c1\0c2\0".to_vec(),
        run: sub,
    };
    assert_eq!(only(&tag(3, 0, &frame(b"CTOC", 0, &body))), Record::new(b"CTOC", want));
    assert_eq!(number(&tag(3, 0, &frame(b"CTOC", 0, b"toc\0\x03\x02c1\0c2"))), 11);
}

#[test]
fn other_ids_and_compressed_frames_are_raw() {
    let record = only(&tag(4, 0, &frame(b"PRIV", 0, b"\xFF\0")));
    assert_eq!(record, Record::new(b"PRIV", Content::Raw { body: b"\xFF\0".to_vec() }));
    let record = only(&tag(4, 0, &frame(b"TIT2", 8, b"\xFF\0")));
    assert!(record.compressed);
    assert_eq!(record.kind(), Kind::Raw);
}

// ---- counters of more than eight bytes

/// A popularimeter of an edition with these counter bytes.
fn popularimeter(edition: u8, counter: &[u8]) -> Vec<u8> {
    let body = [&b"a\0\x05"[..], counter].concat();
    match edition {
        2 => [&b"POP\0\0"[..], &[body.len() as u8], &body].concat(),
        _ => frame(b"POPM", 0, &body),
    }
}

/// A tag of each edition with a raw frame before a popularimeter and one after it, plain and as standard mode stores it.
fn with_counter(counter: &[u8]) -> Vec<Vec<u8>> {
    let around = |raw: Vec<u8>, popularimeter: Vec<u8>| [&raw[..], &popularimeter, &raw].concat();
    let mut tags = Vec::new();
    for edition in [2, 3] {
        let raw = if edition == 2 { b"UFI\0\0\x01x".to_vec() } else { frame(b"PRIV", 0, b"x") };
        let frames = around(raw, popularimeter(edition, counter));
        tags.extend([tag(edition, 0, &frames), tag(edition, 0x80, &unsynchronised(&frames))]);
    }
    let raw = frame(b"PRIV", 2, b"\xFF\0\0");
    let stored = frame(b"POPM", 2, &unsynchronised(&[&b"a\0\x05"[..], counter].concat()));
    tags.push(tag(4, 0, &around(raw.clone(), popularimeter(4, counter))));
    tags.push(tag(4, 0x80, &around(raw, stored)));
    tags
}

/// What steps answer up to the first that does not answer 0, the counters that they show, and what they leave in the work
/// buffer, without the bytes after it that were never changed.
fn stepped(tag: &[u8]) -> (Vec<u32>, Vec<u64>, Vec<Vec<u8>>) {
    const UNCHANGED: u8 = 0x55;
    let (mut work, mut reader) = (vec![UNCHANGED; tag.len()], [0; sys::SV_READER_WORDS]);
    assert_eq!(calls::open(tag, &mut work, &mut reader), 0);
    let (mut answers, mut counters, mut left) = (Vec::new(), Vec::new(), Vec::new());
    while answers.iter().all(|answer| *answer == 0) {
        let mut record = [0; sys::SV_RECORD_WORDS];
        answers.push(calls::step(tag, &mut work, &mut reader, &mut record));
        if record[sys::SV_RECORD_KIND] == sys::SV_KIND_POPULARIMETER {
            counters.push(record[sys::SV_POPULARIMETER_COUNTER]);
        }
        let changed = work.iter().rposition(|byte| *byte != UNCHANGED).map_or(0, |last| last + 1);
        left.push(work[..changed].to_vec());
    }
    (answers, counters, left)
}

#[test]
fn a_long_counter_is_read_in_every_edition_and_mode() {
    for tag in with_counter(&LONG_COUNTER) {
        let records = read(&tag).unwrap();
        assert_eq!(records.len(), 3, "{tag:02X?}");
        let want = Content::Popularimeter { user: b"a".to_vec(), rating: 5, counter: 65_280 };
        assert_eq!(records[1].content, want, "{tag:02X?}");
        let (answers, counters, _) = stepped(&tag);
        assert_eq!((answers, counters), (vec![0, 0, 0, sys::SV_END], vec![65_280]), "{tag:02X?}");
    }
}

#[test]
fn a_counter_that_is_too_large_is_refused_in_every_edition_and_mode() {
    let with_zeros = [&[0; 5], &LARGE_COUNTER[..]].concat();
    for counter in [&LARGE_COUNTER[..], &[0xFF; 9], &with_zeros, &[0xFF; 100]] {
        for tag in with_counter(counter) {
            let mut reader = Reader::open(&tag, Vec::new()).unwrap();
            assert_eq!(reader.next_frame().unwrap().unwrap().kind(), Kind::Raw);
            assert_eq!(reader.next_frame().unwrap(), Err(Refusal::COUNTER_TOO_LARGE), "{tag:02X?}");
            assert!(reader.next_frame().is_none());
            assert_eq!(reader.refusal(), Some(Refusal::COUNTER_TOO_LARGE));
            assert_eq!(stepped(&tag).0, [0, sys::SV_COUNTER_TOO_LARGE], "{tag:02X?}");
        }
    }
}

#[test]
fn a_refused_counter_leaves_the_words_and_the_reader_stays_refused() {
    for tag in with_counter(&LARGE_COUNTER) {
        let (mut work, mut reader) = (vec![0x55; tag.len()], [0; sys::SV_READER_WORDS]);
        assert_eq!(calls::open(&tag, &mut work, &mut reader), 0);
        let mut record = [7; sys::SV_RECORD_WORDS];
        assert_eq!(calls::step(&tag, &mut work, &mut reader, &mut record), 0);
        let mut want = reader;
        want[sys::SV_READER_STOP] = sys::SV_STOP_REFUSED;
        want[sys::SV_READER_NUMBER] = u64::from(sys::SV_COUNTER_TOO_LARGE);
        let shown = record;
        for _ in 0..3 {
            assert_eq!(calls::step(&tag, &mut work, &mut reader, &mut record), sys::SV_COUNTER_TOO_LARGE);
            assert_eq!((reader, record), (want, shown));
        }
    }
}

/// The work buffer has what was resynchronised up to the refusal, the refused body among it.
#[test]
fn a_refused_counter_leaves_the_work_buffer_as_the_steps_do() {
    let tags = with_counter(&[0xFF; 9]);
    // 2.2 and 2.3: nothing, or all frames from the opening on
    for pair in tags[..4].chunks(2) {
        assert_eq!(stepped(&pair[0]).2, [&[]; 2]);
        assert_eq!(stepped(&pair[1]).2, [&pair[0][10..]; 2]);
    }
    // 2.4: each frame's body over the one before
    assert_eq!(stepped(&tags[4]).2, [b"\xFF\0"; 2]);
    assert_eq!(stepped(&tags[5]).2, [&b"\xFF\0"[..], b"a\0\x05\xFF\xFF\xFF\xFF\xFF\xFF\xFF\xFF\xFF"]);
}

/// Of a short frame the counter is what is there of it.
#[test]
fn a_cut_counter_is_read_of_the_bytes_that_are_there() {
    let large = [&LONG_COUNTER[..], &LARGE_COUNTER].concat();
    for edition in [2, 4] {
        let whole = tag(edition, 0, &popularimeter(edition, &large));
        for missing in 1..=large.len() {
            let there = &large[..large.len() - missing];
            let cut = &whole[..whole.len() - missing];
            let want = there.iter().try_fold(0_u64, |n, byte| Some(n.checked_mul(256)? + u64::from(*byte)));
            match want {
                Some(counter) => {
                    let record = only(cut);
                    assert!(record.short);
                    let want = Content::Popularimeter { user: b"a".to_vec(), rating: 5, counter };
                    assert_eq!(record.content, want, "2.{edition}, {missing} bytes missing");
                }
                None => assert_eq!(number(cut), 35, "2.{edition}, {missing} bytes missing"),
            }
        }
    }
}

/// A chapter of no name and no times around a run of subframes, of an edition and of any length.
fn chapter_of(edition: u8, run: &[u8]) -> Vec<u8> {
    let mut chapter = chapter(0, run);
    if edition == 3 {
        let size = 17 + run.len() as u32;
        chapter[4..8].copy_from_slice(&size.to_be_bytes());
    }
    chapter
}

#[test]
fn counters_inside_chapters_are_read_and_refused() {
    for edition in [3, 4] {
        let mut run = popularimeter(edition, &LONG_COUNTER);
        let mut refused = [popularimeter(edition, &[7]), popularimeter(edition, &LARGE_COUNTER)].concat();
        for depth in 2..=8 {
            (run, refused) = (chapter_of(edition, &run), chapter_of(edition, &refused));
            assert_eq!(only(&tag(edition, 0, &run)).kind(), Kind::Chapter, "2.{edition}, depth {depth}");
            // a frame before the chapter is answered, and the chapter refused with the number of what it holds
            let tag = tag(edition, 0, &[frame(b"PRIV", 0, b"x"), refused.clone()].concat());
            assert_eq!(stepped(&tag).0, [0, sys::SV_COUNTER_TOO_LARGE], "2.{edition}, depth {depth}");
        }
    }
}

// ---- the walk

#[test]
fn a_body_that_the_end_cuts_is_short_or_refused() {
    let mut cut = tag(4, 0, &frame(b"POPM", 0, b"a\0\x05\x01\x02"));
    cut.truncate(cut.len() - 1);
    assert!(only(&cut).short);
    cut[3] = 3;
    assert_eq!(number(&cut), 5);
}

#[test]
fn flags_that_are_refused() {
    assert_eq!(number(&tag(3, 0, &frame(b"PRIV", 0x40, b"x"))), 8);
    assert_eq!(number(&tag(3, 0, &frame(b"PRIV", 0x20, b"x"))), 9);
    assert_eq!(number(&tag(3, 0, &frame(b"PRIV", 0x80, b"xyz"))), 5);
    assert_eq!(number(&tag(4, 0, &frame(b"PRIV", 0x04, b"x"))), 8);
    assert_eq!(number(&tag(4, 0, &frame(b"\xFFRIV", 0, b"x"))), 7);
}

#[test]
fn after_a_refusal_there_is_nothing_more() {
    let frames = [frame(b"PRIV", 0, b"x"), frame(b"TIT2", 0, b"\x04")].concat();
    let tag = tag(3, 0, &frames);
    let mut reader = Reader::open(&tag, Vec::new()).unwrap();
    assert_eq!(reader.refusal(), None);
    assert_eq!(reader.next_frame().unwrap().unwrap().id, Id::from(b"PRIV"));
    assert_eq!(reader.next_frame().unwrap().unwrap_err().number(), 12);
    assert!(reader.next_frame().is_none());
    assert_eq!(reader.refusal().unwrap().number(), 12);
    let items: Vec<_> = Reader::open(&tag, Vec::new()).unwrap().records().collect();
    assert_eq!(items.len(), 2);
    assert!(items[0].is_ok() && items[1].is_err());
}

#[test]
fn after_the_end_there_is_nothing_more() {
    let tag = tag(4, 0, &[0; 20]);
    let mut reader = Reader::open(&tag, Vec::new()).unwrap();
    assert_eq!(reader.version(), Version::Id3v24);
    assert!(reader.next_frame().is_none());
    assert!(reader.next_frame().is_none());
    assert_eq!(reader.refusal(), None);
}

#[test]
fn places_count_from_the_first_frame_byte() {
    let frames = [frame(b"PRIV", 0, b"x"), frame(b"PRIV", 0, b"yz")].concat();
    let tag = tag(3, 0, &frames);
    let mut reader = Reader::open(&tag, Vec::new()).unwrap();
    assert_eq!(reader.next_frame().unwrap().unwrap().at, 0);
    assert_eq!(reader.next_frame().unwrap().unwrap().at, 11);
}

// ---- work buffers

/// An unsynchronised 2.3 tag: its body holds FF 00 once resynchronised.
fn whole_tag() -> Vec<u8> {
    let frames = frame(b"PRIV", 0, b"\xFF\0");
    let stored = [&frames[..frames.len() - 1], &[0, 0]].concat();
    tag(3, 0x80, &stored)
}

#[test]
fn frames_borrow_from_the_tag_where_they_can() {
    let tag = tag(4, 0x80, &frame(b"PRIV", 0, b"\xFF\0"));
    let mut reader = Reader::open(&tag, &mut []).unwrap();
    let frame = reader.next_frame().unwrap().unwrap();
    assert_eq!(frame.body.as_ptr(), tag[20..].as_ptr());
}

#[test]
fn a_slice_that_is_too_small_is_refused() {
    let tag = whole_tag();
    let mut work = [0x55; 16];
    let open = Reader::open(&tag, &mut work[..11]).err().unwrap();
    assert_eq!(open.number(), sys::SV_WORK_TOO_SMALL);
    assert_eq!(work, [0x55; 16]);
    let mut reader = Reader::open(&tag, &mut work).unwrap();
    assert_eq!(reader.next_frame().unwrap().unwrap().body, b"\xFF\0");
    assert!(reader.next_frame().is_none());
    assert_eq!(work[12..], [0x55; 4]);
}

#[test]
fn a_vector_grows_where_room_is_needed() {
    let want = Record::new(b"PRIV", Content::Raw { body: b"\xFF\0".to_vec() });
    assert_eq!(read(&whole_tag()).unwrap(), [want]);
    let mut work = Vec::new();
    let tag = whole_tag();
    let reader = Reader::open(&tag, &mut work).unwrap();
    assert_eq!(reader.records().count(), 1);
    assert!(!work.is_empty() && work.len() <= 8 * tag.len());
}

#[test]
fn chapters_resynchronised_inside_one_another_need_more_than_the_tag() {
    let mut run = frame(b"PRIV", 2, b"\xFF\0\0");
    for _ in 0..7 {
        run = chapter(2, &run);
    }
    let tag = tag(4, 0, &run);
    assert_eq!(only(&tag).kind(), Kind::Chapter);
    let mut small = vec![0; tag.len()];
    let mut reader = Reader::open(&tag, &mut small[..]).unwrap();
    assert_eq!(reader.next_frame().unwrap().unwrap_err().number(), sys::SV_WORK_TOO_SMALL);
}

#[test]
fn frames_at_depth_9_are_refused() {
    let mut run = frame(b"PRIV", 0, b"");
    for _ in 0..7 {
        run = chapter(0, &run);
    }
    assert_eq!(only(&tag(4, 0, &run)).kind(), Kind::Chapter);
    assert_eq!(number(&tag(4, 0, &chapter(0, &run))), 13);
}
