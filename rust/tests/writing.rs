//! Writing through the safe interface, and reading back.

mod common;

use common::{id, Numbers, LARGE_COUNTER, LONG_COUNTER, MODES, VERSIONS};
use std::hash::{DefaultHasher, Hash, Hasher};
use streamvault::{
    read, references, sys, Content, Encoding, Frame, Mode, Reader, Record, Reference, Refusal, Table, Version, Writer,
};

/// Records of every kind that an edition has, with bytes that call for unsynchronising.
fn records(version: Version) -> Vec<Record> {
    let hard = b"\xFF\x00\xFF\xE0\xFF\xFF\x00\xFF".to_vec();
    let table = Table { frames: 0xFF00, bytes: 0xFF_FF00, millis: 0xFF_FFE0, bits_for_bytes: 4, bits_for_millis: 8 };
    let mut records = vec![
        Record::new(
            id(version, b"TT2", b"TIT2"),
            Content::Text { encoding: Encoding::Utf16, text: b"\xFF\xFEA\0".to_vec() },
        ),
        Record::new(
            id(version, b"POP", b"POPM"),
            Content::Popularimeter { user: b"a\xFF@b".to_vec(), rating: 255, counter: 65_280 },
        ),
        Record::new(id(version, b"MLL", b"MLLT"), Content::Table { table, packed: vec![0xFF, 0x00, 0xFF] }),
        Record::new(id(version, b"UFI", b"PRIV"), Content::Raw { body: hard }),
    ];
    if version != Version::Id3v22 {
        records.extend(nested(version));
    }
    records
}

/// A chapter and a table of contents, each with a subframe.
fn nested(version: Version) -> [Record; 2] {
    let mut inner = Writer::new(version);
    inner.add(b"TIT2", &Content::Text { encoding: Encoding::Latin1, text: b"inner" }).unwrap();
    let run = inner.frames().to_vec();
    let chapter = Content::Chapter {
        element: b"c1".to_vec(),
        start_time: u32::MAX,
        end_time: 0xFFE0,
        start_offset: 0,
        end_offset: 1,
        run: run.clone(),
    };
    let contents = Content::Contents {
        element: b"toc".to_vec(),
        top_level: true,
        ordered: false,
        children: b"c1\0c2\0".to_vec(),
        run,
    };
    [Record::new(b"CHAP", chapter), Record::new(b"CTOC", contents)]
}

fn written(version: Version, mode: Mode, records: &[Record], padding: usize) -> Vec<u8> {
    let mut writer = Writer::new(version).mode(mode);
    for record in records {
        let before = writer.used();
        let bytes = writer.add_record(record).unwrap();
        assert!(bytes > 0);
        assert_eq!(writer.used(), before + bytes);
    }
    writer.finish(padding).unwrap()
}

#[test]
fn what_is_written_is_read_back_in_every_edition_and_mode() {
    for version in VERSIONS {
        for mode in MODES {
            let records = records(version);
            let tag = written(version, mode, &records, 3);
            assert_eq!(read(&tag).unwrap(), records, "{version} {mode:?}");
        }
    }
}

#[test]
fn a_plain_writer_is_one_with_the_mode_off() {
    for version in VERSIONS {
        let mut plain = Writer::new(version);
        for record in &records(version) {
            plain.add_record(record).unwrap();
        }
        assert_eq!(plain.finish(3).unwrap(), written(version, Mode::Off, &records(version), 3), "{version}");
    }
}

/// A lookup table of these widths as a record.
fn table_record(version: Version, widths: (u8, u8), packed: &[u8]) -> Record {
    let table = Table { frames: 1, bytes: 2, millis: 3, bits_for_bytes: widths.0, bits_for_millis: widths.1 };
    Record::new(id(version, b"MLL", b"MLLT"), Content::Table { table, packed: packed.to_vec() })
}

fn hash_of(record: &Record) -> u64 {
    let mut hasher = DefaultHasher::new();
    record.hash(&mut hasher);
    hasher.finish()
}

#[test]
fn a_table_with_bits_left_over_is_read_back_equal() {
    let packed_and_stored = [(&b"\xA5\xC3\x01\xFF"[..], &b"\xA5\xC3\x01"[..]), (b"\xA5\xCF", b"\xA5\xC0")];
    for version in VERSIONS {
        for (packed, stored) in packed_and_stored {
            let given = [table_record(version, (4, 8), packed)];
            let back = read(&written(version, Mode::Standard, &given, 0)).unwrap();
            let Content::Table { packed: bytes, .. } = &back[0].content else { panic!("a table is read") };
            assert_eq!(bytes, stored);
            assert_eq!(back, given);
            assert_eq!(hash_of(&back[0]), hash_of(&given[0]));
        }
    }
}

#[test]
fn tables_are_equal_where_their_steps_widths_and_deviations_are() {
    let record = |widths, packed: &[u8]| table_record(Version::Id3v24, widths, packed);
    let one = record((4, 8), &[0xA5, 0xCF]);
    assert_eq!(one, record((4, 8), &[0xA5, 0xC0]));
    for other in [
        record((4, 8), &[0xA5, 0xD0]),
        record((4, 8), &[0xA5, 0xC3, 0x01]),
        record((4, 8), &[0xA5]),
        record((8, 4), &[0xA5, 0xCF]),
        Record { short: true, ..one.clone() },
        Record::new(b"PRIV", one.content.clone()),
        Record::new(b"MLLT", Content::Raw { body: vec![0xA5, 0xCF] }),
    ] {
        assert_ne!(one, other);
    }
    // widths that cannot be unpacked: all bytes count
    assert_eq!(record((0, 0), &[1]), record((0, 0), &[1]));
    for widths in [(0, 0), (0, 12), (33, 3), (255, 255)] {
        assert_ne!(record(widths, &[1]), record(widths, &[2]));
        assert_ne!(record(widths, &[1]), record(widths, &[1, 0]));
    }
}

#[test]
fn equal_tables_are_those_with_equal_references() {
    let mut numbers = Numbers(47);
    let (mut equal, mut unequal) = (0, 0);
    for _ in 0..20_000 {
        let widths = (1 + numbers.below(32) as u8, 1 + numbers.below(32) as u8);
        let narrow = (1 + numbers.below(4) as u8, 1 + numbers.below(4) as u8);
        let widths = *numbers.one(&[widths, narrow]);
        let len = numbers.below(12);
        let one = numbers.bytes(len);
        let mut other = one.clone();
        match numbers.below(3) {
            0 => other.truncate(numbers.below(len + 1)),
            1 => other.extend(numbers.bytes(1)),
            _ => {
                if let Some(last) = other.last_mut() {
                    *last ^= 1 << numbers.below(8);
                }
            }
        }
        let [one, other] = [one, other].map(|packed| table_record(Version::Id3v24, widths, &packed));
        let [a, b] = [&one, &other].map(|record| match &record.content {
            Content::Table { table, packed } => references(table, packed).unwrap(),
            _ => panic!("a table was made"),
        });
        assert_eq!(one == other, a == b, "{one:?} {other:?}");
        assert!(one != other || hash_of(&one) == hash_of(&other), "{one:?} {other:?}");
        *(if a == b { &mut equal } else { &mut unequal }) += 1;
    }
    assert!(equal > 3_000 && unequal > 3_000, "{equal} {unequal}");
}

#[test]
fn a_work_buffer_as_long_as_the_tag_suffices() {
    for version in VERSIONS {
        for mode in MODES {
            let tag = written(version, mode, &records(version), 0);
            let mut work = vec![0; tag.len()];
            let reader = Reader::open(&tag, &mut work[..]).unwrap();
            assert!(reader.records().all(|record| record.is_ok()), "{version} {mode:?}");
        }
    }
}

#[test]
fn standard_mode_leaves_no_false_synchronisation() {
    for version in VERSIONS {
        let tag = written(version, Mode::Standard, &records(version), 1);
        assert!(tag.windows(2).all(|pair| pair[0] != 0xFF || pair[1] < 0xE0), "{version}");
    }
}

#[test]
fn frames_are_copied_from_tag_to_tag() {
    for version in VERSIONS {
        let tag = written(version, Mode::Standard, &records(version), 0);
        let mut reader = Reader::open(&tag, Vec::new()).unwrap();
        let mut writer = Writer::new(version);
        while let Some(frame) = reader.next_frame() {
            writer.add_frame(&frame.unwrap()).unwrap();
        }
        assert_eq!(read(&writer.finish(0).unwrap()).unwrap(), records(version));
    }
}

// ---- bytes

#[test]
fn unsynchronising_by_mode() {
    let stored = |mode, body: &[u8]| {
        let mut writer = Writer::new(Version::Id3v24).mode(mode);
        writer.add(b"PRIV", &Content::Raw { body }).unwrap();
        writer.finish(0).unwrap()[20..].to_vec()
    };
    for (body, by_crate, standard) in [
        (&[0xFF, 0x00][..], &[0xFF, 0x00, 0x00][..], &[0xFF, 0x00, 0x00][..]),
        (&[0xFF, 0xE0], &[0xFF, 0xE0], &[0xFF, 0x00, 0xE0]),
        (&[0xFF, 0xFF], &[0xFF, 0xFF], &[0xFF, 0x00, 0xFF]),
        (&[0xFF, 0xDF], &[0xFF, 0xDF], &[0xFF, 0xDF]),
        (&[0xFF], &[0xFF], &[0xFF]),
        (&[], &[], &[]),
    ] {
        assert_eq!(stored(Mode::Off, body), body);
        assert_eq!(stored(Mode::Crate, body), by_crate);
        assert_eq!(stored(Mode::Standard, body), standard);
    }
}

#[test]
fn headers_padding_and_flags() {
    let body = Content::Raw { body: b"x" };
    let mut writer = Writer::new(Version::Id3v22);
    assert_eq!(writer.add(b"UFI", &body), Ok(7));
    assert_eq!(writer.finish(2).unwrap(), b"ID3\x02\0\0\0\0\0\x09UFI\0\0\x01x\0\0");
    let mut writer = Writer::new(Version::Id3v24).mode(Mode::Crate);
    assert_eq!(writer.add(b"PRIV", &body), Ok(11));
    assert_eq!(writer.finish(0).unwrap(), b"ID3\x04\0\x80\0\0\0\x0BPRIV\0\0\0\x01\0\x02x");
    let mut output = [7; 30];
    assert_eq!(writer.finish_in(0, &mut output), Ok(21));
    assert_eq!(output[21..], [7; 9]);
}

/// Sizes at the edges of the four digits to the base 128, with the bytes that they are written in.
const SIZES: [(usize, [u8; 4]); 9] = [
    (0, [0, 0, 0, 0]),
    (127, [0, 0, 0, 0x7F]),
    (128, [0, 0, 1, 0]),
    (255, [0, 0, 1, 0x7F]),
    (16_383, [0, 0, 0x7F, 0x7F]),
    (16_384, [0, 1, 0, 0]),
    (2_097_151, [0, 0x7F, 0x7F, 0x7F]),
    (2_097_152, [1, 0, 0, 0]),
    (2_130_308, [1, 2, 3, 4]),
];

#[test]
fn the_size_of_a_tag_is_synchsafe() {
    for version in VERSIONS {
        for (size, bytes) in SIZES {
            let tag = Writer::new(version).finish(size).unwrap();
            assert_eq!((&tag[6..10], tag.len()), (&bytes[..], 10 + size), "{version:?}");
        }
    }
    let largest = Writer::new(Version::Id3v24).finish((1 << 28) - 1).unwrap();
    assert_eq!((&largest[6..10], largest.len()), (&[0x7F; 4][..], 9 + (1 << 28)));
}

#[test]
fn the_size_of_a_2_4_frame_is_synchsafe() {
    for (size, bytes) in SIZES {
        let mut writer = Writer::new(Version::Id3v24);
        assert_eq!(writer.add(b"PRIV", &Content::Raw { body: &vec![1; size] }), Ok(10 + size));
        assert_eq!(writer.frames()[4..8], bytes, "{size}");
    }
}

#[test]
fn a_counter_has_as_many_bytes_as_it_needs() {
    for (counter, bytes) in [(0, 0), (1, 1), (255, 1), (65_280, 2), (1 << 32, 5), (u64::MAX, 8)] {
        let mut writer = Writer::new(Version::Id3v24);
        let content = Content::Popularimeter { user: b"", rating: 0, counter };
        assert_eq!(writer.add(b"POPM", &content), Ok(12 + bytes), "{counter}");
    }
}

/// A frame of 2.3 or 2.4 that is laid out here, of a body below 128 bytes.
fn frame(id: &[u8; 4], body: &[u8]) -> Vec<u8> {
    [id, &[0, 0, 0, body.len() as u8, 0, 0][..], body].concat()
}

/// A popularimeter with these counter bytes.
fn with_counter(counter: &[u8]) -> Vec<u8> {
    frame(b"POPM", &[&b"a\0\x05"[..], counter].concat())
}

/// Runs of subframes with a popularimeter that has these counter bytes: alone, behind another, inside a chapter.
fn runs(counter: &[u8]) -> [Vec<u8>; 3] {
    let run = with_counter(counter);
    let inner = frame(b"CHAP", &[&[0; 17], &run[..]].concat());
    [run.clone(), [with_counter(&[7]), run].concat(), inner]
}

#[test]
fn a_long_counter_that_was_read_is_written_without_its_zeros() {
    for version in [Version::Id3v23, Version::Id3v24] {
        let head = [b'I', b'D', b'3', version.edition(), 0, 0, 0, 0, 0];
        let tag = |frame: &[u8]| [&head[..], &[frame.len() as u8], frame].concat();
        let (long, short) = (tag(&with_counter(&LONG_COUNTER)), tag(&with_counter(&[0xFF, 0])));
        assert_eq!(written(version, Mode::Off, &read(&long).unwrap(), 0), short, "{version}");
        let mut reader = Reader::open(&long, Vec::new()).unwrap();
        let mut writer = Writer::new(version).mode(Mode::Off);
        writer.add_frame(&reader.next_frame().unwrap().unwrap()).unwrap();
        assert_eq!(writer.finish(0).unwrap(), short, "{version}");
    }
}

#[test]
fn a_run_with_a_long_counter_is_written_as_it_is_given() {
    for run in [&LONG_COUNTER[..], &[0; 9], &[0; 40], &[0, 0xFF, 0, 0, 0, 0, 0, 0, 0]].into_iter().flat_map(runs) {
        for version in [Version::Id3v23, Version::Id3v24] {
            for mode in MODES {
                let given = [Record::new(b"CHAP", chapter(&run).map(<[u8]>::to_vec))];
                assert_eq!(read(&written(version, mode, &given, 0)).unwrap(), given, "{version} {mode:?}");
            }
        }
    }
}

#[test]
fn a_table_is_packed() {
    let table = Table { bits_for_bytes: 4, bits_for_millis: 8, ..Table::default() };
    let pairs = [Reference { bytes: 0xA, millis: 0x5C }, Reference { bytes: 3, millis: 1 }];
    let mut writer = Writer::new(Version::Id3v23);
    writer.add_table(b"MLLT", &table, &pairs).unwrap();
    let want = Content::Table { table, packed: vec![0xA5, 0xC3, 0x01] };
    assert_eq!(read(&writer.finish(0).unwrap()).unwrap()[0].content, want);
}

// ---- refusals

/// The number that a frame is refused with, and that the writer is then as before.
fn refused(version: Version, id: &[u8; 4], content: &Content<&[u8]>) -> u32 {
    let mut writer = Writer::new(version);
    writer.add(b"PRIV", &Content::Raw { body: b"x" }).unwrap();
    let before = writer.finish(0).unwrap();
    let number = writer.add(id, content).unwrap_err().number();
    assert_eq!(writer.finish(0).unwrap(), before);
    number
}

fn text(text: &[u8]) -> Content<&[u8]> {
    Content::Text { encoding: Encoding::Latin1, text }
}

fn popularimeter(user: &[u8]) -> Content<&[u8]> {
    Content::Popularimeter { user, rating: 0, counter: 0 }
}

fn chapter(run: &[u8]) -> Content<&[u8]> {
    Content::Chapter { element: b"", start_time: 0, end_time: 0, start_offset: 0, end_offset: 0, run }
}

fn contents(children: &[u8]) -> Content<&[u8]> {
    Content::Contents { element: b"", top_level: false, ordered: false, children, run: b"" }
}

#[test]
fn records_are_refused_by_the_table() {
    let v3 = Version::Id3v23;
    assert_eq!(refused(v3, b"tIT2", &text(b"")), sys::SV_WRONG_ID);
    assert_eq!(refused(v3, b"PRIV", &text(b"")), sys::SV_WRONG_ID);
    assert_eq!(refused(v3, b"TIT2", &Content::Raw { body: b"" }), sys::SV_NOT_WRITABLE);
    assert_eq!(refused(v3, b"TIT2", &text(b"a\0")), sys::SV_TEXT_ENDS_EARLY);
    assert_eq!(refused(v3, b"POPM", &popularimeter(b"a\0b")), sys::SV_ZERO_IN_NAME);
    assert_eq!(refused(v3, b"CTOC", &contents(b"c1")), sys::SV_WRONG_CHILDREN);
    assert_eq!(refused(v3, b"CTOC", &contents(&[0; 256])), sys::SV_WRONG_CHILDREN);
    assert_eq!(refused(v3, b"CHAP", &chapter(b"\0")), sys::SV_WRONG_RUN);
}

#[test]
fn a_run_with_a_counter_that_is_too_large_is_refused() {
    let zeros_in_front = [&[0; 12], &[0xFF; 9][..]].concat();
    for run in [&LARGE_COUNTER[..], &[0xFF; 9], &zeros_in_front].into_iter().flat_map(runs) {
        let contents =
            Content::Contents { element: &b""[..], top_level: false, ordered: false, children: b"", run: &run };
        for version in [Version::Id3v23, Version::Id3v24] {
            for (id, content) in [(b"CHAP", chapter(&run)), (b"CTOC", contents)] {
                assert_eq!(refused(version, id, &content), sys::SV_WRONG_RUN, "{version} {run:02X?}");
                let record = Record::new(id, content.map(<[u8]>::to_vec));
                assert_eq!(refused_each_way(version, &record), sys::SV_WRONG_RUN, "{version} {run:02X?}");
            }
        }
    }
}

#[test]
fn tables_are_refused_by_the_table() {
    let refused = |table: Table, pairs: &[Reference]| {
        let mut writer = Writer::new(Version::Id3v24);
        writer.add_table(b"MLLT", &table, pairs).unwrap_err().number()
    };
    let widths = |a, b| Table { bits_for_bytes: a, bits_for_millis: b, ..Table::default() };
    assert_eq!(refused(widths(0, 4), &[]), sys::SV_WRONG_WIDTH);
    assert_eq!(refused(widths(33, 3), &[]), sys::SV_WRONG_WIDTH);
    assert_eq!(refused(widths(4, 5), &[]), sys::SV_WIDTHS_NOT_IN_FOURS);
    assert_eq!(refused(widths(4, 4), &[Reference { bytes: 16, millis: 0 }]), sys::SV_WRONG_DEVIATION);
    assert_eq!(refused(Table { bytes: 1 << 24, ..widths(4, 4) }, &[]), sys::SV_WRONG_DEVIATION);
    assert_eq!(refused(widths(2, 2), &[Reference { bytes: 3, millis: 1 }]), sys::SV_ODD_REFERENCES);
}

/// The number that a record is refused with by every way to add it, to a writer of each mode, altered or not.
fn refused_each_way(version: Version, record: &Record) -> u32 {
    let content = record.content.borrowed();
    let Record { id, short, compressed, .. } = *record;
    let frame = Frame { id, at: 0, short, compressed, body: b"", content };
    let mut answers = Vec::new();
    for mut writer in
        MODES.into_iter().flat_map(|mode| [false, true].map(|altered| Writer::new(version).mode(mode).altered(altered)))
    {
        answers.push(writer.add_record(record));
        answers.push(writer.add_frame(&frame));
        if !short && !compressed {
            answers.push(writer.add(id, &content));
        }
        assert_eq!(writer.used(), 0);
    }
    let number = answers[0].unwrap_err().number();
    assert!(answers.iter().all(|answer| answer.unwrap_err().number() == number), "{record:?} {answers:?}");
    number
}

/// The number that a fault is refused with, and what takes the fault away.
type Fault<'a> = (u32, &'a dyn Fn(&mut Record));

/// Takes the faults of a record away one by one: it is refused with these numbers in their order.
fn refused_in_order(version: Version, mut record: Record, faults: &[Fault<'_>]) {
    for (number, mend) in faults {
        assert_eq!(refused_each_way(version, &record), *number, "{record:?}");
        mend(&mut record);
    }
    assert!(Writer::new(version).add_record(&record).is_ok(), "{record:?}");
}

/// A record with both marks set, under an id that no edition has.
fn marked(content: Content<&[u8]>) -> Record {
    let content = content.map(<[u8]>::to_vec);
    Record { id: b"abcd".into(), short: true, compressed: true, content }
}

fn whole(record: &mut Record) {
    (record.short, record.compressed) = (false, false);
}

fn set_table(record: &mut Record, set: impl Fn(&mut Table)) {
    let Content::Table { table, .. } = &mut record.content else { panic!("the record is a table") };
    set(table);
}

#[test]
fn the_first_fault_of_a_table_is_the_librarys_to_say() {
    // the two that were once answered by the unpacking
    let table = Content::Table { table: Table::default(), packed: &[][..] };
    assert_eq!(refused(Version::Id3v24, b"abcd", &table), sys::SV_WRONG_ID);
    let mut record = Record::new(b"MLLT", table.map(<[u8]>::to_vec));
    record.short = true;
    assert_eq!(refused_each_way(Version::Id3v24, &record), sys::SV_NOT_WRITABLE);

    for version in VERSIONS {
        for packed in [&[][..], &[1, 2, 3, 4, 5]] {
            let table = Table { frames: 0, bytes: 1 << 24, millis: 0, bits_for_bytes: 0, bits_for_millis: 3 };
            refused_in_order(
                version,
                marked(Content::Table { table, packed }),
                &[
                    (sys::SV_WRONG_ID, &|record| record.id = id(version, b"MLL", b"MLLT")),
                    (sys::SV_NOT_WRITABLE, &|record| record.compressed = false),
                    (sys::SV_NOT_WRITABLE, &whole),
                    (sys::SV_WRONG_WIDTH, &|record| set_table(record, |table| table.bits_for_bytes = 33)),
                    (sys::SV_WRONG_WIDTH, &|record| set_table(record, |table| table.bits_for_bytes = 32)),
                    (sys::SV_WIDTHS_NOT_IN_FOURS, &|record| set_table(record, |table| table.bits_for_millis = 4)),
                    (sys::SV_WRONG_DEVIATION, &|record| set_table(record, |table| table.bytes -= 1)),
                ],
            );
        }
    }
}

#[test]
fn odd_references_come_after_a_wrong_deviation() {
    let refused = |bytes, pairs: &[Reference]| {
        let table = Table { bytes, bits_for_bytes: 2, bits_for_millis: 2, ..Table::default() };
        Writer::new(Version::Id3v24).add_table(b"MLLT", &table, pairs).unwrap_err().number()
    };
    let (good, wide) = (Reference { bytes: 3, millis: 1 }, Reference { bytes: 3, millis: 4 });
    assert_eq!(refused(1 << 24, &[good]), sys::SV_WRONG_DEVIATION);
    assert_eq!(refused(0, &[wide]), sys::SV_WRONG_DEVIATION);
    assert_eq!(refused(0, &[good]), sys::SV_ODD_REFERENCES);
}

#[test]
fn the_first_fault_of_other_records_is_the_librarys_to_say() {
    for version in VERSIONS {
        let name = |three, four| move |record: &mut Record| record.id = id(version, three, four);
        refused_in_order(
            version,
            marked(text(b"ab\0")),
            &[
                (sys::SV_WRONG_ID, &name(b"UFI", b"PRIV")),
                (sys::SV_WRONG_ID, &name(b"TT2", b"TIT2")),
                (sys::SV_NOT_WRITABLE, &whole),
                (sys::SV_TEXT_ENDS_EARLY, &|record| record.content = text(b"a").map(<[u8]>::to_vec)),
            ],
        );
        refused_in_order(
            version,
            marked(popularimeter(b"a\0")),
            &[
                (sys::SV_WRONG_ID, &name(b"POP", b"POPM")),
                (sys::SV_NOT_WRITABLE, &whole),
                (sys::SV_ZERO_IN_NAME, &|record| record.content = popularimeter(b"a").map(<[u8]>::to_vec)),
            ],
        );
    }
    let empty = marked(Content::Raw { body: b"" });
    refused_in_order(
        Version::Id3v22,
        empty,
        &[
            (sys::SV_WRONG_ID, &|record| record.id = b"TT2".into()),
            (sys::SV_NOT_WRITABLE, &whole),
            (sys::SV_NOT_WRITABLE, &|record| record.id = b"UFI".into()),
            (sys::SV_EMPTY_BODY, &|record| record.content = Content::Raw { body: vec![1] }),
        ],
    );
}

#[test]
fn the_first_fault_of_a_chapter_is_the_librarys_to_say() {
    let with = |element: &'static [u8], children: &'static [u8], run: &'static [u8]| {
        let content = Content::Contents { element, top_level: false, ordered: false, children, run };
        move |record: &mut Record| record.content = content.map(<[u8]>::to_vec)
    };
    for version in [Version::Id3v23, Version::Id3v24] {
        let mut record = marked(contents(b""));
        with(b"\0", b"c", b"\0")(&mut record);
        refused_in_order(
            version,
            record,
            &[
                (sys::SV_WRONG_ID, &|record| record.id = b"CTOC".into()),
                (sys::SV_NOT_WRITABLE, &whole),
                (sys::SV_ZERO_IN_NAME, &with(b"", b"c", b"\0")),
                (sys::SV_WRONG_CHILDREN, &with(b"", b"c\0", b"\0")),
                (sys::SV_WRONG_RUN, &with(b"", b"c\0", b"")),
            ],
        );
    }
}

#[test]
fn what_was_short_or_compressed_is_not_written() {
    let mut record = Record::new(b"PRIV", Content::Raw { body: b"x".to_vec() });
    record.short = true;
    let mut writer = Writer::new(Version::Id3v23);
    assert_eq!(writer.add_record(&record).unwrap_err().number(), sys::SV_NOT_WRITABLE);
}

#[test]
fn bodies_of_2_2_are_neither_empty_nor_too_long() {
    let mut writer = Writer::new(Version::Id3v22);
    let empty = writer.add(b"UFI", &Content::Raw { body: b"" }).unwrap_err();
    assert_eq!(empty.number(), sys::SV_EMPTY_BODY);
    let long = vec![1; 1 << 24];
    let refusal = writer.add(b"UFI", &Content::Raw { body: &long }).unwrap_err();
    assert_eq!(refusal.number(), sys::SV_LONG_BODY);
    assert_eq!(writer.used(), 0);
}

#[test]
fn padding_that_is_too_long_is_refused_without_room_for_it() {
    let writer = Writer::new(Version::Id3v24);
    for padding in [1 << 28, usize::MAX] {
        assert_eq!(writer.finish(padding).unwrap_err().number(), sys::SV_TOO_LONG);
    }
    assert_eq!(writer.finish(0).unwrap(), b"ID3\x04\0\0\0\0\0\0");
}

#[test]
fn an_output_that_is_too_short_is_refused_and_left_alone() {
    let writer = Writer::new(Version::Id3v24);
    let mut output = [7; 9];
    assert_eq!(writer.finish_in(0, &mut output).unwrap_err().number(), sys::SV_NO_ROOM);
    assert_eq!(output, [7; 9]);
}

#[test]
fn an_altered_file_loses_frames() {
    let mut writer = Writer::new(Version::Id3v24).altered(true);
    let text = Content::Text { encoding: Encoding::Latin1, text: b"7" };
    assert_eq!(writer.add(b"TLEN", &text), Ok(0));
    assert_eq!(writer.add(b"TIT2", &text), Ok(12));
    let early = Content::Text { encoding: Encoding::Latin1, text: b"77\0" };
    assert_eq!(writer.add(b"TLEN", &early).unwrap_err().number(), sys::SV_TEXT_ENDS_EARLY);
    assert_eq!(read(&writer.finish(0).unwrap()).unwrap().len(), 1);
}

// ---- how a writer is begun

/// Which of FF 00, FF E0 are unsynchronised, and whether TLEN is left out.
fn begun_as(mut writer: Writer) -> (bool, bool, bool) {
    let version = writer.version();
    let text = Content::Text { encoding: Encoding::Latin1, text: b"7" };
    let left_out = writer.add(id(version, b"TLE", b"TLEN"), &text).unwrap() == 0;
    writer.add(id(version, b"UFI", b"PRIV"), &Content::Raw { body: b"\xFF\x00\xFF\xE0" }).unwrap();
    let tag = writer.finish(0).unwrap();
    let has = |bytes: &[u8]| tag.windows(bytes.len()).any(|part| part == bytes);
    (has(b"\xFF\x00\x00"), has(b"\xFF\x00\xE0"), left_out)
}

#[test]
fn a_new_writer_has_mode_off_and_is_not_altered() {
    for version in VERSIONS {
        assert_eq!(begun_as(Writer::new(version)), (false, false, false), "{version}");
    }
}

#[test]
fn mode_and_mark_are_set_in_any_order_and_the_last_counts() {
    for version in VERSIONS {
        let new = || Writer::new(version);
        assert_eq!(begun_as(new().mode(Mode::Crate)), (true, false, false), "{version}");
        assert_eq!(begun_as(new().altered(true)), (false, false, true), "{version}");
        assert_eq!(begun_as(new().mode(Mode::Standard).altered(true)), (true, true, true), "{version}");
        assert_eq!(begun_as(new().altered(true).mode(Mode::Standard)), (true, true, true), "{version}");
        let last = new().altered(true).mode(Mode::Standard).altered(false).mode(Mode::Off);
        assert_eq!(begun_as(last), (false, false, false), "{version}");
    }
}

/// Writers of 2.4 that were told another mode or mark after a frame was added, or left out.
fn told_too_late() -> Vec<Writer> {
    let text = Content::Text { encoding: Encoding::Latin1, text: b"7" };
    let mut one = Writer::new(Version::Id3v24);
    one.add(b"TIT2", &text).unwrap();
    let mut none = Writer::new(Version::Id3v24).altered(true);
    assert_eq!(none.add(b"TLEN", &text), Ok(0));
    let late = |writer: Writer| {
        let (one, two) = (writer.clone(), writer.clone());
        [writer.mode(Mode::Standard), one.mode(Mode::Off), two.altered(false)]
    };
    late(one).into_iter().chain(late(none)).collect()
}

#[test]
fn after_the_first_frame_mode_and_mark_stay() {
    for mut writer in told_too_late() {
        let used = writer.used();
        assert_eq!(writer.add(b"PRIV", &Content::Raw { body: b"x" }), Err(Refusal::UNKNOWN_VERSION));
        assert_eq!(writer.finish(0), Err(Refusal::UNKNOWN_VERSION));
        assert_eq!((writer.version(), writer.used()), (Version::Id3v24, used));
        let again = writer.altered(true).mode(Mode::Off);
        assert_eq!(again.finish(0), Err(Refusal::UNKNOWN_VERSION));
    }
}

#[test]
fn a_frame_that_was_refused_does_not_count() {
    let mut writer = Writer::new(Version::Id3v24);
    assert_eq!(writer.add(b"abcd", &Content::Raw { body: b"" }), Err(Refusal::WRONG_ID));
    assert_eq!(begun_as(writer.mode(Mode::Standard).altered(true)), (true, true, true));
}

#[test]
fn the_frames_of_a_writer_are_what_it_collected() {
    let mut writer = Writer::new(Version::Id3v23).mode(Mode::Standard);
    assert!(writer.frames().is_empty());
    writer.add(b"PRIV", &Content::Raw { body: b"\xFF\xE0" }).unwrap();
    assert_eq!(writer.frames(), b"PRIV\0\0\0\x02\0\0\xFF\xE0");
    let mut off = Writer::new(Version::Id3v23);
    off.add(b"PRIV", &Content::Raw { body: b"\xFF\xE0" }).unwrap();
    assert_eq!(off.frames(), &off.finish(0).unwrap()[10..]);
}

#[test]
fn large_bodies_grow_the_buffers() {
    let body = [0xFF, 0xE0].repeat(100_000);
    for version in [Version::Id3v23, Version::Id3v24] {
        let mut writer = Writer::new(version).mode(Mode::Standard);
        for _ in 0..3 {
            writer.add(b"PRIV", &Content::Raw { body: &body }).unwrap();
        }
        let records = read(&writer.finish(1).unwrap()).unwrap();
        assert_eq!(records.len(), 3);
        assert!(records.iter().all(|record| record.content == Content::Raw { body: body.clone() }));
    }
}
