//! One frame replaced, removed or added in place: every refusal with its nearest neighbour that passes, every kind at every
//! place, what moves, what stays, and a thousand edits one after another beside a model of lists.

mod common;

use common::layout::{chapter, counted, edited, frame, head, raw, tag, Edit, EDITIONS};
use common::plain::plain_tag;
use common::{Numbers, LARGE_COUNTER, VERSIONS};
use streamvault::calls::{self, Given};
use streamvault::sys::*;
use streamvault::{header, read, Content, Encoding, Id, Record, Refusal, Table, Version, Writer};

// ---- records

fn version(edition: u8) -> Version {
    VERSIONS[usize::from(edition) - 2]
}

/// An id by its name in 2.3 and 2.4, and in 2.2.
fn id(version: Version, long: &[u8; 4], short: &[u8; 3]) -> Id {
    if version == Version::Id3v22 {
        short.into()
    } else {
        long.into()
    }
}

fn priv_id(version: Version) -> Id {
    id(version, b"PRIV", b"UFI")
}

/// An edit that nothing but the tag and the number speaks against.
fn edits(edition: u8, number: u64) -> [Edit; 3] {
    // a version that is none is refused before the record
    let id = priv_id(version(edition.clamp(2, 4)));
    [Edit::Replace(number, id, raw(1)), Edit::Remove(number), Edit::Append(id, raw(1))]
}

/// The frames that a list of records is written as, in mode off.
fn frames(version: Version, records: &[Record]) -> Vec<u8> {
    let mut writer = Writer::new(version);
    for record in records {
        writer.add_record(record).unwrap();
    }
    writer.frames().to_vec()
}

/// The tag of a list, with so many bytes after its header.
fn written(version: Version, records: &[Record], size: usize) -> Vec<u8> {
    let mut writer = Writer::new(version);
    for record in records {
        writer.add_record(record).unwrap();
    }
    writer.finish(size - writer.used()).unwrap()
}

fn text(version: Version, len: usize) -> Record {
    let content = Content::Text { encoding: Encoding::Latin1, text: vec![b't'; len] };
    Record::new(id(version, b"TIT2", b"TT2"), content)
}

fn popularimeter(version: Version, user: &str, counter: u64) -> Record {
    let content = Content::Popularimeter { user: user.as_bytes().to_vec(), rating: 7, counter };
    Record::new(id(version, b"POPM", b"POP"), content)
}

/// A lookup table of so many references, of one byte each.
fn table(version: Version, references: usize) -> Record {
    let table = Table { frames: 1, bytes: 2, millis: 3, bits_for_bytes: 4, bits_for_millis: 4 };
    Record::new(id(version, b"MLLT", b"MLL"), Content::Table { table, packed: vec![0xA5; references] })
}

fn chapter_of(run: Vec<u8>) -> Record {
    let element = b"c1".to_vec();
    let content = Content::Chapter { element, start_time: 1, end_time: 2, start_offset: 3, end_offset: 4, run };
    Record::new(b"CHAP", content)
}

fn contents_of(run: Vec<u8>) -> Record {
    let (element, children) = (b"toc".to_vec(), b"c1\0".to_vec());
    Record::new(b"CTOC", Content::Contents { element, top_level: true, ordered: false, children, run })
}

fn private(version: Version, len: usize) -> Record {
    Record::new(priv_id(version), raw(len))
}

/// A record of each kind that the edition has, with so many bytes more than the least.
fn of_each_kind(version: Version, more: usize) -> Vec<Record> {
    let run = |len| frames(version, &[private(version, len)]);
    let user = "u".repeat(more);
    let mut records =
        vec![text(version, more), popularimeter(version, &user, 300), table(version, more), private(version, 1 + more)];
    if version != Version::Id3v22 {
        records.extend([chapter_of(run(more)), contents_of(run(more))]);
    }
    records
}

/// As an edit that puts the record.
fn replacing(number: usize, record: &Record) -> Edit {
    Edit::Replace(number as u64, record.id, record.content.clone())
}

fn appending(record: &Record) -> Edit {
    Edit::Append(record.id, record.content.clone())
}

// ---- refusals of reading, and 40

/// Tags that are refused, each with the nearest that is plain, if there is one nearby.
fn refused(edition: u8) -> Vec<(u32, Vec<u8>, Option<Vec<u8>>)> {
    let (mine, zeros) = (counted(edition, b"a", &[1]), [0; 12]);
    let with = |frame: &[u8]| tag(edition, 0, &[&mine[..], frame, &zeros].concat());
    let body = |id: &[u8], bytes: &[u8]| with(&frame(edition, id, 0, bytes));
    let (table, lookup) =
        (|bits: [u8; 2]| [&[0; 8], &bits[..]].concat(), if edition == 2 { b"MLL\0" } else { b"MLLT" });
    let whole = with(b"");
    vec![
        (1, whole[..9].to_vec(), None),
        (1, [b"X", &whole[1..]].concat(), Some(whole.clone())),
        (3, tag(edition, 1, &mine), Some(tag(edition, 0x30, &mine))),
        (40, tag(edition, 0x80, &mine), Some(tag(edition, 0x20, &mine))),
        (40, whole[..whole.len() - 1].to_vec(), Some(whole.clone())),
        (40, [&whole[..whole.len() - 1], b"A"].concat(), Some(whole.clone())),
        (7, with(&head(edition, b"A\xFFAA", 0, 0)), Some(with(&head(edition, b"AAAA", 0, 0)))),
        (11, body(b"TIT2", b""), Some(body(b"TIT2", b"\0"))),
        (12, body(b"TIT2", b"\x04"), Some(body(b"TIT2", b"\x03"))),
        (11, body(b"POPM", b"b\0"), Some(body(b"POPM", b"b\0\0"))),
        (35, body(b"POPM", &[b"b\0\0", &LARGE_COUNTER[..]].concat()), Some(body(b"POPM", b"b\0\0\0\xFF\xFF"))),
        (30, body(lookup, &table([33, 3])), Some(body(lookup, &table([32, 4])))),
        (31, body(lookup, &table([1, 2])), Some(body(lookup, &table([1, 3])))),
    ]
}

/// Those that only 2.3 and 2.4 have.
fn refused_later(edition: u8) -> Vec<(u32, Vec<u8>, Option<Vec<u8>>)> {
    let (mine, zeros) = (counted(edition, b"a", &[1]), [0; 12]);
    let with = |frame: &[u8]| tag(edition, 0, &[&mine[..], frame, &zeros].concat());
    let flagged = |flags| frame(edition, b"AAAA", flags, &[0; 4]);
    let (encrypted, grouped, compressed) = if edition == 3 { (0x40, 0x20, 0x80) } else { (0x04, 0x40, 0x08) };
    let plain = Some(with(&flagged(0)));
    vec![
        (8, with(&flagged(encrypted)), plain.clone()),
        (9, with(&flagged(grouped)), plain.clone()),
        (40, with(&flagged(compressed)), plain.clone()),
        (40, with(&chapter(edition, &flagged(compressed))), Some(with(&chapter(edition, &flagged(0))))),
        (6, tag(edition, 0x40, b"\0\0\0\x05\0\0"), None),
        (40, tag(edition, 0x40, &[b"\0\0\0\x06\0\0", &mine[..]].concat()), Some(tag(edition, 0, &mine))),
        (11, with(&frame(edition, b"CHAP", 0, &[0; 16])), Some(with(&frame(edition, b"CHAP", 0, &[0; 17])))),
    ]
}

#[test]
fn what_reading_refuses_and_what_is_not_plain_comes_first() {
    for edition in EDITIONS {
        let later = if edition == 2 { Vec::new() } else { refused_later(edition) };
        for (number, smallest, nearest) in refused(edition).into_iter().chain(later) {
            for edit in edits(edition, 0).iter().chain(&edits(edition, 1 << 40)) {
                assert_eq!(edited(&smallest, edit), Err(number), "2.{edition} {edit:?} {smallest:02X?}");
            }
            let Some(nearest) = nearest else { continue };
            assert!(edited(&nearest, &Edit::Remove(0)).is_ok(), "2.{edition} {nearest:02X?}");
            for edit in &edits(edition, 99)[..2] {
                assert_eq!(edited(&nearest, edit), Err(46), "2.{edition} {nearest:02X?}");
            }
        }
    }
    for edition in [1, 5] {
        for edit in edits(edition, 0) {
            assert_eq!(edited(&tag(edition, 0, b""), &edit), Err(2));
        }
    }
    assert_eq!(edited(&tag(2, 0x40, &counted(2, b"a", &[1])), &Edit::Remove(0)), Err(4));
}

#[test]
fn what_would_be_resynchronised_is_not_plain_at_once() {
    let bad = head(4, b"\xFFAAA", 0, 0);
    let flagged = |flags| frame(4, b"PRIV", flags, &[0; 4]);
    for edit in edits(4, 7) {
        assert_eq!(edited(&tag(4, 0, &[flagged(0x02), bad.clone()].concat()), &edit), Err(40));
        assert_eq!(edited(&tag(4, 0, &[bad.clone(), flagged(0x02)].concat()), &edit), Err(7));
        assert_eq!(edited(&tag(4, 0, &[flagged(0x0A), bad.clone()].concat()), &edit), Err(7));
    }
}

// ---- 46

#[test]
fn frames_have_the_numbers_below_their_count() {
    for edition in EDITIONS {
        for count in 0..5_u64 {
            let all = tag(edition, 0, &counted(edition, b"a", &[1]).repeat(count as usize));
            for number in 0..count {
                assert!(edited(&all, &Edit::Remove(number)).is_ok());
            }
            let far = [1 << 32, (1 << 32) + count.saturating_sub(1), 1 << 63, u64::MAX];
            for number in [count, count + 1, 1000, u64::from(u32::MAX)].into_iter().chain(far) {
                for edit in &edits(edition, number)[..2] {
                    assert_eq!(edited(&all, edit), Err(46), "{number} of {count} in 2.{edition}");
                }
            }
        }
    }
}

// ---- refusals of adding, through the words

/// A record as words and bytes.
#[derive(Clone, Default)]
struct Words {
    record: Vec<u64>,
    name: Vec<u8>,
    names: Vec<u8>,
    rest: Vec<u8>,
    deviations: Vec<u32>,
}

impl Words {
    fn of(kind: u64, id: &[u8]) -> Words {
        let mut record = vec![0; SV_RECORD_WORDS];
        record[SV_RECORD_KIND] = kind;
        record[SV_RECORD_ID] = id.iter().fold(0, |number, byte| number << 8 | u64::from(*byte));
        Words { record, ..Words::default() }
    }

    fn word(mut self, place: usize, word: u64) -> Words {
        self.record[place] = word;
        self
    }

    fn name(self, name: &[u8]) -> Words {
        Words { name: name.to_vec(), ..self }
    }

    fn names(self, names: &[u8]) -> Words {
        Words { names: names.to_vec(), ..self }
    }

    fn rest(self, rest: &[u8]) -> Words {
        Words { rest: rest.to_vec(), ..self }
    }

    fn deviations(self, deviations: &[u32]) -> Words {
        Words { deviations: deviations.to_vec(), ..self }
    }

    fn given(&self) -> Given<'_> {
        let Words { record, name, names, rest, deviations } = self;
        Given { record, name, names, rest, deviations }
    }

    /// What appending and replacing answer, which is the same; a refusal changes nothing.
    fn put(&self, tag: &[u8], number: u64) -> [u32; 2] {
        let done = |edit: &dyn Fn(&mut [u8]) -> u32| {
            let mut bytes = tag.to_vec();
            let answer = edit(&mut bytes);
            assert!(answer == 0 || bytes == tag);
            answer
        };
        [done(&|tag| calls::append(tag, self.given())), done(&|tag| calls::replace(tag, number, self.given()))]
    }
}

/// Refused records, each with the nearest that is accepted.
fn refused_records() -> Vec<(u32, Words, Words)> {
    let text = |rest: &[u8]| Words::of(SV_KIND_TEXT, b"TIT2").rest(rest);
    let user = |name: &[u8]| Words::of(SV_KIND_POPULARIMETER, b"POPM").name(name);
    let contents = |names: &[u8]| Words::of(SV_KIND_CONTENTS, b"CTOC").name(b"t").names(names);
    let chapter = |run: &[u8]| Words::of(SV_KIND_CHAPTER, b"CHAP").name(b"c").rest(run);
    let raw = |id: &[u8]| Words::of(SV_KIND_RAW, id).rest(b"x");
    let table = |widths: [u64; 2], deviations: &[u32]| {
        let words = Words::of(SV_KIND_TABLE, b"MLLT").deviations(deviations);
        words.word(SV_TABLE_BITS_FOR_BYTES, widths[0]).word(SV_TABLE_BITS_FOR_MILLIS, widths[1])
    };
    let run = frame(4, b"TIT2", 0, b"\0A");
    vec![
        (21, raw(b"PRIv"), raw(b"PRIV")),
        (21, raw(b"PRI"), raw(b"PRIV")),
        (21, user(b"a").word(SV_RECORD_ID, 0x5449_5432), user(b"a")),
        (21, user(b"a").word(SV_RECORD_KIND, 6), user(b"a")),
        (21, user(b"a").word(SV_RECORD_ID, 1 << 32 | 0x504F_504D), user(b"a")),
        (21, user(b"a").word(SV_POPULARIMETER_RATING, 256), user(b"a").word(SV_POPULARIMETER_RATING, 255)),
        (25, raw(b"TIT2"), raw(b"TXXX")),
        (25, user(b"a").word(SV_RECORD_SHORT, 1), user(b"a")),
        (25, raw(b"PRIV").word(SV_RECORD_COMPRESSED, 1), raw(b"PRIV")),
        (12, text(b"t").word(SV_TEXT_ENCODING, 4), text(b"t").word(SV_TEXT_ENCODING, 3)),
        (26, text(b"tt\0"), text(b"tt")),
        (27, user(b"a\0b"), user(b"ab")),
        (28, contents(b"one"), contents(b"one\0")),
        (28, contents(&b"n\0".repeat(256)), contents(&b"n\0".repeat(255))),
        (29, chapter(&[&run[..], b"\0"].concat()), chapter(&run)),
        (29, chapter(&run[..run.len() - 1]), chapter(&run)),
        (30, table([0, 4], &[]), table([1, 3], &[])),
        (31, table([1, 2], &[]), table([1, 3], &[])),
        (33, table([4, 4], &[1]), table([4, 4], &[1, 2])),
        (33, table([4, 4], &[16, 2]), table([4, 4], &[15, 2])),
        (34, table([2, 2], &[1, 2]), table([2, 2], &[1, 2, 3, 0])),
    ]
}

#[test]
fn what_a_writer_refuses_is_refused() {
    let before = tag(4, 0, &[counted(4, b"a", &[1]), counted(4, b"b", &[2])].concat());
    // room for contents with 255 children
    let long = [&b"ID3\x04\0\0\0\0\x05\0"[..], &before[10..], &vec![0; 640 - (before.len() - 10)]].concat();
    for (number, refused, nearest) in refused_records() {
        for at in 0..2 {
            assert_eq!(refused.put(&long, at), [number; 2]);
            assert_eq!(nearest.put(&long, at), [0; 2], "{number}");
            // before the room, and after the number
            assert_eq!(refused.put(&before, at), [number; 2]);
        }
        assert_eq!(refused.put(&long, 2), [number, 46]);
        assert_eq!(refused.put(&long[..200], 2), [40; 2]);
    }
}

#[test]
fn too_few_words_are_refused_before_all_else() {
    let good = Words::of(SV_KIND_RAW, b"PRIV");
    let before = tag(4, 0, &[0; 30]);
    assert_eq!(good.put(&before, 0), [0, 46]);
    for len in 0..SV_RECORD_WORDS {
        let mut few = good.clone();
        few.record.truncate(len);
        for tag in [&before[..], b"no tag", b"", &before[..20]] {
            assert_eq!(few.put(tag, 0), [20; 2]);
        }
    }
    let mut more = good;
    more.record.extend([u64::MAX; 3]);
    assert_eq!(more.put(&before, 0), [0, 46]);
}

#[test]
fn bodies_of_2_2_are_neither_empty_nor_too_long() {
    let before = tag(2, 0, &[frame(2, b"UFI\0", 0, b"x"), vec![0; 9]].concat());
    let put = |tag: &[u8], body: &[u8]| Words::of(SV_KIND_RAW, b"UFI").rest(body).put(tag, 0);
    assert_eq!(put(&before, b""), [22; 2]);
    assert_eq!(put(&before, b"x"), [0; 2]);
    // too long a body is said before there is no room for it
    assert_eq!(put(&before, &vec![0; 1 << 24]), [23; 2]);
    assert_eq!(put(&before, &vec![0; (1 << 24) - 1]), [20; 2]);
    let roomy = [&b"ID3\x02\0\0\x08\0\0\x40"[..], &before[10..17], &vec![0; (1 << 24) + 64 - 7]].concat();
    assert_eq!(header(&roomy).unwrap().tag_len(), roomy.len());
    assert_eq!(put(&roomy, &vec![1; (1 << 24) - 1]), [0; 2]);
    assert_eq!(put(&roomy, &vec![1; 1 << 24]), [23; 2]);
    // the others have empty ones
    for edition in [3, 4] {
        let before = tag(edition, 0, &[frame(edition, b"PRIV", 0, b""), vec![0; 10]].concat());
        assert_eq!(Words::of(SV_KIND_RAW, b"PRIV").put(&before, 0), [0; 2]);
    }
}

// ---- 20

#[test]
fn the_frames_fit_exactly_or_are_one_byte_too_long() {
    for version in VERSIONS {
        let list = [text(version, 3), popularimeter(version, "a", 1), private(version, 5)];
        let used = frames(version, &list).len();
        let head = frames(version, &[private(version, 1)]).len() - 1;
        for padding in [0, 1, head, head + 1, head + 2, 40] {
            let before = written(version, &list, used + padding);
            // after the last
            let most = padding.saturating_sub(head);
            let fits = padding > head;
            assert_eq!(edited(&before, &appending(&private(version, most + usize::from(!fits)))).is_ok(), fits);
            assert_eq!(edited(&before, &appending(&private(version, most + 1))), Err(20));
            // in the place of each
            for (number, old) in list.iter().enumerate() {
                let most = frames(version, std::slice::from_ref(old)).len() + padding - head;
                let mut with = list.to_vec();
                with[number] = private(version, most);
                let want = written(version, &with, used + padding);
                assert_eq!(edited(&before, &replacing(number, &with[number])), Ok(want));
                assert_eq!(edited(&before, &replacing(number, &private(version, most + 1))), Err(20));
            }
        }
    }
}

#[test]
fn a_tag_without_padding_has_the_room_that_a_removal_frees() {
    for version in VERSIONS {
        let list = [private(version, 9), text(version, 4)];
        let size = frames(version, &list).len();
        let full = written(version, &list, size);
        assert_eq!(edited(&full, &appending(&private(version, 1))), Err(20));
        assert_eq!(edited(&full, &replacing(0, &private(version, 10))), Err(20));
        assert_eq!(edited(&full, &replacing(0, &private(version, 9))), Ok(full.clone()));
        let removed = edited(&full, &Edit::Remove(0)).unwrap();
        assert_eq!(removed, written(version, &list[1..], size));
        assert_eq!(edited(&removed, &appending(&private(version, 10))), Err(20));
        let again = edited(&removed, &appending(&list[0])).unwrap();
        assert_eq!(again, written(version, &[list[1].clone(), list[0].clone()], size));
    }
}

// ---- what an accepted edit leaves

/// An edit of a list of records.
fn on_list(list: &[Record], number: usize, new: Option<&Record>) -> Vec<Record> {
    [&list[..number], new.map(std::slice::from_ref).unwrap_or_default(), &list[number + 1..]].concat()
}

#[test]
fn frames_of_every_kind_give_way_to_every_kind_at_every_place() {
    for version in VERSIONS {
        let list = of_each_kind(version, 5);
        let size = frames(version, &list).len() + 60;
        let before = written(version, &list, size);
        for number in 0..list.len() {
            // shorter, as long and longer
            for new in [0, 2, 5, 9, 30].into_iter().flat_map(|more| of_each_kind(version, more)) {
                let with = on_list(&list, number, Some(&new));
                let after = edited(&before, &replacing(number, &new)).unwrap();
                assert_eq!(after, written(version, &with, size), "{version} {number} {new:?}");
                assert_eq!(read(&after).unwrap(), with);
            }
            let without = on_list(&list, number, None);
            let after = edited(&before, &Edit::Remove(number as u64)).unwrap();
            assert_eq!(after, written(version, &without, size), "{version} {number}");
            assert_eq!(read(&after).unwrap(), without);
        }
        for new in of_each_kind(version, 7) {
            let with = [&list[..], std::slice::from_ref(&new)].concat();
            let after = edited(&before, &appending(&new)).unwrap();
            assert_eq!(after, written(version, &with, size), "{version} {new:?}");
            // and taken away again
            assert_eq!(edited(&after, &Edit::Remove(list.len() as u64)), Ok(before.clone()));
        }
    }
}

#[test]
fn all_frames_can_be_removed_and_put_again() {
    for version in VERSIONS {
        let list = of_each_kind(version, 5);
        let size = frames(version, &list).len() + 3;
        let before = written(version, &list, size);
        for from_the_front in [true, false] {
            let mut now = before.clone();
            for left in (0..list.len()).rev() {
                now = edited(&now, &Edit::Remove(if from_the_front { 0 } else { left as u64 })).unwrap();
                assert_eq!(read(&now).unwrap().len(), left);
            }
            assert_eq!(now, written(version, &[], size));
            assert_eq!(edited(&now, &Edit::Remove(0)), Err(46));
            for record in &list {
                now = edited(&now, &appending(record)).unwrap();
            }
            assert_eq!(now, before);
        }
    }
}

// ---- frames move as they are

/// Frames that a writer does not write, and that are plain.
fn odd_frames(edition: u8) -> Vec<Vec<u8>> {
    let inner = frame(edition, b"TIT2", 0, b"\0A");
    let mut all = vec![
        counted(edition, b"a", &[0, 0, 0, 0, 0, 0, 0, 0, 0, 0, 1, 2]),
        counted(edition, b"", &[]),
        frame(edition, b"AaA\0", 0, b"lower case"),
        frame(edition, b"TIT2", 0, b"\0closed\0and more\0\0"),
        frame(edition, b"UFID", 0, b""),
    ];
    if edition > 2 {
        // flags that are not looked at, and zeros and other bytes that are left over in a run
        all.push([&head(edition, b"PRIV", 0, 1)[..8], &[0xE0, 0x10, 7]].concat());
        all.extend([&[0; 3][..], &[0; 25], b"A\0A"].map(|left| chapter(edition, &[&inner, left].concat())));
    }
    if edition == 4 {
        all.push(frame(4, b"POPM", 1, b"\x01\x02\x03\x04b\0\x07\x09"));
        // with a size below four a frame with a data length has 14 bytes
        all.extend((0..4).map(|size| [head(4, b"PRIV", 1, size), b"\x09\x08\x07\x06".to_vec()].concat()));
    }
    all
}

#[test]
fn frames_that_stay_are_moved_byte_for_byte() {
    for edition in EDITIONS {
        let (odd, mark) = (odd_frames(edition), frame(edition, b"PRIV", 0, b"x"));
        let id = if edition == 2 { Id::from(b"PRI") } else { Id::from(b"PRIV") };
        for frames in odd.windows(3).chain(odd.chunks(1)) {
            let all: Vec<u8> = frames.concat();
            for number in 0..frames.len() {
                let (before, after) = (frames[..number].concat(), frames[number + 1..].concat());
                // as many zeros as the tag needs to have its length
                let tag_of = |region: Vec<u8>| {
                    tag(edition, 0x10, &[&region[..], &vec![0; all.len() + 11 - region.len()]].concat())
                };
                let (given, number) = (tag_of(all.clone()), number as u64);
                let removed = tag_of([&before[..], &after].concat());
                assert_eq!(edited(&given, &Edit::Remove(number)), Ok(removed), "2.{edition} {number} {frames:02X?}");
                let replaced = tag_of([&before[..], &mark, &after].concat());
                assert_eq!(edited(&given, &Edit::Replace(number, id, raw(1))), Ok(replaced), "2.{edition} {number}");
                let appended = tag_of([&all[..], &mark].concat());
                assert_eq!(edited(&given, &Edit::Append(id, raw(1))), Ok(appended));
            }
        }
    }
}

#[test]
fn a_frame_with_a_data_length_and_a_size_below_four_is_14_bytes() {
    let mine = counted(4, b"a", &[1]);
    for size in 0..4 {
        let small = [head(4, b"PRIV", 1, size), vec![9; 4]].concat();
        assert_eq!(small.len(), 14);
        let before = tag(4, 0, &[&small[..], &mine].concat());
        let after = edited(&before, &Edit::Remove(0)).unwrap();
        assert_eq!(after, tag(4, 0, &[&mine[..], &[0; 14]].concat()));
        // another of 14 bytes fits its place, one of 15 does not
        assert!(edited(&before, &Edit::Replace(0, b"PRIV".into(), raw(4))).is_ok());
        assert_eq!(edited(&before, &Edit::Replace(0, b"PRIV".into(), raw(5))), Err(20));
    }
}

#[test]
fn what_follows_the_tag_and_its_header_never_change() {
    let mut accepted = 0;
    for seed in 0..1500 {
        let mut numbers = Numbers(seed);
        let tag = plain_tag(&mut numbers);
        let end = header(&tag).unwrap().tag_len();
        let number = numbers.below(4) as u64;
        let id = priv_id(header(&tag).unwrap().version);
        for edit in [Edit::Replace(number, id, raw(4)), Edit::Remove(number), Edit::Append(id, raw(1))] {
            let Ok(bytes) = edited(&tag, &edit) else { continue };
            assert_eq!((&bytes[..10], &bytes[end..]), (&tag[..10], &tag[end..]));
            // the same tag alone is edited in the same way
            assert_eq!(edited(&tag[..end], &edit), Ok(bytes[..end].to_vec()));
            // freed bytes are zeros: the tag is plain again
            assert_eq!(edited(&bytes, &Edit::Remove(1 << 32)), Err(46));
            accepted += 1;
        }
    }
    assert!(accepted > 1000, "{accepted}");
}

// ---- what was read

#[test]
fn a_frame_replaced_by_what_was_read_of_it_reads_the_same() {
    let (mut same, mut refused) = (0, Vec::new());
    for seed in 0..800 {
        let mut numbers = Numbers(seed);
        let tag = plain_tag(&mut numbers);
        let records = read(&tag).unwrap();
        for (number, record) in records.iter().enumerate() {
            match edited(&tag, &replacing(number, record)) {
                Ok(bytes) => {
                    assert_eq!(read(&bytes).unwrap(), records);
                    same += 1;
                }
                Err(why) => refused.push(why),
            }
        }
    }
    assert!(same > 1000, "{same}");
    refused.sort();
    refused.dedup();
    // an empty body of 2.2, and runs with padding
    assert_eq!(refused, [22, 29]);
}

#[test]
fn what_was_read_is_refused_only_for_a_reason() {
    for (edition, odd, number) in [
        (3, frame(3, b"Priv", 0, b"x"), 21),
        (4, frame(4, b"PRIv", 0, b"x"), 21),
        (2, frame(2, b"UFI\0", 0, b""), 22),
        (3, chapter(3, &[0]), 29),
        (4, chapter(4, &[&frame(4, b"TIT2", 0, b"\0A")[..], b"\0\0\0"].concat()), 29),
    ] {
        let before = tag(edition, 0, &odd);
        assert_eq!(edited(&before, &replacing(0, &read(&before).unwrap()[0])), Err(number));
    }
}

#[test]
fn a_run_with_a_compressed_subframe_is_taken_and_the_tag_then_not_plain() {
    for (edition, compressed) in [(3, 0x80), (4, 0x08)] {
        let run = frame(edition, b"PRIV", compressed, b"\0\0\0\x09x");
        let before = tag(edition, 0, &[0; 80]);
        let after = edited(&before, &appending(&chapter_of(run.clone()))).unwrap();
        assert_eq!(read(&after).unwrap(), [chapter_of(run)]);
        assert_eq!(edited(&after, &Edit::Remove(0)), Err(40));
        // any other run leaves it plain
        let after = edited(&before, &appending(&chapter_of(frame(edition, b"PRIV", 0, b"\0\0\0\x09x")))).unwrap();
        assert_eq!(edited(&after, &Edit::Remove(0)), Ok(before));
    }
}

// ---- a thousand edits one after another

/// A record of any kind, now and then one that is refused.
fn some_record(numbers: &mut Numbers, version: Version) -> Record {
    let more = numbers.below(25);
    let mut record = numbers.one(&of_each_kind(version, more)).clone();
    match numbers.below(12) {
        0 => record.id = Id::from(b"bad!"),
        1 => record.content = Content::Popularimeter { user: b"a\0b".to_vec(), rating: 0, counter: 1 },
        _ => {}
    }
    record
}

/// A number that is mostly that of a frame.
fn some_number(numbers: &mut Numbers, count: usize) -> u64 {
    match numbers.below(12) {
        0 => count as u64,
        1 => (1 << 32) + numbers.below(count + 1) as u64,
        _ => numbers.below(count.max(1)) as u64,
    }
}

/// The model: the frames as a list, and what an edit makes of it.
fn on_frames(list: &[Vec<u8>], edit: &Edit, version: Version, size: usize) -> Result<Vec<Vec<u8>>, u32> {
    let framed = |id: &Id, content: &Content<Vec<u8>>| {
        let mut writer = Writer::new(version);
        writer.add(*id, content).map_err(Refusal::number)?;
        Ok::<_, u32>(writer.frames().to_vec())
    };
    let place = |number: &u64| usize::try_from(*number).ok().filter(|at| *at < list.len()).ok_or(46_u32);
    let mut list = list.to_vec();
    match edit {
        Edit::Replace(number, id, content) => {
            let at = place(number)?;
            list[at] = framed(id, content)?;
        }
        Edit::Remove(number) => drop(list.remove(place(number)?)),
        Edit::Append(id, content) => list.push(framed(id, content)?),
    }
    if list.iter().map(Vec::len).sum::<usize>() > size {
        return Err(20);
    }
    Ok(list)
}

#[test]
fn a_thousand_edits_one_after_another() {
    const SIZE: usize = 400;
    let mut answers = [0; 50];
    for (seed, version) in (0..6).zip(VERSIONS.into_iter().cycle()) {
        let mut numbers = Numbers(seed);
        let (mut list, mut tag) = (Vec::new(), [written(version, &[], SIZE), b"sound".to_vec()].concat());
        for step in 0..1000 {
            let (record, number) = (some_record(&mut numbers, version), some_number(&mut numbers, list.len()));
            let edit = match numbers.below(5) {
                0 | 1 => Edit::Replace(number, record.id, record.content),
                2 => Edit::Remove(number),
                _ => Edit::Append(record.id, record.content),
            };
            let want = on_frames(&list, &edit, version, SIZE);
            let done = edited(&tag, &edit);
            answers[done.as_ref().err().copied().unwrap_or(0) as usize] += 1;
            assert_eq!(done.as_ref().err(), want.as_ref().err(), "{seed} {step} {edit:?}");
            if let (Ok(bytes), Ok(frames)) = (done, want) {
                (list, tag) = (frames, bytes);
            }
            let mut region: Vec<u8> = list.concat();
            region.resize(SIZE, 0);
            assert_eq!(tag, [&tag[..10], &region, b"sound"].concat(), "{seed} {step} {edit:?}");
            assert_eq!(read(&tag).unwrap().len(), list.len());
        }
    }
    for number in [0, 20, 21, 46] {
        assert!(answers[number] > 100, "{number}: {answers:?}");
    }
}
