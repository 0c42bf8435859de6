//! The new library, linked.
use crate::answers::{Change, Changed, Edit, Entry, Frame, Header, Order, Raise, Seen, Stop, Written};
use streamvault::calls::{self, Given};
use streamvault::sys;

type Words = [u64; sys::SV_RECORD_WORDS];

/// What a byte that no call may touch holds.
const UNTOUCHED: u8 = 0xA5;

/// Reads a tag with room for every chapter in a chapter. The work buffer may hold anything.
pub fn read(tag: &[u8], work: &mut Vec<u8>) -> Seen {
    let room = 8 * tag.len() + 16;
    if work.len() < room {
        work.resize(room, 0);
    }
    let work = &mut work[..room];
    let mut seen = Seen { header: header(tag), frames: Vec::new(), stop: Stop::End { at: 0 } };
    let mut reader = [0; sys::SV_READER_WORDS];
    let opened = calls::open(tag, work, &mut reader);
    match seen.header {
        Err(number) => assert_eq!(number, opened, "header and open answer differently"),
        Ok(_) => {
            assert_eq!(0, opened, "open refuses what header takes");
            seen.stop = steps(tag, work, &mut reader, &mut seen.frames);
            metered(tag, work, &seen);
        }
    }
    seen
}

/// The meter shows the whole popularimeters among these frames, has their marks, and ends as the steps do.
fn metered(tag: &[u8], work: &mut [u8], seen: &Seen) {
    let (mut meter, mut found) = ([0; sys::SV_METER_WORDS], [0; sys::SV_METERED_WORDS]);
    assert_eq!(0, calls::meter_open(tag, work, &mut meter), "the meter refuses what is opened");
    let whole = |frame: &&Frame| frame.kind == sys::SV_KIND_POPULARIMETER && !frame.short;
    for frame in seen.frames.iter().filter(whole) {
        assert_eq!(0, calls::meter_next(tag, work, &mut meter, &mut found), "the meter shows no popularimeter");
        let source = if found[sys::SV_METERED_IN_WORK] == 1 { &*work } else { tag };
        let user = &source[found[sys::SV_METERED_USER_START] as usize..][..found[sys::SV_METERED_USER_LEN] as usize];
        let numbers = [found[sys::SV_METERED_RATING], found[sys::SV_METERED_COUNTER]];
        assert_eq!((user, &numbers[..]), (&frame.name[..], &frame.numbers[..2]), "the meter shows another popularimeter");
        assert!(std::ptr::eq(frame, &seen.frames[found[sys::SV_METERED_FRAME] as usize]), "the meter counts frames otherwise");
    }
    let stop = match seen.stop {
        Stop::Refused { number, .. } => number,
        _ => sys::SV_END,
    };
    assert_eq!(stop, calls::meter_next(tag, work, &mut meter, &mut found), "the meter ends otherwise");
    let short = seen.frames.iter().any(|frame| frame.short);
    let compressed = seen.frames.iter().any(|frame| frame.compressed && frame.id == 0x504F_504D);
    let missing = seen.header.as_ref().is_ok_and(|header| (tag.len() as u64) < 10 + header.size);
    let marks = [seen.frames.len() as u64, short.into(), compressed.into(), missing.into()];
    assert_eq!(marks, meter[sys::SV_METER_FRAMES..], "the meter's marks are others");
}

fn header(tag: &[u8]) -> Result<Header, u32> {
    let mut words = [0; sys::SV_HEADER_WORDS];
    match calls::header(tag, &mut words) {
        0 => Ok(Header {
            edition: words[sys::SV_HEADER_VERSION],
            flags: words[sys::SV_HEADER_FLAGS],
            size: words[sys::SV_HEADER_SIZE],
            ext: words[sys::SV_HEADER_EXT],
        }),
        number => Err(number),
    }
}

fn steps(tag: &[u8], work: &mut [u8], reader: &mut [u64; sys::SV_READER_WORDS], frames: &mut Vec<Frame>) -> Stop {
    let mut record = [0; sys::SV_RECORD_WORDS];
    loop {
        let before = reader[sys::SV_READER_AT];
        let at = (before - reader[sys::SV_READER_BEGIN]) as usize;
        match calls::step(tag, work, reader, &mut record) {
            0 => {
                let took = (reader[sys::SV_READER_AT] - before) as usize;
                frames.push(frame(&record, tag, work, took));
            }
            sys::SV_END => return Stop::End { at },
            number => return Stop::Refused { at, number },
        }
    }
}

fn frame(record: &Words, tag: &[u8], work: &[u8], took: usize) -> Frame {
    let source = if record[sys::SV_RECORD_IN_WORK] == 1 { work } else { tag };
    let part = |start: usize| {
        let from = record[start] as usize;
        source[from..from + record[start + 1] as usize].to_vec()
    };
    let mut numbers = [0; 5];
    numbers.copy_from_slice(&record[4..9]);
    let rest = part(sys::SV_RECORD_REST_START);
    let kind = record[sys::SV_RECORD_KIND];
    Frame {
        at: record[sys::SV_RECORD_AT] as usize,
        took,
        id: record[sys::SV_RECORD_ID],
        short: record[sys::SV_RECORD_SHORT] == 1,
        compressed: record[sys::SV_RECORD_COMPRESSED] == 1,
        kind,
        numbers,
        body: part(sys::SV_RECORD_BODY_START),
        name: part(sys::SV_RECORD_NAME_START),
        names: part(sys::SV_RECORD_NAMES_START),
        deviations: if kind == sys::SV_KIND_TABLE { references(record, &rest) } else { Vec::new() },
        rest,
    }
}

fn references(record: &Words, rest: &[u8]) -> Vec<u32> {
    // widths sum to 4 or more, so that a byte holds at most four numbers
    let mut out = vec![0; 4 * rest.len()];
    let mut count = [u64::MAX];
    let number = calls::references(record, rest, &mut out, &mut count);
    assert_eq!(0, number, "references of a table that was read are refused");
    out.truncate(count[0] as usize);
    out
}

/// Raises a counter, in a copy of the tag.
pub fn raise(raise: &Raise) -> Changed {
    changed(&raise.tag, |tag| counted(|words| calls::raise(tag, &raise.user, raise.amount, words)))
}

/// Edits a copy of the tag.
pub fn edit(edit: &Edit<Entry>) -> Changed {
    changed(&edit.tag, |tag| match &edit.change {
        Change::Replace(number, entry) => (calls::replace(tag, *number, given(entry, &words_of(entry))), 0, true),
        Change::Remove(number) => (calls::remove(tag, *number), 0, true),
        Change::Append(entry) => (calls::append(tag, given(entry, &words_of(entry))), 0, true),
        Change::Lift(user, amount) => counted(|words| calls::lift(tag, user, *amount, words)),
    })
}

/// Has a copy of the tag changed, by a call that answers its number, the counter, and whether it left all words alone that it should.
fn changed(tag: &[u8], call: impl FnOnce(&mut [u8]) -> (u32, u64, bool)) -> Changed {
    let mut lent = [tag, &[UNTOUCHED; 16]].concat();
    let (number, counter, clean) = call(&mut lent[..tag.len()]);
    let after = lent.split_off(tag.len());
    Changed { number, counter, tag: lent, clean: clean && untouched(&after), roomless: roomless(tag) }
}

/// Makes a call that has a word for a counter: its number, the counter, and whether the other words are as they were.
fn counted(call: impl FnOnce(&mut [u64]) -> u32) -> (u32, u64, bool) {
    const UNTOUCHED: u64 = 0xA5A5_A5A5_A5A5_A5A5;
    let mut words = [UNTOUCHED; sys::SV_COUNTER_WORDS + 1];
    let number = call(&mut words);
    let [counter, after] = words;
    let clean = after == UNTOUCHED && (number == 0 || counter == UNTOUCHED);
    (number, if number == 0 { counter } else { 0 }, clean)
}

/// What reading a tag is refused with where no work buffer is lent, or 0.
fn roomless(tag: &[u8]) -> u32 {
    let (mut reader, mut record) = ([0; sys::SV_READER_WORDS], [0; sys::SV_RECORD_WORDS]);
    let mut number = calls::open(tag, &mut [], &mut reader);
    while number == 0 {
        number = calls::step(tag, &mut [], &mut reader, &mut record);
    }
    if number == sys::SV_END {
        0
    } else {
        number
    }
}

/// Writes a tag: begins, adds each record, finishes.
pub fn write(order: &Order) -> Written {
    let mut writer = [0; sys::SV_WRITER_WORDS];
    let begun = calls::begin(order.edition.into(), order.mode, order.altered.into(), &mut writer);
    assert_eq!(0, begun, "a writer is not begun");
    let mut buffer = vec![UNTOUCHED; order.room];
    let mut out = Written { clean: true, ..Written::default() };
    for entry in &order.entries {
        let before = writer[sys::SV_WRITER_USED];
        let (number, count) = add(entry, &mut buffer, &mut writer);
        let used = writer[sys::SV_WRITER_USED];
        out.clean &= used == before + count && (number == 0 || count == 0) && untouched(&buffer[used as usize..]);
        out.added.push((number, count as usize));
    }
    out.frames = buffer[..writer[sys::SV_WRITER_USED] as usize].to_vec();
    let mut output = vec![UNTOUCHED; order.output];
    let mut count = [u64::MAX];
    out.finished = calls::finish(order.padding, &buffer, &mut output, &writer, &mut count);
    out.clean &= (out.finished == 0 || count[0] == 0) && untouched(&output[count[0] as usize..]);
    output.truncate(count[0] as usize);
    out.tag = output;
    out
}

fn add(entry: &Entry, buffer: &mut [u8], writer: &mut [u64]) -> (u32, u64) {
    let mut count = [u64::MAX];
    let number = calls::add(given(entry, &words_of(entry)), buffer, writer, &mut count);
    (number, count[0])
}

fn words_of(entry: &Entry) -> Words {
    let mut record: Words = [0; sys::SV_RECORD_WORDS];
    record[sys::SV_RECORD_KIND] = entry.kind;
    record[sys::SV_RECORD_ID] = entry.id;
    record[4..9].copy_from_slice(&entry.numbers);
    record
}

fn given<'a>(entry: &'a Entry, record: &'a Words) -> Given<'a> {
    let Entry { name, names, rest, deviations, .. } = entry;
    Given { record, name, names, rest, deviations }
}

fn untouched(bytes: &[u8]) -> bool {
    bytes.iter().all(|byte| *byte == UNTOUCHED)
}
