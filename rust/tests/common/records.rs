//! Generated records of every kind, mostly ones that a writer accepts.

use super::layout::{counted, frame};
use super::{id, plain, Numbers};
use streamvault::{Content, Encoding, Id, Record, Table, Version, Writer};

/// What a frame is called in 2.2, and in 2.3 and 2.4.
type Names = (&'static [u8; 3], &'static [u8; 4]);

const TEXT_IDS: [Names; 2] = [(b"TT2", b"TIT2"), (b"TLE", b"TLEN")];
const RAW_IDS: [Names; 2] = [(b"UFI", b"PRIV"), (b"TXX", b"TXXX")];

const ENCODINGS: [Encoding; 4] = [Encoding::Latin1, Encoding::Utf16, Encoding::Utf16Be, Encoding::Utf8];

/// Texts whose zeros are close to where a reader ends them.
const TEXTS: [&[u8]; 5] = [b"", b"A\0", b"\0", b"\0\0", b"\xFF\xFEA\0\0A"];

/// Counters of no byte to eight, most with FF in them.
const COUNTERS: [u64; 8] = [0, 255, 65_280, 0xFFE0, 0xFF00_FF00_FF00, u64::MAX, 256, 1 << 32];

/// Bodies of no bytes, and of bytes that call for unsynchronising.
const BODIES: [&[u8]; 6] = [b"", b"\xFF", b"\xFF\x00", b"\xFF\xE0", b"\xFF\xFF", b"\0"];

/// A body whose length has FF in its bytes, where these are plain numbers.
const LONG_BODY: usize = 255;

/// How deep chapters lie inside one another.
const MOST_DEPTH: usize = 3;

/// A record of any kind that the edition has.
pub fn record(numbers: &mut Numbers, version: Version) -> Record {
    record_at(numbers, version, 1)
}

fn record_at(numbers: &mut Numbers, version: Version, depth: usize) -> Record {
    let kinds = if version == Version::Id3v22 { 7 } else { 10 };
    match numbers.below(kinds) {
        0 | 1 => Record::new(one_id(numbers, version, &TEXT_IDS), text(numbers)),
        2 | 3 => Record::new(id(version, b"POP", b"POPM"), popularimeter(numbers)),
        4 => Record::new(id(version, b"MLL", b"MLLT"), table(numbers)),
        5 | 6 => Record::new(one_id(numbers, version, &RAW_IDS), raw(numbers)),
        7 | 8 => Record::new(b"CHAP", chapter(numbers, version, depth)),
        _ => Record::new(b"CTOC", contents(numbers, version, depth)),
    }
}

fn one_id(numbers: &mut Numbers, version: Version, ids: &[Names]) -> Id {
    let (three, four) = *numbers.one(ids);
    id(version, three, four)
}

fn some(numbers: &mut Numbers, below: usize) -> Vec<u8> {
    let len = numbers.below(below);
    numbers.bytes(len)
}

/// A user or an element id.
fn name(numbers: &mut Numbers) -> Vec<u8> {
    some(numbers, 8).into_iter().filter(|byte| *byte != 0).collect()
}

fn text(numbers: &mut Numbers) -> Content<Vec<u8>> {
    let text = if numbers.once_in(5) { numbers.one(&TEXTS).to_vec() } else { some(numbers, 12) };
    Content::Text { encoding: *numbers.one(&ENCODINGS), text }
}

fn popularimeter(numbers: &mut Numbers) -> Content<Vec<u8>> {
    let any = numbers.any() >> numbers.below(64);
    let counter = if numbers.once_in(2) { *numbers.one(&COUNTERS) } else { any };
    Content::Popularimeter { user: name(numbers), rating: numbers.byte(), counter }
}

fn table(numbers: &mut Numbers) -> Content<Vec<u8>> {
    let bits_for_bytes = 1 + numbers.below(32) as u8;
    let bits_for_millis = 4 - bits_for_bytes % 4 + 4 * numbers.below(7) as u8;
    let [bytes, millis] = [(); 2].map(|()| numbers.any() as u32 >> 8);
    let table = Table { frames: numbers.any() as u16, bytes, millis, bits_for_bytes, bits_for_millis };
    Content::Table { table, packed: some(numbers, 12) }
}

fn raw(numbers: &mut Numbers) -> Content<Vec<u8>> {
    let body = match numbers.below(12) {
        0..=4 => numbers.one(&BODIES).to_vec(),
        5 => numbers.bytes(LONG_BODY),
        _ => some(numbers, 12),
    };
    Content::Raw { body }
}

fn chapter(numbers: &mut Numbers, version: Version, depth: usize) -> Content<Vec<u8>> {
    let [start_time, end_time, start_offset, end_offset] = [(); 4].map(|()| numbers.any() as u32);
    let (element, run) = (name(numbers), run(numbers, version, depth));
    Content::Chapter { element, start_time, end_time, start_offset, end_offset, run }
}

fn contents(numbers: &mut Numbers, version: Version, depth: usize) -> Content<Vec<u8>> {
    Content::Contents {
        element: name(numbers),
        top_level: numbers.once_in(2),
        ordered: numbers.once_in(2),
        children: b"a\0bb\0"[..*numbers.one(&[0, 2, 5])].to_vec(),
        run: run(numbers, version, depth),
    }
}

/// A run of subframes: records as a writer makes them, and often one that no writer makes.
fn run(numbers: &mut Numbers, version: Version, depth: usize) -> Vec<u8> {
    let mut writer = Writer::new(version);
    for _ in 0..if depth == MOST_DEPTH { 0 } else { numbers.below(3) } {
        // one that is refused is not there
        let _ = writer.add_record(&record_at(numbers, version, depth + 1));
    }
    let mut run = writer.frames().to_vec();
    if numbers.once_in(3) {
        run.extend(unwritten(numbers, version.edition()));
    }
    run
}

/// A subframe that no writer makes: its counter is long, or it has a data length, or it is compressed.
fn unwritten(numbers: &mut Numbers, edition: u8) -> Vec<u8> {
    let some = some(numbers, 6);
    match (numbers.below(3), edition) {
        (0, 4) => frame(4, b"TIT2", 1, &[b"\0\0\0\x09\0A", &some[..]].concat()),
        (1, 4) => frame(4, b"POPM", 8, &some),
        (1, _) => frame(edition, b"POPM", 0x80, &[b"\0\0\0\x09", &some[..]].concat()),
        _ => counted(edition, b"inner", &plain::counter(numbers)),
    }
}
