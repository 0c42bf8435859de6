//! Tags and records for hard use: well formed, cut, damaged and senseless.

use crate::common::records::record;
use crate::common::{Numbers, MODES, VERSIONS};
use streamvault::sys::*;
use streamvault::{read, references, Content, Record, Refusal, Writer};

/// A number that four characters make.
const fn id4(id: &[u8; 4]) -> u64 {
    u32::from_be_bytes(*id) as u64
}

/// A number that three characters make.
const fn id3(id: &[u8; 3]) -> u64 {
    u32::from_be_bytes([0, id[0], id[1], id[2]]) as u64
}

/// Kinds with ids that fit them in some edition, and some that fit in none.
pub const KINDS_AND_IDS: [(u64, u64); 16] = [
    (SV_KIND_TEXT, id4(b"TIT2")),
    (SV_KIND_TEXT, id4(b"TLEN")),
    (SV_KIND_TEXT, id3(b"TT2")),
    (SV_KIND_TEXT, id4(b"TXXX")),
    (SV_KIND_POPULARIMETER, id4(b"POPM")),
    (SV_KIND_POPULARIMETER, id3(b"POP")),
    (SV_KIND_TABLE, id4(b"MLLT")),
    (SV_KIND_TABLE, id3(b"MLL")),
    (SV_KIND_CHAPTER, id4(b"CHAP")),
    (SV_KIND_CHAPTER, id4(b"POPM")),
    (SV_KIND_CONTENTS, id4(b"CTOC")),
    (SV_KIND_RAW, id4(b"PRIV")),
    (SV_KIND_RAW, id4(b"TXXX")),
    (SV_KIND_RAW, id3(b"UFI")),
    (SV_KIND_RAW, id4(b"TIT2")),
    (SV_KIND_RAW, id4(b"\xC3\xA9AB")),
];

/// Bytes for a part of a record: none, a few, or a run of frames.
pub fn part(numbers: &mut Numbers) -> Vec<u8> {
    match numbers.below(5) {
        0 => Vec::new(),
        1 => b"name".to_vec(),
        2 => b"one\0two\0".to_vec(),
        3 => frames(numbers, 3, 3),
        _ => {
            let len = numbers.below(20);
            numbers.bytes(len)
        }
    }
}

/// A tag of any sort.
pub fn any(numbers: &mut Numbers) -> Vec<u8> {
    let mut tag = match numbers.below(8) {
        0 => {
            let len = numbers.below(40);
            numbers.bytes(len)
        }
        1 => Vec::new(),
        2 | 3 => written(numbers).map_or_else(|_| Vec::new(), |(tag, _)| tag),
        _ => made(numbers),
    };
    spoil(numbers, &mut tag);
    tag
}

/// A tag with many popularimeters, between frames of any sort.
pub fn with_counters(numbers: &mut Numbers) -> Vec<u8> {
    let edition = 2 + numbers.below(3) as u8;
    let id = if edition == 2 { id3(b"POP") } else { id4(b"POPM") };
    let mut frames = Vec::new();
    for _ in 0..numbers.below(8) {
        let other = *numbers.one(&KINDS_AND_IDS);
        let (kind, id) = if numbers.once_in(3) { other } else { (SV_KIND_POPULARIMETER, id) };
        frames.extend(frame_of(numbers, edition, 2, kind, id));
    }
    let mut tag = around(numbers, edition, &frames);
    spoil(numbers, &mut tag);
    tag
}

/// A tag that is mostly plain, with popularimeters of these users, now and then inside a chapter, and a frame of any sort. It
/// has fewer zeros after them than `room`.
pub fn with_users(numbers: &mut Numbers, users: &[&[u8]], room: usize) -> Vec<u8> {
    let edition = 2 + numbers.below(3) as u8;
    let id = if edition == 2 { id3(b"POP") } else { id4(b"POPM") };
    let mut frames = Vec::new();
    for _ in 0..numbers.below(4) {
        let len = numbers.below(10);
        let some = numbers.bytes(1 + len);
        let body = [numbers.one(users), &b"\0"[..], &rating_and_counter(numbers, some)].concat();
        let mut made = [head(edition, id, body.len(), 0), body].concat();
        if edition > 2 && numbers.once_in(6) {
            made = [head(edition, id4(b"CHAP"), 17 + made.len(), 0), vec![0; 17], made].concat();
        }
        frames.extend(made);
        if numbers.once_in(6) {
            frames.extend(frame(numbers, edition, 2));
        }
    }
    if numbers.once_in(4) {
        return around(numbers, edition, &frames);
    }
    frames.extend(vec![0; numbers.below(room)]);
    let behind = if numbers.once_in(8) { numbers.bytes(3) } else { Vec::new() };
    [&[b'I', b'D', b'3', edition, 0, 0], &synchsafe(frames.len())[..], &frames, &behind].concat()
}

/// Cuts one tag in four, and changes some bytes of another.
fn spoil(numbers: &mut Numbers, tag: &mut Vec<u8>) {
    match numbers.below(4) {
        0 => {
            let len = numbers.below(tag.len() + 1);
            tag.truncate(len);
        }
        1 => damage(numbers, tag),
        _ => {}
    }
}

/// Changes a few bytes.
fn damage(numbers: &mut Numbers, tag: &mut [u8]) {
    for _ in 0..numbers.below(4) {
        if !tag.is_empty() {
            let at = numbers.below(tag.len());
            tag[at] = numbers.byte();
        }
    }
}

/// A tag of frames with any flags.
fn made(numbers: &mut Numbers) -> Vec<u8> {
    let edition = 2 + numbers.below(3) as u8;
    let frames = frames(numbers, edition, 4);
    around(numbers, edition, &frames)
}

/// A header that is mostly right, frames and padding.
fn around(numbers: &mut Numbers, edition: u8, frames: &[u8]) -> Vec<u8> {
    let flags = *numbers.one(&[0, 0, 0, 0x80, 0x80, 0x40, 0xC0, 0x20, 0x01]);
    let mut region = Vec::new();
    if flags & 0x40 != 0 {
        region.extend([0, 0, 0, *numbers.one(&[5, 6, 10, 20]), 0, 0]);
    }
    region.extend(frames);
    region.extend(vec![0; numbers.below(12)]);
    let size = if numbers.once_in(8) { numbers.below(300) } else { region.len() };
    let mut tag = b"ID3".to_vec();
    tag.extend([edition, 0, flags]);
    tag.extend(synchsafe(size));
    tag.extend(region);
    tag
}

fn synchsafe(n: usize) -> [u8; 4] {
    [n >> 21, n >> 14, n >> 7, n].map(|byte| byte as u8 & 0x7F)
}

/// Frames one after another, chapters among them down to a depth.
fn frames(numbers: &mut Numbers, edition: u8, depth: usize) -> Vec<u8> {
    if numbers.once_in(30) {
        return nested(numbers, edition);
    }
    (0..numbers.below(4)).flat_map(|_| frame(numbers, edition, depth)).collect()
}

fn frame(numbers: &mut Numbers, edition: u8, depth: usize) -> Vec<u8> {
    let (kind, id) = *numbers.one(&KINDS_AND_IDS);
    frame_of(numbers, edition, depth, kind, id)
}

fn frame_of(numbers: &mut Numbers, edition: u8, depth: usize, kind: u64, id: u64) -> Vec<u8> {
    let body = body(numbers, kind, edition, depth);
    let flags =
        if numbers.once_in(2) { 0 } else { *numbers.one(&[1, 2, 2, 2, 3, 8, 9, 10, 0x80, 0x80, 4, 0x20, 0x40]) };
    let size = if numbers.once_in(12) { *numbers.one(&[0, 3, 4, 40, 200]) } else { body.len() };
    [&head(edition, id, size, flags)[..], &body].concat()
}

/// The header of a frame.
fn head(edition: u8, id: u64, size: usize, flags: u8) -> Vec<u8> {
    let (id, plain) = ((id as u32).to_be_bytes(), (size as u32).to_be_bytes());
    match edition {
        2 => [&id[1..], &plain[1..]].concat(),
        3 => [&id[..], &plain, &[0, flags]].concat(),
        _ => [&id[..], &synchsafe(size), &[0, flags]].concat(),
    }
}

/// Chapters inside one another, about as deep as they may be.
fn nested(numbers: &mut Numbers, edition: u8) -> Vec<u8> {
    let mut run = Vec::new();
    for _ in 0..7 + numbers.below(4) {
        let body = [&[0; 17][..], &run].concat();
        let flags = *numbers.one(&[0, 0, 2]);
        run = [&head(edition, id4(b"CHAP"), body.len(), flags)[..], &body].concat();
    }
    run
}

/// A body that mostly fits its kind.
fn body(numbers: &mut Numbers, kind: u64, edition: u8, depth: usize) -> Vec<u8> {
    let len = numbers.below(12);
    let some = numbers.bytes(len);
    let inner = if depth == 0 { Vec::new() } else { frames(numbers, edition, depth - 1) };
    match kind {
        SV_KIND_TEXT => [&[numbers.below(5) as u8], &some[..]].concat(),
        SV_KIND_POPULARIMETER => [user(numbers), rating_and_counter(numbers, some)].concat(),
        SV_KIND_TABLE => {
            let widths = [numbers.below(34) as u8, 4 * numbers.below(9) as u8];
            [&[0, 1, 0, 0, 2, 0, 0, 3], &widths[..], &some].concat()
        }
        SV_KIND_CHAPTER => [&b"c\0"[..], &[0; 16], &inner].concat(),
        SV_KIND_CONTENTS => [&b"t\0\x03\x02a\0b\0"[..], &inner].concat(),
        _ => some,
    }
}

/// A user and mostly its closing zero. Bytes that a search for the zero could take for it come often.
fn user(numbers: &mut Numbers) -> Vec<u8> {
    let len = if numbers.once_in(4) { numbers.below(40) } else { numbers.below(12) };
    let mut user = numbers.bytes(len);
    user.retain(|byte| *byte != 0);
    if !numbers.once_in(20) {
        user.push(0);
    }
    user
}

/// A rating and a counter of these bytes, which is often longer than eight and mostly fits 64 bits.
fn rating_and_counter(numbers: &mut Numbers, mut some: Vec<u8>) -> Vec<u8> {
    if some.is_empty() || numbers.once_in(2) {
        return some;
    }
    if !numbers.once_in(8) {
        some.truncate(9);
    }
    let zeros = vec![0; *numbers.one(&[1, 4, 8, 20])];
    some.splice(1..1, zeros);
    some
}

// ---- records

/// A tag that was written, and the records that were accepted.
pub fn written(numbers: &mut Numbers) -> Result<(Vec<u8>, Vec<Record>), Refusal> {
    let (version, mode) = (*numbers.one(&VERSIONS), *numbers.one(&MODES));
    let mut writer = Writer::new(version).mode(mode);
    let mut accepted = Vec::new();
    for _ in 0..numbers.below(6) {
        let record = record(numbers, version);
        if writer.add_record(&record).is_ok() {
            accepted.push(record);
        }
    }
    let tag = writer.finish(numbers.below(16))?;
    Ok((tag, accepted))
}

/// Writes records and reads them back: what was accepted is there, in order, whole and equal.
pub fn there_and_back(numbers: &mut Numbers) {
    let (tag, accepted) = written(numbers).expect("a small tag is finished");
    let found = read(&tag).expect("a finished tag is read");
    assert_eq!(found.len(), accepted.len());
    for (found, accepted) in found.iter().zip(&accepted) {
        assert_eq!(compared(found), compared(accepted));
    }
}

/// A record with its references unpacked: bits after the last one are not written.
fn compared(record: &Record) -> (Record, Vec<streamvault::Reference>) {
    let mut record = record.clone();
    let mut unpacked = Vec::new();
    if let Content::Table { table, packed } = &mut record.content {
        unpacked = references(table, packed).expect("the widths were accepted");
        packed.clear();
    }
    (record, unpacked)
}
