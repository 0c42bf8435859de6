//! Generated tags of the plain sort, users and amounts, and what is read of a tag.

use super::layout::{chapter, counted, frame, tag, EDITIONS};
use super::Numbers;
use streamvault::{header, Content, Header, Reader, Record};

/// One user among a few, so that some are there twice.
pub fn user(numbers: &mut Numbers) -> Vec<u8> {
    numbers.one(&[&b"a"[..], b"", b"room 7", b"caf\xE9"]).to_vec()
}

/// Counter bytes that leave room to grow, or none.
pub fn counter(numbers: &mut Numbers) -> Vec<u8> {
    let (zeros, len) = (numbers.below(10), numbers.below(9));
    [vec![0; zeros], numbers.bytes(len)].concat()
}

/// Any frame that is plain, chapters with popularimeters among them.
pub fn plain_frame(numbers: &mut Numbers, edition: u8, depth: usize) -> Vec<u8> {
    let (user, counter) = (user(numbers), counter(numbers));
    let len = numbers.below(6);
    let some = numbers.bytes(len);
    match numbers.below(if edition == 2 || depth > 2 { 5 } else { 7 }) {
        0 => frame(edition, b"TIT2", 0, &[b"\0", &some[..]].concat()),
        1 => frame(edition, b"PRIV", 0, &some),
        2 if edition == 4 => frame(4, b"POPM", 1, &[b"\0\0\0\x09", &user[..], b"\0\x05", &counter].concat()),
        5 | 6 => {
            let inner: Vec<u8> = (0..numbers.below(3)).flat_map(|_| plain_frame(numbers, edition, depth + 1)).collect();
            let run = [inner, vec![0; numbers.below(3)]].concat();
            // the sizes of `head` are small
            chapter(edition, if run.len() < 100 { &run } else { &[] })
        }
        _ => counted(edition, &user, &counter),
    }
}

/// A plain tag, with sound after it now and then.
pub fn plain_tag(numbers: &mut Numbers) -> Vec<u8> {
    let edition = *numbers.one(&EDITIONS);
    let frames: Vec<u8> = (0..1 + numbers.below(6)).flat_map(|_| plain_frame(numbers, edition, 1)).collect();
    let region = [frames, vec![0; numbers.below(15)]].concat();
    let flags = *numbers.one(&[0, 0, 0x10, 0x20]);
    let behind = numbers.below(9);
    [tag(edition, flags, &region), numbers.bytes(behind)].concat()
}

/// An amount that is often small, and often at a border.
pub fn amount(numbers: &mut Numbers) -> u64 {
    match numbers.below(4) {
        0 => numbers.below(300) as u64,
        1 => (1 << numbers.below(64)) - 1,
        2 => u64::MAX - numbers.below(300) as u64,
        _ => numbers.any() >> numbers.below(64),
    }
}

/// What is read of a tag: its header, and each frame's place, body length and record.
pub type Read = (Header, Vec<(usize, usize, Record)>);

pub fn everything(tag: &[u8]) -> Read {
    let mut reader = Reader::open(tag, Vec::new()).unwrap();
    let mut frames = Vec::new();
    while let Some(frame) = reader.next_frame() {
        let frame = frame.unwrap();
        frames.push((frame.at, frame.body.len(), frame.to_record()));
    }
    (header(tag).unwrap(), frames)
}

/// The same with another counter in the popularimeter of a user.
pub fn with_counter((header, mut frames): Read, user: &[u8], to: u64) -> Read {
    for (_, _, record) in &mut frames {
        if let Content::Popularimeter { user: of, counter, .. } = &mut record.content {
            if of == user {
                *counter = to;
            }
        }
    }
    (header, frames)
}

/// How many popularimeters of a user there are, and the counter of the last.
pub fn counters(read: &Read, of: &[u8]) -> (usize, u64) {
    let found = read.1.iter().filter_map(|(_, _, record)| match &record.content {
        Content::Popularimeter { user, counter, .. } if user == of => Some(*counter),
        _ => None,
    });
    found.fold((0, 0), |(count, _), counter| (count + 1, counter))
}
