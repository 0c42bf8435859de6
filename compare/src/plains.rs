//! Raises and edits: mostly plain tags with popularimeters of a few users, and one of these users with an amount, or a change.
use crate::answers::{Change, Edit, Raise};
use crate::frames::Frames;
use crate::ids::{framed, wrapped};
use crate::lists;
use crate::rng::Rng;
use crate::tags;
use oracle::{Fields, Record, Subs};

/// The users of popularimeters.
const USERS: [&[u8]; 6] = [b"", b"a", b"ab", b"room 7", b"caf\xE9", b"adverts"];

/// The lengths of padding.
const PADDINGS: [usize; 7] = [0, 0, 1, 5, 9, 10, 30];

/// Those of tags to be edited: one of these, or any up to 40.
const ROOMS: [usize; 14] = [0, 0, 0, 1, 9, 10, 11, 60, 80, 100, 150, 300, 1000, 3000];

/// Numbers of frames; no tag has so many that the last ones are there.
const NUMBERS: [u64; 16] = [0, 0, 0, 0, 0, 1, 1, 1, 1, 2, 2, 3, 4, 5, 1 << 32, u64::MAX];

/// The raise of a case. One tag in eight may be damaged, one in eight is any generated one.
pub fn raise(seed: u64, index: u64) -> Raise {
    let mut maker = Maker::new(seed, index);
    let tag = maker.case(seed, index, &PADDINGS);
    let (user, amount) = maker.lift();
    Raise { tag, user, amount }
}

/// The edit of a case, of a tag as for a raise with more padding.
pub fn edit(seed: u64, index: u64) -> Edit<Record> {
    let mut maker = Maker::new(seed, index);
    let any = [maker.rng.below(41)];
    let paddings = if maker.rng.one_in(2) { &any[..] } else { &ROOMS };
    let tag = maker.case(seed, index, paddings);
    let number = maker.rng.pick(&NUMBERS);
    let record = match maker.rng.below(200) {
        0 => packed(edition(&tag)),
        _ => lists::record(Rng::at(maker.rng.number(), 0), edition(&tag)),
    };
    let change = match maker.rng.below(10) {
        0..=3 => Change::Replace(number, record),
        4 => Change::Remove(number),
        5..=7 => Change::Append(record),
        _ => {
            let (user, amount) = maker.lift();
            Change::Lift(user, amount)
        }
    };
    Edit { tag, change }
}

// a chapter with a compressed frame in it
fn packed(edition: u8) -> Record {
    let mut run = framed(edition, b"ABCD", &[0, 0, 0, 2, 1, 2]);
    run[9] = if edition == 3 { 0x80 } else { 8 };
    let fields = Fields::Chapter { element: b"one".to_vec(), times: [0; 4], subs: Subs::Run(run) };
    Record { id: "CHAP".to_string(), fields }
}

/// The edition of a tag; any where its header has none.
pub fn edition(tag: &[u8]) -> u8 {
    tag.get(3).map_or(4, |edition| (*edition).clamp(2, 4))
}

/// Edits after which a 2.2 body has the greatest length, and would have one byte more.
pub fn long() -> [Edit<Record>; 3] {
    const MOST: usize = (1 << 24) - 1;
    let padded = wrapped(2, &vec![0; 6 + MOST]);
    let raw = |len| Record { id: "ABC".to_string(), fields: Fields::Raw { body: vec![0x41; len] } };
    let counted = framed(2, b"POP", &[&vec![0x41; MOST - 3][..], &[0, 9, 0xFF]].concat());
    [
        Edit { tag: padded.clone(), change: Change::Append(raw(MOST)) },
        Edit { tag: padded, change: Change::Append(raw(MOST + 1)) },
        Edit { tag: wrapped(2, &counted), change: Change::Lift(vec![0x41; MOST - 3], 1) },
    ]
}

struct Maker {
    rng: Rng,
    edition: u8,
    /// The one that is mostly raised.
    mine: &'static [u8],
}

impl Maker {
    fn new(seed: u64, index: u64) -> Maker {
        let mut rng = Rng::at(seed, index);
        let edition = rng.between(2, 4) as u8;
        let mine = rng.pick(&USERS);
        Maker { rng, edition, mine }
    }

    // the tag of a case
    fn case(&mut self, seed: u64, index: u64, paddings: &[usize]) -> Vec<u8> {
        let mut tag = self.tag(paddings);
        match self.rng.below(8) {
            0 => tags::damage(&mut self.rng, &mut tag),
            1 => tag = tags::tag(seed, index),
            _ => {}
        }
        tag
    }

    // a user and an amount
    fn lift(&mut self) -> (Vec<u8>, u64) {
        let user = if self.rng.one_in(10) { self.user() } else { self.mine.to_vec() };
        (user, self.amount())
    }

    // frames, padding, and often sound after the tag; seldom a flag, a size or a byte of padding that makes it another sort
    fn tag(&mut self, paddings: &[usize]) -> Vec<u8> {
        let count = self.rng.pick(&[0, 1, 1, 2, 3, 4, 5]);
        let mut region = self.frames(count, 1);
        region.extend(vec![0; self.rng.pick(paddings)]);
        if self.rng.one_in(20) {
            region.extend(self.rng.bytes(3));
        }
        let mut out = wrapped(self.edition, &region);
        if self.rng.one_in(12) {
            out[5] = self.rng.pick(&[0x10, 0x20, 0x30, 0x40, 0x80, 0xC0]);
        }
        if self.rng.one_in(20) {
            out[9] = self.rng.byte() & 0x7F;
        }
        if self.rng.one_in(2) {
            out.extend(self.rng.bytes(20));
        }
        out
    }

    fn frames(&mut self, count: usize, depth: usize) -> Vec<u8> {
        (0..count).flat_map(|_| self.frame(depth)).collect()
    }

    fn frame(&mut self, depth: usize) -> Vec<u8> {
        let old = self.edition == 2;
        match self.rng.below(20) {
            0 => self.any(depth),
            1..=3 => framed(self.edition, if old { b"TT2" } else { b"TIT2" }, b"\0A title"),
            4 | 5 => {
                let body = self.rng.bytes(20);
                framed(self.edition, if old { b"UFI" } else { b"PRIV" }, &body)
            }
            6..=9 if !old && depth < 5 => self.chapter(depth),
            _ => self.popularimeter(),
        }
    }

    // of any id and kind, with any flags and sizes
    fn any(&mut self, depth: usize) -> Vec<u8> {
        Frames { rng: Rng::at(self.rng.number(), 0), edition: self.edition }.frame(depth)
    }

    // a data length before the body now and then
    fn popularimeter(&mut self) -> Vec<u8> {
        let mut body = self.user();
        body.extend([0, self.rng.byte()]);
        body.extend(self.counter());
        if self.edition == 4 && self.rng.one_in(4) {
            let mut out = framed(4, b"POPM", &[&[0, 0, 0, 9], &body[..]].concat());
            out[9] = 1;
            return out;
        }
        framed(self.edition, if self.edition == 2 { b"POP" } else { b"POPM" }, &body)
    }

    // the bytes of a counter: few, many with zeros in front, or FF alone
    fn counter(&mut self) -> Vec<u8> {
        match self.rng.below(4) {
            0 => vec![0xFF; self.rng.below(9)],
            1 => self.rng.bytes(8),
            _ => {
                let zeros = self.rng.below(9);
                [vec![0; zeros], self.rng.bytes(8)].concat()
            }
        }
    }

    // zeros, or other bytes, may pad its run
    fn chapter(&mut self, depth: usize) -> Vec<u8> {
        let mut body = [&b"one\0"[..], &[0; 16]].concat();
        let count = self.rng.below(3);
        body.extend(self.frames(count, depth + 1));
        if self.rng.one_in(4) {
            body.push(0);
            body.extend(self.rng.bytes(4));
        }
        framed(self.edition, b"CHAP", &body)
    }

    // often the one that is raised, and seldom one of any bytes
    fn user(&mut self) -> Vec<u8> {
        match self.rng.below(12) {
            0 => self.rng.bytes(4),
            1..=6 => self.mine.to_vec(),
            _ => self.rng.pick(&USERS).to_vec(),
        }
    }

    fn amount(&mut self) -> u64 {
        match self.rng.below(3) {
            0 => self.rng.pick(&[0, 1, 1, 255, 256, 0xFFFF_FFFF, u64::MAX - 1, u64::MAX]),
            _ => self.rng.number() >> self.rng.below(64),
        }
    }
}
