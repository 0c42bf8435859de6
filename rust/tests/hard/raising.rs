//! Hard use of raising: what it answers and leaves is what a small model of the format has, which uses nothing of the
//! library but the tag header's own checks.

use crate::common::Numbers;
use crate::words::{some_words, word};
use crate::{tags, Buffers, RAISES};
use std::ops::Range;
use streamvault::calls;
use streamvault::sys::*;

/// Those that tags are made with, and one that is in none.
pub const USERS: [&[u8]; 5] = [b"", b"a", b"ab", b"\xFF", b"a\0"];

impl Buffers {
    /// Raises a counter by any amount.
    pub fn raising(&mut self, numbers: &mut Numbers) {
        let tag = match numbers.below(5) {
            0 => tags::any(numbers),
            1 => tags::with_counters(numbers),
            _ => tags::with_users(numbers, &USERS[..4], 12),
        };
        let amount = word(numbers);
        self.tag.put(tag, numbers.once_in(2));
        self.name.put(numbers.one(&USERS).to_vec(), numbers.once_in(2));
        self.count.put(some_words(numbers, SV_COUNTER_WORDS), numbers.once_in(2));
        let answer = calls::raise(self.tag.lent(), self.name.lent(), amount, self.count.lent());
        self.meet("raise", RAISES, answer);
        let (mut tag, mut counter) = (self.tag.was().to_vec(), self.count.was().to_vec());
        assert_eq!(answer, raised(&mut tag, self.name.was(), amount, &mut counter));
        assert_eq!(self.tag.now(), tag);
        assert_eq!(self.name.now(), self.name.was());
        assert_eq!(self.count.now(), counter);
    }
}

// ---- the model

/// What a raise answers, and does to the tag and to the word of the counter.
pub fn raised(tag: &mut [u8], user: &[u8], amount: u64, counter: &mut [u64]) -> u32 {
    if counter.is_empty() {
        return SV_NO_ROOM;
    }
    let (field, sum) = match field(tag, user).and_then(|field| Ok((field.clone(), sum(&tag[field], amount)?))) {
        Ok(found) => found,
        Err(number) => return number,
    };
    counter[0] = sum;
    for (place, byte) in field.rev().zip(sum.to_le_bytes().into_iter().chain([0].into_iter().cycle())) {
        tag[place] = byte;
    }
    0
}

/// The number that bytes are, if it fits 64 bits.
fn number(bytes: &[u8]) -> Option<u64> {
    bytes.iter().try_fold(0_u64, |number, byte| Some(number.checked_mul(256)? + u64::from(*byte)))
}

/// The sum of a counter and an amount, if that fits.
fn sum(field: &[u8], amount: u64) -> Result<u64, u32> {
    let counter = number(field).expect("it was read");
    let sum = counter.checked_add(amount).ok_or(SV_SUM_TOO_LARGE)?;
    let fits = (0..field.len()).fold(sum, |rest, _| rest >> 8) == 0;
    fits.then_some(sum).ok_or(SV_COUNTER_TOO_SHORT)
}

/// Where the counter bytes are of the one popularimeter of a user, in a plain tag.
fn field(tag: &[u8], user: &[u8]) -> Result<Range<usize>, u32> {
    match <[_; 1]>::try_from(looked(tag, user)?.fields) {
        Ok([field]) => Ok(field),
        Err(fields) if fields.is_empty() => Err(SV_USER_ABSENT),
        Err(_) => Err(SV_USER_TWICE),
    }
}

/// The look at a plain tag.
pub fn looked<'a>(tag: &'a [u8], user: &'a [u8]) -> Result<Look<'a>, u32> {
    let mut header = [0; SV_HEADER_WORDS];
    match calls::header(tag, &mut header) {
        0 => {}
        number => return Err(number),
    }
    let [edition, flags, size, ext] = header.map(|word| word as usize);
    if edition < 4 && flags & 0x80 != 0 {
        return Err(SV_NOT_PLAIN);
    }
    let end = tag.len().min(10 + size);
    let plain = tag.len() >= 10 + size && flags & 0xC0 == 0;
    let mut look = Look { tag, edition, user, plain, fields: Vec::new(), frames: Vec::new(), end };
    look.frames(end.min(10 + ext)..end, 1)?;
    look.plain.then_some(look).ok_or(SV_NOT_PLAIN)
}

/// A frame: its id, empty where it is compressed, and where its body is.
type Frame<'a> = (&'a [u8], Range<usize>);

/// What was met on the way through a tag.
pub struct Look<'a> {
    tag: &'a [u8],
    pub edition: usize,
    user: &'a [u8],
    /// Whether all was plain.
    plain: bool,
    /// The counter bytes of that user at the top level.
    pub fields: Vec<Range<usize>>,
    /// The frames of the top level, from their headers on.
    pub frames: Vec<Range<usize>>,
    /// The place after the tag.
    pub end: usize,
}

impl<'a> Look<'a> {
    /// Goes through frames, and into those inside them.
    fn frames(&mut self, mut places: Range<usize>, depth: usize) -> Result<(), u32> {
        while let Some((id, body)) = self.frame(places.clone(), depth)? {
            if depth == 1 {
                self.frames.push(places.start..body.end);
            }
            places.start = body.end;
            self.body(id, body, depth)?;
        }
        self.plain &= depth > 1 || self.tag[places].iter().all(|byte| *byte == 0);
        Ok(())
    }

    /// The frame that begins at a place, if one does.
    fn frame(&mut self, places: Range<usize>, depth: usize) -> Result<Option<Frame<'a>>, u32> {
        let s = &self.tag[places.clone()];
        let (id_len, head_len) = if self.edition == 2 { (3, 6) } else { (4, 10) };
        if s.len() < head_len || s[0] == 0 {
            return Ok(None);
        }
        let bits = [[0; 5], [0x40, 0x20, 0x80, 0x80, 0], [0x04, 0x40, 0x08, 0x01, 0x02]][self.edition - 2];
        let [encrypted, grouped, compressed, has_length, flagged] = bits.map(|bit| bit != 0 && s[9] & bit != 0);
        let shift = if self.edition == 4 { 7 } else { 8 };
        let size = s[id_len..2 * id_len].iter().fold(0, |size, byte| size << shift | usize::from(*byte));
        let extra = if has_length { 4 } else { 0 };
        let (start, len) = (head_len + extra, size.saturating_sub(extra));
        let short = s.len() < start + len;
        let checks = [
            (depth > 8, SV_TOO_DEEP),
            (std::str::from_utf8(&s[..id_len]).is_err(), SV_ID_NOT_UTF8),
            (encrypted, SV_ENCRYPTED),
            (grouped, SV_GROUPED),
            (s.len() < start, SV_MISSING_BYTES),
            (self.edition == 3 && size < extra, SV_SMALL_FRAME),
            (self.edition == 3 && short, SV_MISSING_BYTES),
            (flagged && !compressed, SV_NOT_PLAIN),
        ];
        if let Some((_, number)) = checks.into_iter().find(|(fails, _)| *fails) {
            return Err(number);
        }
        self.plain &= !compressed && !short;
        let end = places.end.min(places.start + start + len);
        Ok(Some((if compressed { &[] } else { &s[..id_len] }, places.start + start..end)))
    }

    /// Looks at a body by its kind, and goes through the frames inside it.
    fn body(&mut self, id: &[u8], body: Range<usize>, depth: usize) -> Result<(), u32> {
        let b = &self.tag[body.clone()];
        let zero = b.iter().position(|byte| *byte == 0).unwrap_or(b.len());
        let run = match id {
            b"TXX" | b"TXXX" => return Ok(()),
            [b'T', ..] => return text(b),
            b"MLL" | b"MLLT" => return widths(b),
            b"POP" | b"POPM" => {
                let field = b.get(zero + 2..).ok_or(SV_MISSING_FIELD)?;
                number(field).ok_or(SV_COUNTER_TOO_LARGE)?;
                if depth == 1 && b[..zero] == *self.user {
                    self.fields.push(body.start + zero + 2..body.end);
                }
                return Ok(());
            }
            b"CHAP" => zero + 17,
            b"CTOC" => zero + 3 + names(b.get(zero + 2..).unwrap_or(&[]))?,
            _ => return Ok(()),
        };
        if b.len() < run {
            return Err(SV_MISSING_FIELD);
        }
        self.frames(body.start + run..body.end, depth + 1)
    }
}

/// A text has an encoding.
fn text(body: &[u8]) -> Result<(), u32> {
    match body.first() {
        None => Err(SV_MISSING_FIELD),
        Some(4..) => Err(SV_UNKNOWN_ENCODING),
        Some(_) => Ok(()),
    }
}

/// A lookup table has two widths.
fn widths(body: &[u8]) -> Result<(), u32> {
    let [.., bytes, millis] = *body.first_chunk::<10>().ok_or(SV_MISSING_FIELD)?;
    if [bytes, millis].iter().any(|width| !(1..=32).contains(width)) {
        return Err(SV_WRONG_WIDTH);
    }
    ((bytes + millis) % 4 == 0).then_some(()).ok_or(SV_WIDTHS_NOT_IN_FOURS)
}

/// How many bytes the children take, from the byte on that counts them.
fn names(counted: &[u8]) -> Result<usize, u32> {
    let (count, names) = counted.split_first().ok_or(SV_MISSING_FIELD)?;
    let mut ends = [0].into_iter().chain((0..names.len()).filter(|at| names[*at] == 0).map(|at| at + 1));
    ends.nth(usize::from(*count)).ok_or(SV_MISSING_FIELD)
}
