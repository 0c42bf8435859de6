//! Hard use of editing and lifting: what they answer and leave is what the model of raising has for the tag, and a list of
//! frames for the edit. A record's frame, or its refusal, is what adding it answers.

use crate::common::Numbers;
use crate::raising::{looked, raised, Look, USERS};
use crate::words::{some_words, word};
use crate::{tags, Buffers, EDITS, LIFTS};
use std::ops::Range;
use streamvault::calls::{self, Given};
use streamvault::sys::*;

/// Longer than any frame that is made here.
const ROOM: usize = 1 << 12;

impl Buffers {
    /// Replaces, removes or appends a frame.
    pub fn editing(&mut self, numbers: &mut Numbers) {
        let tag = match numbers.below(6) {
            0 => tags::any(numbers),
            1 => tags::with_counters(numbers),
            _ => tags::with_users(numbers, &USERS[..4], 70),
        };
        self.tag.put(tag, numbers.once_in(2));
        self.put_record(numbers);
        let number = if numbers.once_in(8) { word(numbers) } else { numbers.below(3) as u64 };
        let mut want = self.tag.was().to_vec();
        if numbers.once_in(3) {
            let answer = calls::remove(self.tag.lent(), number);
            self.meet("edit", EDITS, answer);
            assert_eq!(answer, removed(&mut want, number));
        } else {
            let number = numbers.once_in(2).then_some(number);
            let answer = self.put_in_tag(number);
            self.meet("edit", EDITS, answer);
            assert_eq!(answer, self.put_in_model(&mut want, number));
        }
        assert_eq!(self.tag.now(), want);
        self.record_stayed();
    }

    /// Puts the record in the place of a frame, or after the last.
    fn put_in_tag(&mut self, number: Option<u64>) -> u32 {
        let given = Given {
            record: self.record.lent(),
            name: self.name.lent(),
            names: self.names.lent(),
            rest: self.rest.lent(),
            deviations: self.deviations.lent(),
        };
        match number {
            Some(number) => calls::replace(self.tag.lent(), number, given),
            None => calls::append(self.tag.lent(), given),
        }
    }

    /// The same in the model.
    fn put_in_model(&self, tag: &mut [u8], number: Option<u64>) -> u32 {
        let given = Given {
            record: self.record.was(),
            name: self.name.was(),
            names: self.names.was(),
            rest: self.rest.was(),
            deviations: self.deviations.was(),
        };
        put(tag, number, given).err().unwrap_or(0)
    }

    /// Lifts a counter by any amount.
    pub fn lifting(&mut self, numbers: &mut Numbers) {
        let tag = match numbers.below(5) {
            0 => tags::any(numbers),
            1 => tags::with_counters(numbers),
            _ => tags::with_users(numbers, &USERS[..4], 12),
        };
        let amount = word(numbers);
        self.tag.put(tag, numbers.once_in(2));
        self.name.put(numbers.one(&USERS).to_vec(), numbers.once_in(2));
        self.count.put(some_words(numbers, SV_COUNTER_WORDS), numbers.once_in(2));
        let answer = calls::lift(self.tag.lent(), self.name.lent(), amount, self.count.lent());
        self.meet("lift", LIFTS, answer);
        let (mut tag, mut counter) = (self.tag.was().to_vec(), self.count.was().to_vec());
        assert_eq!(answer, lifted(&mut tag, self.name.was(), amount, &mut counter));
        assert_eq!(self.tag.now(), tag);
        assert_eq!(self.name.now(), self.name.was());
        assert_eq!(self.count.now(), counter);
    }
}

// ---- the model

/// The frames of a plain tag.
struct Plain {
    edition: u64,
    frames: Vec<Range<usize>>,
    /// The place after the tag.
    end: usize,
}

fn plain(tag: &[u8]) -> Result<Plain, u32> {
    let Look { edition, frames, end, .. } = looked(tag, b"")?;
    Ok(Plain { edition: edition as u64, frames, end })
}

impl Plain {
    /// The place of the frame of a number.
    fn frame(&self, number: u64) -> Result<Range<usize>, u32> {
        let at = usize::try_from(number).ok().and_then(|number| self.frames.get(number));
        at.cloned().ok_or(SV_NO_SUCH_FRAME)
    }

    /// The place after the last frame.
    fn last(&self) -> usize {
        self.frames.last().map_or(10, |frame| frame.end)
    }

    /// Puts bytes in the place of others, if there is room.
    fn fit(&self, tag: &mut [u8], place: Range<usize>, bytes: &[u8]) -> Result<(), u32> {
        let mut region = [&tag[10..place.start], bytes, &tag[place.end..self.last()]].concat();
        if region.len() > self.end - 10 {
            return Err(SV_NO_ROOM);
        }
        region.resize(self.end - 10, 0);
        tag[10..self.end].copy_from_slice(&region);
        Ok(())
    }
}

fn removed(tag: &mut [u8], number: u64) -> u32 {
    let done = plain(tag).and_then(|plain| plain.fit(tag, plain.frame(number)?, &[]));
    done.err().unwrap_or(0)
}

fn put(tag: &mut [u8], number: Option<u64>, given: Given<'_>) -> Result<(), u32> {
    if given.record.len() < SV_RECORD_WORDS {
        return Err(SV_NO_ROOM);
    }
    let plain = plain(tag)?;
    let place = number.map_or(Ok(plain.last()..plain.last()), |number| plain.frame(number))?;
    let (mut buffer, mut writer, mut count) = ([0; ROOM], [0; SV_WRITER_WORDS], [0]);
    assert_eq!(calls::begin_plain(plain.edition, &mut writer), 0);
    match calls::add(given, &mut buffer, &mut writer, &mut count) {
        0 => plain.fit(tag, place, &buffer[..count[0] as usize]),
        SV_NO_ROOM => panic!("there is room for every frame that is made here"),
        number => Err(number),
    }
}

/// A raise, and where that is refused with 44 a new frame.
fn lifted(tag: &mut [u8], user: &[u8], amount: u64, counter: &mut [u64]) -> u32 {
    match raised(tag, user, amount, counter) {
        SV_COUNTER_TOO_SHORT => {}
        answer => return answer,
    }
    let field = looked(tag, user).expect("it is plain").fields[0].clone();
    let sum = number(&tag[field.clone()]) + amount;
    let plain = plain(tag).expect("it is plain");
    let place = plain.frames.iter().find(|frame| frame.contains(&(field.start - 1))).expect("a frame has it").clone();
    let bytes = popularimeter(plain.edition, user, tag[field.start - 1], sum);
    match plain.fit(tag, place, &bytes) {
        Ok(()) => counter[0] = sum,
        Err(number) => return number,
    }
    0
}

/// The number that bytes are.
fn number(bytes: &[u8]) -> u64 {
    bytes.iter().fold(0, |number, byte| number << 8 | u64::from(*byte))
}

/// The frame of a popularimeter, laid out here.
fn popularimeter(edition: u64, user: &[u8], rating: u8, counter: u64) -> Vec<u8> {
    let zeros = counter.leading_zeros() as usize / 8;
    let body = [user, &[0, rating], &counter.to_be_bytes()[zeros..]].concat();
    let size = body.len() as u32;
    let head = match edition {
        2 => [b"POP", &size.to_be_bytes()[1..]].concat(),
        3 => [b"POPM", &size.to_be_bytes()[..], &[0, 0]].concat(),
        _ => [b"POPM", &[0, 0, (size >> 7) as u8, size as u8 & 0x7F][..], &[0, 0]].concat(),
    };
    [head, body].concat()
}
