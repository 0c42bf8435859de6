//! Hard use of the meter: what it answers and leaves is what repeated steps answer and leave.

use crate::common::Numbers;
use crate::words::{is_meter, meter_words, some_words, word};
use crate::{tags, Buffers, OPENS, STEPS};
use streamvault::calls;
use streamvault::sys::*;

/// POPM as a number.
const POPM: u64 = 0x504F_504D;

impl Buffers {
    /// Opens a tag for its counters and goes to its end, and now and then one call further.
    pub fn metering(&mut self, numbers: &mut Numbers) {
        let tag = if numbers.once_in(2) { tags::any(numbers) } else { tags::with_counters(numbers) };
        let room = room(numbers, tag.len());
        let calls = tag.len() / 6 + 2;
        self.tag.put(tag, numbers.once_in(2));
        self.work.put(numbers.bytes(room), numbers.once_in(2));
        self.state.put(some_words(numbers, SV_METER_WORDS), numbers.once_in(2));
        if !self.meter_open() {
            return;
        }
        for _ in 0..calls {
            let (mut meter, work) = (self.state.now().to_vec(), self.work.now().to_vec());
            if numbers.once_in(20) {
                tamper(numbers, &mut meter);
            }
            self.state.put(meter, numbers.once_in(2));
            self.work.put(work, numbers.once_in(2));
            self.metered.put(some_words(numbers, SV_METERED_WORDS), numbers.once_in(2));
            if self.meter_next() != 0 && numbers.once_in(2) {
                break;
            }
        }
    }

    pub fn meter_from_any_words(&mut self, numbers: &mut Numbers) {
        let tag = tags::with_counters(numbers);
        let room = room(numbers, tag.len());
        self.state.put(meter_words(numbers, tag.len()), numbers.once_in(2));
        self.metered.put(some_words(numbers, SV_METERED_WORDS), numbers.once_in(2));
        self.work.put(if numbers.once_in(2) { tag.clone() } else { numbers.bytes(room) }, numbers.once_in(2));
        self.tag.put(tag, numbers.once_in(2));
        self.meter_next();
    }

    /// Opens the tag as `sv_open` does; whether it was accepted.
    fn meter_open(&mut self) -> bool {
        let answer = calls::meter_open(self.tag.lent(), self.work.lent(), self.state.lent());
        self.meet("meter_open", OPENS, answer);
        let (mut work, mut meter) = (self.work.was().to_vec(), self.state.was().to_vec());
        assert_eq!(answer, opened(self.tag.was(), &mut work, &mut meter));
        assert_eq!(self.tag.now(), self.tag.was());
        assert_eq!(self.work.now(), work);
        assert_eq!(self.state.now(), meter);
        answer == 0
    }

    /// Makes a call, and holds all that it answers and leaves against repeated steps.
    fn meter_next(&mut self) -> u32 {
        let answer = calls::meter_next(self.tag.lent(), self.work.lent(), self.state.lent(), self.metered.lent());
        let (mut work, mut meter) = (self.work.was().to_vec(), self.state.was().to_vec());
        let mut metered = self.metered.was().to_vec();
        assert_eq!(answer, stepped(self.tag.was(), &mut work, &mut meter, &mut metered));
        assert_eq!(self.tag.now(), self.tag.was());
        assert_eq!(self.work.now(), work);
        assert_eq!(self.state.now(), meter);
        assert_eq!(self.metered.now(), metered);
        if meter.get(SV_METER_STOP) != Some(&SV_STOP_REFUSED) || meter != self.state.was() {
            self.meet("meter_next", STEPS, answer);
        }
        answer
    }
}

/// The length of a work buffer: mostly enough, often too short for some frame, at times for all.
fn room(numbers: &mut Numbers, tag: usize) -> usize {
    match numbers.below(6) {
        0 => tag,
        1 => 8 * tag,
        2 => numbers.below(40),
        3 => numbers.below(2 * tag + 2),
        _ => numbers.below(tag + 1),
    }
}

/// Puts another number into one of the words.
fn tamper(numbers: &mut Numbers, meter: &mut [u64]) {
    let place = numbers.below(meter.len());
    meter[place] = match place {
        SV_METER_VERSION => 2 + numbers.below(3) as u64,
        SV_METER_IN_WORK | SV_METER_SHORT | SV_METER_COMPRESSED | SV_METER_MISSING => numbers.below(2) as u64,
        SV_METER_FRAMES => u64::MAX - numbers.below(3) as u64,
        _ => word(numbers),
    };
}

/// What opening for the counters is, by `sv_open` and `sv_header`.
fn opened(tag: &[u8], work: &mut [u8], meter: &mut [u64]) -> u32 {
    if meter.len() < SV_METER_WORDS {
        return SV_NO_ROOM;
    }
    let (mut reader, mut header) = ([0; SV_READER_WORDS], [0; SV_HEADER_WORDS]);
    let answer = calls::open(tag, work, &mut reader);
    if answer == 0 {
        assert_eq!(calls::header(tag, &mut header), 0);
        let missing = (tag.len() as u64) < 10 + header[SV_HEADER_SIZE];
        meter[..SV_READER_WORDS].copy_from_slice(&reader);
        meter[SV_METER_FRAMES..SV_METER_MISSING].fill(0);
        meter[SV_METER_MISSING] = u64::from(missing);
    }
    answer
}

/// What the meter's call is, by steps up to the next whole popularimeter.
fn stepped(tag: &[u8], work: &mut [u8], meter: &mut [u64], metered: &mut [u64]) -> u32 {
    if meter.len() < SV_METER_WORDS || metered.len() < SV_METERED_WORDS {
        return SV_NO_ROOM;
    }
    if !is_meter(meter) {
        return SV_UNKNOWN_VERSION;
    }
    let mut record = [0; SV_RECORD_WORDS];
    loop {
        let answer = calls::step(tag, work, &mut meter[..SV_READER_WORDS], &mut record);
        if answer != 0 {
            return answer;
        }
        let frame = meter[SV_METER_FRAMES];
        meter[SV_METER_FRAMES] = frame.wrapping_add(1);
        meter[SV_METER_SHORT] |= record[SV_RECORD_SHORT];
        meter[SV_METER_COMPRESSED] |= u64::from(record[SV_RECORD_COMPRESSED] == 1 && record[SV_RECORD_ID] == POPM);
        if record[SV_RECORD_KIND] == SV_KIND_POPULARIMETER && record[SV_RECORD_SHORT] == 0 {
            metered[SV_METERED_IN_WORK] = record[SV_RECORD_IN_WORK];
            metered[SV_METERED_USER_START] = record[SV_RECORD_NAME_START];
            metered[SV_METERED_USER_LEN] = record[SV_RECORD_NAME_LEN];
            metered[SV_METERED_RATING] = record[SV_POPULARIMETER_RATING];
            metered[SV_METERED_COUNTER] = record[SV_POPULARIMETER_COUNTER];
            metered[SV_METERED_FRAME] = frame;
            return 0;
        }
    }
}
