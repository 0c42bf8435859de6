//! Words of readers, writers and records: in range, at borders and senseless.

use crate::common::Numbers;
use crate::tags;
use streamvault::sys::*;

/// A number that is likely to be at some border.
pub fn word(numbers: &mut Numbers) -> u64 {
    match numbers.below(4) {
        0 => numbers.below(8) as u64,
        1 => *numbers.one(&[255, 256, 257, 65_535, 65_536, 1 << 24, (1 << 32) - 1, 1 << 32, 1 << 63, u64::MAX]),
        2 => numbers.below(200) as u64,
        _ => numbers.any(),
    }
}

/// So many words, now and then fewer, often more.
pub fn some_words(numbers: &mut Numbers, wanted: usize) -> Vec<u64> {
    let len = if numbers.once_in(12) { numbers.below(wanted) } else { wanted + numbers.below(3) };
    (0..len).map(|_| word(numbers)).collect()
}

/// Words of a reader that are mostly in range.
pub fn reader_words(numbers: &mut Numbers, tag: usize) -> Vec<u64> {
    let mut words = some_words(numbers, SV_READER_WORDS);
    let stop = numbers.below(4).saturating_sub(1) as u64;
    let number = if stop == SV_STOP_REFUSED { 1 + numbers.below(255) as u64 } else { 0 };
    let begin = numbers.below(tag + 2) as u64;
    let at = begin + numbers.below(tag + 2) as u64;
    let good = [2 + numbers.below(3) as u64, numbers.below(2) as u64, begin, at, tag as u64, stop, number];
    for (word, good) in words.iter_mut().zip(good) {
        if !numbers.once_in(10) {
            *word = good;
        }
    }
    words
}

/// Whether some call could have left these words of a reader.
pub fn is_reader(words: &[u64]) -> bool {
    let (stop, number) = (words[SV_READER_STOP], words[SV_READER_NUMBER]);
    let refused = stop == SV_STOP_REFUSED;
    (2..=4).contains(&words[SV_READER_VERSION])
        && words[SV_READER_IN_WORK] <= 1
        && stop <= 2
        && number <= 255
        && refused == (number != 0)
}

/// Words of a meter that are mostly in range.
pub fn meter_words(numbers: &mut Numbers, tag: usize) -> Vec<u64> {
    let mut words = some_words(numbers, SV_METER_WORDS);
    for (word, good) in words.iter_mut().zip(reader_words(numbers, tag)) {
        *word = good;
    }
    for place in [SV_METER_SHORT, SV_METER_COMPRESSED, SV_METER_MISSING] {
        if place < words.len() && !numbers.once_in(15) {
            words[place] = numbers.below(2) as u64;
        }
    }
    words
}

/// Whether some call could have left these words of a meter.
pub fn is_meter(words: &[u64]) -> bool {
    let marks = [SV_METER_SHORT, SV_METER_COMPRESSED, SV_METER_MISSING];
    is_reader(words) && marks.iter().all(|mark| words[*mark] <= 1)
}

/// Words of a writer that are mostly in range.
pub fn writer_words(numbers: &mut Numbers, used: usize) -> Vec<u64> {
    let mut words = some_words(numbers, SV_WRITER_WORDS);
    let below = |numbers: &mut Numbers, n| numbers.below(n) as u64;
    let good = [2 + below(numbers, 3), below(numbers, 3), below(numbers, 2), used as u64];
    for (word, good) in words.iter_mut().zip(good) {
        if !numbers.once_in(15) {
            *word = good;
        }
    }
    words
}

pub fn is_writer(words: &[u64]) -> bool {
    (2..=4).contains(&words[SV_WRITER_VERSION]) && words[SV_WRITER_MODE] <= 2 && words[SV_WRITER_ALTERED] <= 1
}

/// Words of a record that are mostly in range.
pub fn record_words(numbers: &mut Numbers) -> Vec<u64> {
    let mut words = some_words(numbers, SV_RECORD_WORDS);
    if words.len() < SV_RECORD_WORDS || numbers.once_in(10) {
        return words;
    }
    let (kind, id) = *numbers.one(&tags::KINDS_AND_IDS);
    words[SV_RECORD_KIND] = kind;
    words[SV_RECORD_ID] = id;
    words[SV_RECORD_SHORT] = u64::from(numbers.once_in(12));
    words[SV_RECORD_COMPRESSED] = u64::from(numbers.once_in(12));
    for word in &mut words[4..9] {
        if !numbers.once_in(10) {
            *word = numbers.below(5) as u64;
        }
    }
    if kind == SV_KIND_TABLE && numbers.once_in(2) {
        let widths = *numbers.one(&[[2, 2], [1, 3], [4, 4], [8, 24]]);
        words[SV_TABLE_BITS_FOR_BYTES..=SV_TABLE_BITS_FOR_MILLIS].copy_from_slice(&widths);
    }
    if kind == SV_KIND_CONTENTS {
        words[SV_CONTENTS_TOP_LEVEL] %= 2;
        words[SV_CONTENTS_ORDERED] %= 2;
    }
    words
}

/// The largest numbers that the fields of a kind hold.
pub fn field_limits(kind: u64) -> &'static [u64] {
    const BYTE: u64 = 0xFF;
    const LONG: u64 = 0xFFFF_FFFF;
    match kind {
        SV_KIND_TEXT => &[BYTE],
        SV_KIND_POPULARIMETER => &[BYTE, u64::MAX],
        SV_KIND_TABLE => &[0xFFFF, LONG, LONG, BYTE, BYTE],
        SV_KIND_CHAPTER => &[LONG, LONG, LONG, LONG],
        SV_KIND_CONTENTS => &[1, 1],
        _ => &[],
    }
}

/// The same, only of those fields of which no refusal but the wrong id speaks.
fn unspoken_limits(kind: u64) -> &'static [u64] {
    match kind {
        SV_KIND_TEXT => &[],
        SV_KIND_TABLE => &[0xFFFF],
        _ => field_limits(kind),
    }
}

/// Whether words say a record to be written: a number beyond its field that a refusal speaks of is refused with that one.
pub fn is_given_record(words: &[u64]) -> bool {
    let kind = words[SV_RECORD_KIND];
    kind <= SV_KIND_RAW
        && words[SV_RECORD_ID] <= 0xFFFF_FFFF
        && words[4..].iter().zip(unspoken_limits(kind)).all(|(word, most)| word <= most)
}

/// Whether words say a record that a step may show.
pub fn is_record(words: &[u64]) -> bool {
    let kind = words[SV_RECORD_KIND];
    kind <= SV_KIND_RAW
        && words[SV_RECORD_ID] <= 0xFFFF_FFFF
        && words[SV_RECORD_SHORT] <= 1
        && words[SV_RECORD_COMPRESSED] <= 1
        && words[4..].iter().zip(field_limits(kind)).all(|(word, most)| word <= most)
}
