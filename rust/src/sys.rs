//! The C interface as it is: the only declarations of it in Rust, beside `include/streamvault.h`.
//!
//! `tests/declarations.rs` holds the two and the library's source against each other. Each function is declared here once
//! and called once, in [`calls`](crate::calls), where slices take the place of pointers.

extern "C" {
    /// The fields of the header at the front of a tag.
    pub fn sv_header(tag: *const u8, tag_len: usize, header: *mut u64, header_len: usize) -> u32;

    /// Opens a tag.
    pub fn sv_open(
        tag: *const u8,
        tag_len: usize,
        work: *mut u8,
        work_len: usize,
        reader: *mut u64,
        reader_len: usize,
    ) -> u32;

    /// The next frame as a record, or [`SV_END`].
    pub fn sv_step(
        tag: *const u8,
        tag_len: usize,
        work: *mut u8,
        work_len: usize,
        reader: *mut u64,
        reader_len: usize,
        record: *mut u64,
        record_len: usize,
    ) -> u32;

    /// Opens a tag for its counters alone.
    pub fn sv_meter_open(
        tag: *const u8,
        tag_len: usize,
        work: *mut u8,
        work_len: usize,
        meter: *mut u64,
        meter_len: usize,
    ) -> u32;

    /// The next whole popularimeter, or [`SV_END`].
    pub fn sv_meter_next(
        tag: *const u8,
        tag_len: usize,
        work: *mut u8,
        work_len: usize,
        meter: *mut u64,
        meter_len: usize,
        metered: *mut u64,
        metered_len: usize,
    ) -> u32;

    /// All deviations of a lookup table, two by two.
    pub fn sv_references(
        record: *const u64,
        record_len: usize,
        rest: *const u8,
        rest_len: usize,
        deviations: *mut u32,
        deviations_len: usize,
        count: *mut u64,
        count_len: usize,
    ) -> u32;

    /// Begins a writer.
    pub fn sv_begin(version: u64, mode: u64, altered: u64, writer: *mut u64, writer_len: usize) -> u32;

    /// Begins a writer with [`SV_MODE_OFF`], not altered.
    pub fn sv_begin_plain(version: u64, writer: *mut u64, writer_len: usize) -> u32;

    /// Appends a record as one frame to the collecting buffer.
    pub fn sv_add(
        record: *const u64,
        record_len: usize,
        name: *const u8,
        name_len: usize,
        names: *const u8,
        names_len: usize,
        rest: *const u8,
        rest_len: usize,
        deviations: *const u32,
        deviations_len: usize,
        buffer: *mut u8,
        buffer_len: usize,
        writer: *mut u64,
        writer_len: usize,
        count: *mut u64,
        count_len: usize,
    ) -> u32;

    /// Writes the tag to the output buffer.
    pub fn sv_finish(
        padding: u64,
        buffer: *const u8,
        buffer_len: usize,
        output: *mut u8,
        output_len: usize,
        writer: *const u64,
        writer_len: usize,
        count: *mut u64,
        count_len: usize,
    ) -> u32;

    /// Adds an amount to a counter in a tag, in place.
    pub fn sv_raise(
        tag: *mut u8,
        tag_len: usize,
        user: *const u8,
        user_len: usize,
        amount: u64,
        counter: *mut u64,
        counter_len: usize,
    ) -> u32;

    /// Puts a record as a frame in the place of another in a tag.
    pub fn sv_replace(
        tag: *mut u8,
        tag_len: usize,
        number: u64,
        record: *const u64,
        record_len: usize,
        name: *const u8,
        name_len: usize,
        names: *const u8,
        names_len: usize,
        rest: *const u8,
        rest_len: usize,
        deviations: *const u32,
        deviations_len: usize,
    ) -> u32;

    /// Takes a frame away from a tag.
    pub fn sv_remove(tag: *mut u8, tag_len: usize, number: u64) -> u32;

    /// Puts a record as a frame after the last of a tag.
    pub fn sv_append(
        tag: *mut u8,
        tag_len: usize,
        record: *const u64,
        record_len: usize,
        name: *const u8,
        name_len: usize,
        names: *const u8,
        names_len: usize,
        rest: *const u8,
        rest_len: usize,
        deviations: *const u32,
        deviations_len: usize,
    ) -> u32;

    /// Adds an amount to a counter in a tag, in place or in a longer frame.
    pub fn sv_lift(
        tag: *mut u8,
        tag_len: usize,
        user: *const u8,
        user_len: usize,
        amount: u64,
        counter: *mut u64,
        counter_len: usize,
    ) -> u32;
}

// ---- answers besides 0

/// A step: there is no further frame. A meter: there is no further popularimeter.
pub const SV_END: u32 = 256;

/// The refusal numbers, each with its meaning, which [`Refusal`](crate::Refusal) prints.
macro_rules! refusals {
    ($(#[doc = $meaning:literal] pub const $name:ident: u32 = $number:literal;)*) => {
        $(#[doc = $meaning] pub const $name: u32 = $number;)*

        /// Every refusal number with its meaning.
        pub(crate) const MEANINGS: &[(u32, &str)] = &[$(($number, $meaning)),*];
    };
}

refusals! {
    /// fewer than ten bytes, or they do not begin with "ID3"
    pub const SV_NO_TAG: u32 = 1;
    /// the edition is not 2.2, 2.3 or 2.4; or a version, mode, mark or state that is none
    pub const SV_UNKNOWN_VERSION: u32 = 2;
    /// one of the low four flag bits of the tag header is set
    pub const SV_UNKNOWN_FLAGS: u32 = 3;
    /// a 2.2 tag that is compressed as a whole
    pub const SV_COMPRESSED_TAG: u32 = 4;
    /// bytes are missing: of the extended header, of a data length, or of a 2.3 body
    pub const SV_MISSING_BYTES: u32 = 5;
    /// the extended header's size is below 6
    pub const SV_SMALL_EXTENDED_HEADER: u32 = 6;
    /// a frame's id is not UTF-8
    pub const SV_ID_NOT_UTF8: u32 = 7;
    /// a frame is encrypted
    pub const SV_ENCRYPTED: u32 = 8;
    /// a frame belongs to a group
    pub const SV_GROUPED: u32 = 9;
    /// a 2.3 frame with a data length has a size below 4
    pub const SV_SMALL_FRAME: u32 = 10;
    /// a field of a frame's body is missing
    pub const SV_MISSING_FIELD: u32 = 11;
    /// a text's encoding is over 3
    pub const SV_UNKNOWN_ENCODING: u32 = 12;
    /// frames lie inside one another at depth 9
    pub const SV_TOO_DEEP: u32 = 13;
    /// the work buffer does not hold what is to be resynchronised
    pub const SV_WORK_TOO_SMALL: u32 = 14;
    /// the result is longer than the room lent, or a buffer is shorter than what it has to hold
    pub const SV_NO_ROOM: u32 = 20;
    /// the id is not 3 (2.2) or 4 characters of A-Z and 0-9, or not of the record's kind; or no record
    pub const SV_WRONG_ID: u32 = 21;
    /// a 2.2 body is empty
    pub const SV_EMPTY_BODY: u32 = 22;
    /// a 2.2 body is over 16,777,215 bytes
    pub const SV_LONG_BODY: u32 = 23;
    /// a stored body, or the frames with the padding, have 2^28 bytes or more
    pub const SV_TOO_LONG: u32 = 24;
    /// a raw record under an id of a kind, or a record marked short or compressed
    pub const SV_NOT_WRITABLE: u32 = 25;
    /// a reader would end the text early
    pub const SV_TEXT_ENDS_EARLY: u32 = 26;
    /// the user or the element id holds a zero
    pub const SV_ZERO_IN_NAME: u32 = 27;
    /// over 255 children, or some are given and do not end in a zero
    pub const SV_WRONG_CHILDREN: u32 = 28;
    /// the run of subframes is refused, short, padded, not used up, too deep or unsynchronised
    pub const SV_WRONG_RUN: u32 = 29;
    /// a width of a lookup table is not 1 to 32
    pub const SV_WRONG_WIDTH: u32 = 30;
    /// the widths' sum is no multiple of 4
    pub const SV_WIDTHS_NOT_IN_FOURS: u32 = 31;
    /// the widths' sum is over 64
    pub const SV_WIDTHS_OVER_64: u32 = 32;
    /// a deviation lacks its pair or does not fit its width, or a step is 2^24 or more
    pub const SV_WRONG_DEVIATION: u32 = 33;
    /// the widths sum to 4 and the references are odd in number
    pub const SV_ODD_REFERENCES: u32 = 34;
    /// a popularimeter's counter does not fit 64 bits
    pub const SV_COUNTER_TOO_LARGE: u32 = 35;
    /// the tag is not plain: cut, extended, unsynchronised, a frame compressed or short, or padding not zero
    pub const SV_NOT_PLAIN: u32 = 40;
    /// no popularimeter of the top level has this user
    pub const SV_USER_ABSENT: u32 = 41;
    /// two or more popularimeters of the top level have this user
    pub const SV_USER_TWICE: u32 = 42;
    /// the counter and the amount sum to more than 64 bits hold
    pub const SV_SUM_TOO_LARGE: u32 = 43;
    /// the counter has too few bytes for the sum
    pub const SV_COUNTER_TOO_SHORT: u32 = 44;
    /// the tag has no frame of this number
    pub const SV_NO_SUCH_FRAME: u32 = 46;
}

// ---- the words of a header

/// Words of a header.
pub const SV_HEADER_WORDS: usize = 4;
/// 2, 3 or 4, for 2.2, 2.3 and 2.4.
pub const SV_HEADER_VERSION: usize = 0;
/// The flag byte.
pub const SV_HEADER_FLAGS: usize = 1;
/// Bytes of the tag after its ten header bytes.
pub const SV_HEADER_SIZE: usize = 2;
/// The extended header's size, 0 without one.
pub const SV_HEADER_EXT: usize = 3;

// ---- the words of a reader

/// Words of a reader.
pub const SV_READER_WORDS: usize = 7;
/// 2, 3 or 4.
pub const SV_READER_VERSION: usize = 0;
/// 1 where the frames lie in the work buffer, 0 where they lie in the tag.
pub const SV_READER_IN_WORK: usize = 1;
/// The place of the first frame byte in that buffer.
pub const SV_READER_BEGIN: usize = 2;
/// The place of the next frame.
pub const SV_READER_AT: usize = 3;
/// The place after the last frame byte.
pub const SV_READER_END: usize = 4;
/// One of `SV_STOP_..`.
pub const SV_READER_STOP: usize = 5;
/// The refusal, where the reader was refused; else 0.
pub const SV_READER_NUMBER: usize = 6;

// ---- whether a reader or a meter goes on

/// It goes on.
pub const SV_STOP_RUNNING: u64 = 0;
/// It has met the end.
pub const SV_STOP_ENDED: u64 = 1;
/// It was refused.
pub const SV_STOP_REFUSED: u64 = 2;

// ---- the words of a meter: a reader's, and what it passed

/// Words of a meter.
pub const SV_METER_WORDS: usize = 11;
/// As of a reader.
pub const SV_METER_VERSION: usize = 0;
/// As of a reader.
pub const SV_METER_IN_WORK: usize = 1;
/// As of a reader.
pub const SV_METER_BEGIN: usize = 2;
/// As of a reader.
pub const SV_METER_AT: usize = 3;
/// As of a reader.
pub const SV_METER_END: usize = 4;
/// As of a reader.
pub const SV_METER_STOP: usize = 5;
/// As of a reader.
pub const SV_METER_NUMBER: usize = 6;
/// Frames passed so far, modulo 2^64.
pub const SV_METER_FRAMES: usize = 7;
/// 1 where one of them was short.
pub const SV_METER_SHORT: usize = 8;
/// 1 where one of them was a compressed frame under a popularimeter's id.
pub const SV_METER_COMPRESSED: usize = 9;
/// 1 where the tag has fewer bytes than its header says.
pub const SV_METER_MISSING: usize = 10;

// ---- the words of a popularimeter that was metered

/// Words of a popularimeter that was metered.
pub const SV_METERED_WORDS: usize = 6;
/// 1 where the user lies in the work buffer, 0 where it lies in the tag.
pub const SV_METERED_IN_WORK: usize = 0;
/// The user: its first byte.
pub const SV_METERED_USER_START: usize = 1;
/// The user: its length.
pub const SV_METERED_USER_LEN: usize = 2;
/// The rating.
pub const SV_METERED_RATING: usize = 3;
/// The counter, of any number of bytes; one that does not fit 64 bits is refused.
pub const SV_METERED_COUNTER: usize = 4;
/// The number of its frame, from 0.
pub const SV_METERED_FRAME: usize = 5;

// ---- the words of a record, read or to be written

/// Words of a record.
pub const SV_RECORD_WORDS: usize = 19;
/// One of `SV_KIND_..`.
pub const SV_RECORD_KIND: usize = 0;
/// The id's bytes as one number, highest first: POPM is 0x504F504D, POP is 0x504F50.
pub const SV_RECORD_ID: usize = 1;
/// 1 where the tag's end cuts the body.
pub const SV_RECORD_SHORT: usize = 2;
/// 1 where the body is compressed, and so shown as it is stored.
pub const SV_RECORD_COMPRESSED: usize = 3;
/// The first of five numbers, which have the names below by the record's kind.
pub const SV_RECORD_A: usize = 4;
/// The second number.
pub const SV_RECORD_B: usize = 5;
/// The third number.
pub const SV_RECORD_C: usize = 6;
/// The fourth number.
pub const SV_RECORD_D: usize = 7;
/// The fifth number.
pub const SV_RECORD_E: usize = 8;
/// The place of the frame's header, counted from the first frame byte.
pub const SV_RECORD_AT: usize = 9;
/// 1 where the parts below lie in the work buffer, 0 where they lie in the tag.
pub const SV_RECORD_IN_WORK: usize = 10;
/// The whole body: its first byte.
pub const SV_RECORD_BODY_START: usize = 11;
/// The whole body: its length.
pub const SV_RECORD_BODY_LEN: usize = 12;
/// The user or the element id: its first byte.
pub const SV_RECORD_NAME_START: usize = 13;
/// The user or the element id: its length.
pub const SV_RECORD_NAME_LEN: usize = 14;
/// The children, each closed by a zero: their first byte.
pub const SV_RECORD_NAMES_START: usize = 15;
/// The children: their length.
pub const SV_RECORD_NAMES_LEN: usize = 16;
/// The text, the packed references, the run of subframes or the raw body: its first byte.
pub const SV_RECORD_REST_START: usize = 17;
/// The rest: its length.
pub const SV_RECORD_REST_LEN: usize = 18;

// ---- the numbers of a record, by its kind; those that a kind lacks are 0 when read, and not looked at when written

/// A text: its encoding.
pub const SV_TEXT_ENCODING: usize = 4;
/// A popularimeter: its rating.
pub const SV_POPULARIMETER_RATING: usize = 4;
/// A popularimeter: its counter.
pub const SV_POPULARIMETER_COUNTER: usize = 5;
/// A table: frames between references.
pub const SV_TABLE_FRAMES: usize = 4;
/// A table: bytes between references.
pub const SV_TABLE_BYTES: usize = 5;
/// A table: milliseconds between references.
pub const SV_TABLE_MILLIS: usize = 6;
/// A table: bits of a deviation of bytes.
pub const SV_TABLE_BITS_FOR_BYTES: usize = 7;
/// A table: bits of a deviation of milliseconds.
pub const SV_TABLE_BITS_FOR_MILLIS: usize = 8;
/// A chapter: start in milliseconds.
pub const SV_CHAPTER_START_TIME: usize = 4;
/// A chapter: end in milliseconds.
pub const SV_CHAPTER_END_TIME: usize = 5;
/// A chapter: offset of its first byte.
pub const SV_CHAPTER_START_OFFSET: usize = 6;
/// A chapter: offset after its last byte.
pub const SV_CHAPTER_END_OFFSET: usize = 7;
/// A table of contents: 1 at the top level.
pub const SV_CONTENTS_TOP_LEVEL: usize = 4;
/// A table of contents: 1 where its children are in order.
pub const SV_CONTENTS_ORDERED: usize = 5;

// ---- the kinds of records

/// A text.
pub const SV_KIND_TEXT: u64 = 0;
/// A popularimeter.
pub const SV_KIND_POPULARIMETER: u64 = 1;
/// A lookup table.
pub const SV_KIND_TABLE: u64 = 2;
/// A chapter.
pub const SV_KIND_CHAPTER: u64 = 3;
/// A table of contents.
pub const SV_KIND_CONTENTS: u64 = 4;
/// Any other frame.
pub const SV_KIND_RAW: u64 = 5;

// ---- the words of a writer

/// Words of a writer.
pub const SV_WRITER_WORDS: usize = 4;
/// 2, 3 or 4.
pub const SV_WRITER_VERSION: usize = 0;
/// One of `SV_MODE_..`.
pub const SV_WRITER_MODE: usize = 1;
/// 1 where frames that an altered file loses are left out.
pub const SV_WRITER_ALTERED: usize = 2;
/// Bytes of the collecting buffer that hold frames.
pub const SV_WRITER_USED: usize = 3;

// ---- what is done against false synchronisation

/// Nothing is unsynchronised.
pub const SV_MODE_OFF: u64 = 0;
/// A zero goes in after FF before 00.
pub const SV_MODE_CRATE: u64 = 1;
/// A zero goes in after FF before 00 and E0 to FF.
pub const SV_MODE_STANDARD: u64 = 2;

// ---- the word of a count

/// Words of a count.
pub const SV_COUNT_WORDS: usize = 1;

// ---- the word of a counter

/// Words of a counter.
pub const SV_COUNTER_WORDS: usize = 1;
