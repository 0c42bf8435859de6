//! The C interface over slices: one safe function for each exported one, with its words and its numbers.
//!
//! Each exported function has a contract without conditions: whatever it is lent, it stays inside the slices and answers.
//! Rust's rules for references give the one thing that C has to see to, that a slice which a call may change overlaps no
//! other. So these functions are safe. The rest of the crate is built on them; use them where words are wanted.
//!
//! ```
//! use streamvault::{calls, sys};
//!
//! let tag = b"ID3\x04\0\0\0\0\0\x12POPM\0\0\0\x08\0\0a\0\x05\x01\0\0\0\0";
//! let mut reader = [0; sys::SV_READER_WORDS];
//! let mut record = [0; sys::SV_RECORD_WORDS];
//! assert_eq!(calls::open(tag, &mut [], &mut reader), 0);
//! assert_eq!(calls::step(tag, &mut [], &mut reader, &mut record), 0);
//! assert_eq!(record[sys::SV_POPULARIMETER_COUNTER], 4_294_967_296);
//! assert_eq!(calls::step(tag, &mut [], &mut reader, &mut record), sys::SV_END);
//! ```

use crate::sys;

/// The fields of the header at the front of a tag.
pub fn header(tag: &[u8], header: &mut [u64]) -> u32 {
    // SAFETY: pointers and lengths are those of live slices, and only `header` is written.
    unsafe { sys::sv_header(tag.as_ptr(), tag.len(), header.as_mut_ptr(), header.len()) }
}

/// Opens a tag: a reader at its first frame.
pub fn open(tag: &[u8], work: &mut [u8], reader: &mut [u64]) -> u32 {
    // SAFETY: pointers and lengths are those of live slices, and those written are borrowed alone.
    unsafe { sys::sv_open(tag.as_ptr(), tag.len(), work.as_mut_ptr(), work.len(), reader.as_mut_ptr(), reader.len()) }
}

/// The next frame as a record, or [`sys::SV_END`].
pub fn step(tag: &[u8], work: &mut [u8], reader: &mut [u64], record: &mut [u64]) -> u32 {
    // SAFETY: pointers and lengths are those of live slices, and those written are borrowed alone.
    unsafe {
        sys::sv_step(
            tag.as_ptr(),
            tag.len(),
            work.as_mut_ptr(),
            work.len(),
            reader.as_mut_ptr(),
            reader.len(),
            record.as_mut_ptr(),
            record.len(),
        )
    }
}

/// Opens a tag for its counters alone: a meter at its first frame.
pub fn meter_open(tag: &[u8], work: &mut [u8], meter: &mut [u64]) -> u32 {
    // SAFETY: pointers and lengths are those of live slices, and those written are borrowed alone.
    unsafe {
        sys::sv_meter_open(tag.as_ptr(), tag.len(), work.as_mut_ptr(), work.len(), meter.as_mut_ptr(), meter.len())
    }
}

/// The next whole popularimeter, or [`sys::SV_END`].
pub fn meter_next(tag: &[u8], work: &mut [u8], meter: &mut [u64], metered: &mut [u64]) -> u32 {
    // SAFETY: pointers and lengths are those of live slices, and those written are borrowed alone.
    unsafe {
        sys::sv_meter_next(
            tag.as_ptr(),
            tag.len(),
            work.as_mut_ptr(),
            work.len(),
            meter.as_mut_ptr(),
            meter.len(),
            metered.as_mut_ptr(),
            metered.len(),
        )
    }
}

/// All deviations of a lookup table, two by two, from its packed references.
pub fn references(record: &[u64], rest: &[u8], deviations: &mut [u32], count: &mut [u64]) -> u32 {
    // SAFETY: pointers and lengths are those of live slices, and those written are borrowed alone.
    unsafe {
        sys::sv_references(
            record.as_ptr(),
            record.len(),
            rest.as_ptr(),
            rest.len(),
            deviations.as_mut_ptr(),
            deviations.len(),
            count.as_mut_ptr(),
            count.len(),
        )
    }
}

/// Begins a writer with no frames.
pub fn begin(version: u64, mode: u64, altered: u64, writer: &mut [u64]) -> u32 {
    // SAFETY: pointer and length are those of a live slice that is borrowed alone.
    unsafe { sys::sv_begin(version, mode, altered, writer.as_mut_ptr(), writer.len()) }
}

/// Begins a writer with no frames and no mode, for a file that is not altered.
pub fn begin_plain(version: u64, writer: &mut [u64]) -> u32 {
    // SAFETY: pointer and length are those of a live slice that is borrowed alone.
    unsafe { sys::sv_begin_plain(version, writer.as_mut_ptr(), writer.len()) }
}

/// A record to be written: its words, and its bytes apart. Those that its kind lacks are not looked at.
#[derive(Clone, Copy, Debug)]
pub struct Given<'a> {
    /// The words of the record.
    pub record: &'a [u64],
    /// The user or the element id.
    pub name: &'a [u8],
    /// The children, each closed by a zero.
    pub names: &'a [u8],
    /// The text, the run of subframes or the raw body.
    pub rest: &'a [u8],
    /// The deviations of a lookup table, two by two.
    pub deviations: &'a [u32],
}

/// Appends a record as one frame to the collecting buffer.
pub fn add(given: Given<'_>, buffer: &mut [u8], writer: &mut [u64], count: &mut [u64]) -> u32 {
    // SAFETY: pointers and lengths are those of live slices, and those written are borrowed alone.
    unsafe {
        sys::sv_add(
            given.record.as_ptr(),
            given.record.len(),
            given.name.as_ptr(),
            given.name.len(),
            given.names.as_ptr(),
            given.names.len(),
            given.rest.as_ptr(),
            given.rest.len(),
            given.deviations.as_ptr(),
            given.deviations.len(),
            buffer.as_mut_ptr(),
            buffer.len(),
            writer.as_mut_ptr(),
            writer.len(),
            count.as_mut_ptr(),
            count.len(),
        )
    }
}

/// Writes the tag to the output buffer: header, frames, padding.
pub fn finish(padding: u64, buffer: &[u8], output: &mut [u8], writer: &[u64], count: &mut [u64]) -> u32 {
    // SAFETY: pointers and lengths are those of live slices, and those written are borrowed alone.
    unsafe {
        sys::sv_finish(
            padding,
            buffer.as_ptr(),
            buffer.len(),
            output.as_mut_ptr(),
            output.len(),
            writer.as_ptr(),
            writer.len(),
            count.as_mut_ptr(),
            count.len(),
        )
    }
}

/// Adds an amount to the counter of a user's popularimeter, in place.
pub fn raise(tag: &mut [u8], user: &[u8], amount: u64, counter: &mut [u64]) -> u32 {
    // SAFETY: pointers and lengths are those of live slices, and those written are borrowed alone.
    unsafe {
        sys::sv_raise(
            tag.as_mut_ptr(),
            tag.len(),
            user.as_ptr(),
            user.len(),
            amount,
            counter.as_mut_ptr(),
            counter.len(),
        )
    }
}

/// Puts a record as a frame in the place of the frame of this number.
pub fn replace(tag: &mut [u8], number: u64, given: Given<'_>) -> u32 {
    // SAFETY: pointers and lengths are those of live slices, and `tag` is borrowed alone.
    unsafe {
        sys::sv_replace(
            tag.as_mut_ptr(),
            tag.len(),
            number,
            given.record.as_ptr(),
            given.record.len(),
            given.name.as_ptr(),
            given.name.len(),
            given.names.as_ptr(),
            given.names.len(),
            given.rest.as_ptr(),
            given.rest.len(),
            given.deviations.as_ptr(),
            given.deviations.len(),
        )
    }
}

/// Takes the frame of this number away.
pub fn remove(tag: &mut [u8], number: u64) -> u32 {
    // SAFETY: pointer and length are those of a live slice that is borrowed alone.
    unsafe { sys::sv_remove(tag.as_mut_ptr(), tag.len(), number) }
}

/// Puts a record as a frame after the last.
pub fn append(tag: &mut [u8], given: Given<'_>) -> u32 {
    // SAFETY: pointers and lengths are those of live slices, and `tag` is borrowed alone.
    unsafe {
        sys::sv_append(
            tag.as_mut_ptr(),
            tag.len(),
            given.record.as_ptr(),
            given.record.len(),
            given.name.as_ptr(),
            given.name.len(),
            given.names.as_ptr(),
            given.names.len(),
            given.rest.as_ptr(),
            given.rest.len(),
            given.deviations.as_ptr(),
            given.deviations.len(),
        )
    }
}

/// Adds an amount to the counter of a user's popularimeter, in place or in a longer frame.
pub fn lift(tag: &mut [u8], user: &[u8], amount: u64, counter: &mut [u64]) -> u32 {
    // SAFETY: pointers and lengths are those of live slices, and those written are borrowed alone.
    unsafe {
        sys::sv_lift(
            tag.as_mut_ptr(),
            tag.len(),
            user.as_ptr(),
            user.len(),
            amount,
            counter.as_mut_ptr(),
            counter.len(),
        )
    }
}
