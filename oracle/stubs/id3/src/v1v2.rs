//! Stub. The crate's own file joins ID3v1 and ID3v2, which the oracle does not. Being a public module of the crate's lib.rs, it is
//! where the harness gets at functions that are private to the crate. Nothing here decides anything: each function calls one of theirs.
use crate::stream::{ends, frame, tag, unsynch};
use crate::{Encoding, Frame, Version};
use std::io::Read;

pub use crate::stream::tag::Opened;

/// `Header::decode`; the reader stands after the extended header then.
pub fn open(reader: &mut &[u8]) -> crate::Result<Opened> {
    tag::open(reader)
}

/// One frame by `v2::decode`, `v3::decode` or `v4::decode`: the bytes that it says it took, and the frame.
pub fn frame(version: Version, reader: &mut &[u8]) -> crate::Result<Option<(usize, Frame)>> {
    match version {
        Version::Id3v22 => frame::v2::decode(reader),
        Version::Id3v23 => frame::v3::decode(reader),
        Version::Id3v24 => frame::v4::decode(reader),
    }
}

/// `frame::encode` without unsynchronisation, as chapters call it.
pub fn encoded(version: Version, frame: &Frame) -> crate::Result<Vec<u8>> {
    let mut out = Vec::new();
    frame::encode(&mut out, frame, version, false)?;
    Ok(out)
}

/// All bytes of `unsynch::Reader`.
pub fn resynchronised(bytes: &[u8]) -> Vec<u8> {
    let mut out = Vec::new();
    unsynch::Reader::new(bytes)
        .read_to_end(&mut out)
        .expect("a slice has no read errors");
    out
}

/// Whether `frame::str_from_utf8` takes an id.
pub fn is_utf8(id: &[u8]) -> bool {
    frame::str_from_utf8(id).is_ok()
}

/// Where `text_content` ends a text.
pub fn text_end(version: Version, encoding: Encoding, data: &[u8]) -> usize {
    ends::text_end(version, encoding, data)
}

/// `Encoding::decode`.
pub fn decode_text(encoding: Encoding, bytes: &[u8]) -> crate::Result<String> {
    encoding.decode(bytes)
}

/// `Encoding::encode`.
pub fn encode_text(encoding: Encoding, text: &str) -> Vec<u8> {
    encoding.encode(text)
}
