//! Stub. Names the crate's own modules, and opens two of them from inside, their text taken as it stands.

pub mod encoding;
pub mod frame;
pub mod unsynch;

/// The crate's tag.rs, word for word, and below it what reaches its private header.
pub mod tag {
    include!("tag.rs");

    /// The fields of the private `Header`.
    #[derive(Copy, Clone, Debug, PartialEq, Eq)]
    pub struct Opened {
        /// Edition.
        pub version: Version,
        /// Flag byte.
        pub flags: u8,
        /// Size as decoded.
        pub size: u32,
        /// Size of the extended header, 0 without one.
        pub ext: u32,
        /// `Header::frame_bytes`.
        pub frame_bytes: u64,
    }

    /// `Header::decode`; the reader stands after the extended header then.
    pub fn open(reader: &mut &[u8]) -> crate::Result<Opened> {
        let header = Header::decode(reader)?;
        Ok(Opened {
            version: header.version,
            flags: header.flags.bits(),
            size: header.tag_size,
            ext: header.ext_header_size,
            frame_bytes: header.frame_bytes(),
        })
    }
}

/// A second copy of the crate's frame/content.rs, word for word, and below it what reaches its private functions.
#[allow(dead_code)]
pub mod ends {
    include!("frame/content.rs");

    /// Where `Decoder::text_content` ends a text, in bytes after the encoding byte.
    pub fn text_end(version: Version, encoding: Encoding, data: &[u8]) -> usize {
        match version {
            Version::Id3v24 => find_closing_delim(encoding, data),
            _ => find_delim(encoding, data, 0),
        }
        .unwrap_or(data.len())
    }
}
