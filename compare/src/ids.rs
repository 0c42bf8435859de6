//! What document 01 says of ids, and what the comparison needs to know of the crate's.
use oracle::Version;

/// A record's kind, numbered as in the C interface.
#[derive(Clone, Copy, Debug, PartialEq, Eq)]
#[allow(missing_docs)]
pub enum Kind {
    Text = 0,
    Popularimeter = 1,
    Table = 2,
    Chapter = 3,
    Contents = 4,
    Raw = 5,
}

/// The kind of an id.
pub fn kind_of(edition: u8, id: &[u8]) -> Kind {
    match id {
        b"TXXX" | b"TXX" => Kind::Raw,
        [b'T', ..] => Kind::Text,
        b"POPM" | b"POP" => Kind::Popularimeter,
        b"MLLT" | b"MLL" => Kind::Table,
        b"CHAP" if edition > 2 => Kind::Chapter,
        b"CTOC" if edition > 2 => Kind::Contents,
        _ => Kind::Raw,
    }
}

/// Three characters of A-Z and 0-9 in 2.2, else four.
pub fn is_id(edition: u8, id: &[u8]) -> bool {
    id.len() == id_len(edition) && id.iter().all(|c| c.is_ascii_uppercase() || c.is_ascii_digit())
}

/// Bytes of an id.
pub fn id_len(edition: u8) -> usize {
    if edition == 2 {
        3
    } else {
        4
    }
}

/// Bytes of a frame header.
pub fn head_len(edition: u8) -> usize {
    if edition == 2 {
        6
    } else {
        10
    }
}

/// The ids that the crate takes for lists of people, and that are texts here.
pub fn is_people(id: &[u8]) -> bool {
    id == b"TIPL" || id == b"TMCL"
}

/// The ids that an altered file loses.
pub fn is_lost(edition: u8, id: &[u8]) -> bool {
    const LOST3: [&[u8]; 10] = [b"CRA", b"ETC", b"EQU", b"MLL", b"SLT", b"STC", b"RVA", b"TEN", b"TLE", b"TSI"];
    const LOST4: [&[u8]; 11] =
        [b"AENC", b"ETCO", b"EQUA", b"MLLT", b"POSS", b"SYLT", b"SYTC", b"RVAD", b"TENC", b"TLEN", b"TSIZ"];
    if edition == 2 {
        LOST3.contains(&id)
    } else {
        LOST4.contains(&id)
    }
}

/// Whether a frame's flags say that its body is compressed.
pub fn is_compressed(edition: u8, flags: u16) -> bool {
    match edition {
        3 => flags & 0x80 != 0,
        4 => flags & 0x08 != 0,
        _ => false,
    }
}

/// The refusal of a table's widths, or 0.
pub fn widths_refusal(a: u8, b: u8) -> u32 {
    let good = 1..=32;
    if !good.contains(&a) || !good.contains(&b) {
        30
    } else if (a + b) % 4 != 0 {
        31
    } else {
        0
    }
}

/// The edition's number.
pub fn edition_of(version: Version) -> u8 {
    version.minor()
}

/// The crate's name for an edition.
pub fn version_of(edition: u8) -> Version {
    match edition {
        2 => Version::Id3v22,
        3 => Version::Id3v23,
        _ => Version::Id3v24,
    }
}

/// A run of frames as a tag of its own.
pub fn wrapped(edition: u8, run: &[u8]) -> Vec<u8> {
    let n = run.len();
    let mut out = vec![b'I', b'D', b'3', edition, 0, 0];
    out.extend([(n >> 21) as u8, (n >> 14) as u8 & 0x7F, (n >> 7) as u8 & 0x7F, n as u8 & 0x7F]);
    out.extend(run);
    out
}

/// A plain frame around a body.
pub fn framed(edition: u8, id: &[u8], body: &[u8]) -> Vec<u8> {
    let n = body.len();
    let mut out = id.to_vec();
    match edition {
        2 => out.extend(&(n as u32).to_be_bytes()[1..]),
        3 => out.extend((n as u32).to_be_bytes()),
        _ => out.extend([(n >> 21) as u8, (n >> 14) as u8 & 0x7F, (n >> 7) as u8 & 0x7F, n as u8 & 0x7F]),
    }
    if edition > 2 {
        out.extend([0, 0]);
    }
    out.extend(body);
    out
}
