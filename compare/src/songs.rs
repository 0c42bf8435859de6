//! Tags as a box leaves them and as a shop sells them.
use streamvault::{Content, Encoding, Id, Mode, Version, Writer};

/// The id that an edition has for a frame.
fn id(version: Version, three: &[u8; 3], four: &[u8; 4]) -> Id {
    if version == Version::Id3v22 {
        three.into()
    } else {
        four.into()
    }
}

/// As a box leaves it: some texts, a popularimeter, a private frame (in 2.2 an identifier).
pub fn box_tag(version: Version, mode: Mode, user: &[u8], counter: u64) -> Vec<u8> {
    let mut writer = Writer::new(version).mode(mode);
    let text = |text| Content::Text { encoding: Encoding::Latin1, text };
    writer.add(id(version, b"TT2", b"TIT2"), &text(&b"A song of some length"[..])).unwrap();
    writer.add(id(version, b"TP1", b"TPE1"), &text(b"Somebody")).unwrap();
    writer.add(id(version, b"POP", b"POPM"), &Content::Popularimeter { user, rating: 3, counter }).unwrap();
    let mut private = b"owner\0".to_vec();
    private.resize(200, 7);
    writer.add(id(version, b"UFI", b"PRIV"), &Content::Raw { body: private }).unwrap();
    writer.finish(64).unwrap()
}

/// The texts of a sold tag.
const TEXTS: [(&[u8; 3], &[u8; 4]); 10] = [
    (b"TT2", b"TIT2"),
    (b"TP1", b"TPE1"),
    (b"TAL", b"TALB"),
    (b"TP2", b"TPE2"),
    (b"TCM", b"TCOM"),
    (b"TRK", b"TRCK"),
    (b"TPB", b"TPUB"),
    (b"TEN", b"TENC"),
    (b"TBP", b"TBPM"),
    (b"TCO", b"TCON"),
];

/// As a shop sells it: ten texts in UTF-16, a comment, a picture of 4 KiB, and a popularimeter.
pub fn sold_tag(version: Version, user: &[u8], counter: u64) -> Vec<u8> {
    let mut writer = Writer::new(version);
    for (three, four) in TEXTS {
        let text = "\u{FEFF}17 Some words of it".encode_utf16().flat_map(u16::to_le_bytes).collect::<Vec<u8>>();
        writer.add(id(version, three, four), &Content::Text { encoding: Encoding::Utf16, text }).unwrap();
    }
    writer.add(id(version, b"COM", b"COMM"), &Content::Raw { body: b"\0eng\0A comment".to_vec() }).unwrap();
    let head = if version == Version::Id3v22 { &b"\0JPG\x03\0"[..] } else { b"\0image/jpeg\0\x03\0" };
    let mut picture = head.to_vec();
    picture.resize(4096, 7);
    writer.add(id(version, b"PIC", b"APIC"), &Content::Raw { body: picture }).unwrap();
    writer.add(id(version, b"POP", b"POPM"), &Content::Popularimeter { user, rating: 3, counter }).unwrap();
    writer.finish(64).unwrap()
}
