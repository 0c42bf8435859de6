//! The damaged files: tags that the library wrote, and one thing done to each.

use super::{add_popularimeter, add_title, file, id, set_size, PADDING, SOUND};
use streamvault::{Content, Mode, Reader, Refusal, Version, Writer};

/// The frames of each song, by their numbers.
const FIRST: usize = 1;
const PICTURE: usize = 2;
const LAST: usize = 3;

/// Every file by its name, without the ending.
pub fn files() -> Result<Vec<(String, Vec<u8>)>, Refusal> {
    let mut files = Vec::new();
    for version in [Version::Id3v22, Version::Id3v23, Version::Id3v24] {
        for (name, bytes) in cut(version)? {
            files.push((format!("cut-{name}-{version}"), bytes));
        }
        for (name, bytes) in behind_frames(version)? {
            files.push((format!("{name}-{version}"), bytes));
        }
    }
    let others = [cut_otherwise()?, unsynchronised_behind_frames()?, refused()?, compressed()?, with_further_tags()?];
    files.extend(others.into_iter().flatten().map(|(name, bytes)| (name.to_string(), bytes)));
    Ok(files)
}

/// Files of one sort.
type Named = Vec<(&'static str, Vec<u8>)>;

/// A tag with a title, a popularimeter, a picture, another popularimeter and padding.
fn song(version: Version, mode: Mode, padding: usize) -> Result<Vec<u8>, Refusal> {
    let mut writer = Writer::new(version).mode(mode);
    add_title(&mut writer, "Song")?;
    add_popularimeter(&mut writer, b"room 1", 7)?;
    writer.add(id(version, b"PIC", b"APIC"), &Content::Raw { body: picture(version) })?;
    add_popularimeter(&mut writer, b"room 2", 300)?;
    writer.finish(padding)
}

/// The head of a picture, with bytes that standard mode unsynchronises.
fn picture(version: Version) -> Vec<u8> {
    let head = if version == Version::Id3v22 { &b"\0JPG\x03\0"[..] } else { b"\0image/jpeg\0\x03\0" };
    [head, b"\xFF\xD8\xFF\xE0\0\x10JFIF\0\x01\x02\x01\0\x48\0\x48\0\0\xFF\xDB\0\x43"].concat()
}

/// Where the header of a frame lies in a song of mode off.
fn place(tag: &[u8], number: usize) -> Result<usize, Refusal> {
    let mut reader = Reader::open(tag, Vec::new())?;
    let mut at = 0;
    for _ in 0..=number {
        at = reader.next_frame().expect("a song has this frame")?.at;
    }
    Ok(10 + at)
}

/// An upload that stopped, at each sort of place.
fn cut(version: Version) -> Result<Named, Refusal> {
    let whole = song(version, Mode::Off, PADDING)?;
    let (picture, last) = (place(&whole, PICTURE)?, place(&whole, LAST)?);
    let upto = |len: usize| whole[..len].to_vec();
    Ok(vec![
        ("between-frames", upto(last)),
        ("in-frame-header", upto(last + 4)),
        ("in-picture", upto(picture + 30)),
        ("in-popularimeter", upto(whole.len() - PADDING - 1)),
        ("in-padding", upto(whole.len() - 3)),
    ])
}

/// Cuts that are not one in each edition, and a frame that is short although no byte is missing.
fn cut_otherwise() -> Result<Named, Refusal> {
    let most = |tag: Vec<u8>| tag[..tag.len() * 2 / 3].to_vec();
    let mut long = song(Version::Id3v24, Mode::Off, 0)?;
    let last = place(&long, LAST)?;
    long[last + 7] += 1;
    Ok(vec![
        ("cut-at-once", Vec::new()),
        ("cut-in-first-letters", b"ID".to_vec()),
        ("cut-in-tag-header", song(Version::Id3v24, Mode::Off, PADDING)?[..7].to_vec()),
        ("cut-in-extended-header", b"ID3\x03\0\x40\0\0\0\x40\0\0\0\x06".to_vec()),
        ("cut-unsynchronised-2.3", most(song(Version::Id3v23, Mode::Standard, PADDING)?)),
        ("cut-unsynchronised-2.4", most(song(Version::Id3v24, Mode::Standard, PADDING)?)),
        ("short-frame", file(&long)),
    ])
}

/// Frames that are no more looked at: the size in the tag's header is too small, or there is padding before a frame.
fn behind_frames(version: Version) -> Result<Named, Refusal> {
    let mut small = song(version, Mode::Off, 0)?;
    let last = place(&small, LAST)?;
    let padded = padded_before(last, small.clone());
    set_size(&mut small, last + 2);
    Ok(vec![("small-size", file(&small)), ("behind-padding", file(&padded))])
}

/// The same in a tag that is resynchronised as a whole.
fn unsynchronised_behind_frames() -> Result<Named, Refusal> {
    let whole = song(Version::Id3v23, Mode::Standard, 0)?;
    let last = whole.windows(4).rposition(|four| four == b"POPM").expect("a song has a popularimeter");
    let padded = padded_before(last, whole);
    Ok(vec![("behind-padding-unsynchronised", file(&padded))])
}

/// A tag with padding before the frame at this place.
fn padded_before(frame: usize, mut tag: Vec<u8>) -> Vec<u8> {
    tag.splice(frame..frame, [0; PADDING]);
    let len = tag.len();
    set_size(&mut tag, len);
    tag
}

/// Tags that the library refuses: of an edition that is none, with an encrypted frame, with a counter that is too large.
fn refused() -> Result<Named, Refusal> {
    let mut unknown = song(Version::Id3v24, Mode::Off, PADDING)?;
    unknown[3] = 5;
    let mut encrypted = song(Version::Id3v24, Mode::Off, PADDING)?;
    let picture = place(&encrypted, PICTURE)?;
    encrypted[picture + 9] = 0x04;
    Ok(vec![
        ("refused-edition", file(&unknown)),
        ("refused-encrypted", file(&encrypted)),
        ("refused-counter", file(&with_large_counter()?)),
    ])
}

/// A song whose last counter has seven more bytes in front: nine, none of them 0, which 64 bits do not hold.
fn with_large_counter() -> Result<Vec<u8>, Refusal> {
    let mut tag = song(Version::Id3v24, Mode::Off, PADDING)?;
    let (last, counter) = (place(&tag, LAST)?, tag.len() - PADDING - 2);
    tag.splice(counter..counter, [1; 7]);
    tag[last + 7] += 7;
    let len = tag.len();
    set_size(&mut tag, len);
    Ok(tag)
}

/// A popularimeter that is marked as compressed.
fn compressed() -> Result<Named, Refusal> {
    let mut three = song(Version::Id3v23, Mode::Off, PADDING)?;
    let first = place(&three, FIRST)?;
    // the first four bytes of its body are then the length that it has once it is unpacked
    three[first + 9] = 0x80;
    let mut four = song(Version::Id3v24, Mode::Off, PADDING)?;
    four[first + 9] = 0x08;
    Ok(vec![("compressed-2.3", file(&three)), ("compressed-2.4", file(&four))])
}

/// Files with more than one tag, or with one at the end alone.
fn with_further_tags() -> Result<Named, Refusal> {
    let front = song(Version::Id3v24, Mode::Off, PADDING)?;
    let footed = with_footer(song(Version::Id3v24, Mode::Off, 0)?);
    let second = song(Version::Id3v23, Mode::Off, PADDING)?;
    let mut id3v1 = b"TAG".to_vec();
    id3v1.resize(128, b' ');
    Ok(vec![
        ("second-tag", [&front[..], &second, &SOUND].concat()),
        ("second-tag-behind-footer", [&footed[..], &second, &SOUND].concat()),
        ("tag-at-end", [&front[..], &SOUND, &footed].concat()),
        ("tag-at-end-before-id3v1", [&front[..], &SOUND, &footed, &id3v1].concat()),
        ("tag-at-end-alone", [&SOUND[..], &footed].concat()),
    ])
}

/// A 2.4 tag with a footer after it: its header again, in other letters.
fn with_footer(mut tag: Vec<u8>) -> Vec<u8> {
    tag[5] |= 0x10;
    let header = tag[3..10].to_vec();
    [&tag[..], b"3DI", &header].concat()
}
