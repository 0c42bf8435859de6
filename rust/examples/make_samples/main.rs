//! Makes the files below `samples/`: a month's folder that is read whole, songs with adverts, whose counters can be raised
//! or cannot, and files that are damaged.
//!
//!     cargo run --example make_samples -- ../samples
//!
//! `tests/samples.rs` holds the files there against what this makes.

mod damaged;

use std::path::{Path, PathBuf};
use std::{fs, io};
use streamvault::{Content, Encoding, Id, Mode, Refusal, Version, Writer};

/// What stands for the sound after a tag: the head of an MPEG frame, and silence.
const SOUND: [u8; 16] = [0xFF, 0xFB, 0x90, 0x64, 0, 0, 0, 0, 0, 0, 0, 0, 0, 0, 0, 0];

/// Zeros after the frames of a tag.
const PADDING: usize = 8;

fn main() -> Result<(), Box<dyn std::error::Error>> {
    let Some(folder) = std::env::args_os().nth(1) else {
        return Err("name the folder to make them in".into());
    };
    for (name, bytes) in samples()? {
        write(&Path::new(&folder).join(name), &bytes)?;
    }
    Ok(())
}

fn write(path: &Path, bytes: &[u8]) -> io::Result<()> {
    if let Some(folder) = path.parent() {
        fs::create_dir_all(folder)?;
    }
    fs::write(path, bytes)
}

/// Every file with its bytes.
pub fn samples() -> Result<Vec<(PathBuf, Vec<u8>)>, Refusal> {
    let damaged = damaged::files()?.into_iter();
    let damaged = damaged.map(|(name, bytes)| (format!("damaged/{name}.mp3").into(), bytes));
    Ok(march()?.into_iter().chain(adverts()?).chain(damaged).collect())
}

/// A month's folder.
fn march() -> Result<Vec<(PathBuf, Vec<u8>)>, Refusal> {
    let old = tag(Version::Id3v22, Mode::Off, "Old song", &[(b"room 1", 17)])?;
    let one = tag(Version::Id3v24, Mode::Off, "First song", &[(b"room 1", 125)])?;
    let two = tag(Version::Id3v23, Mode::Standard, "Second song", &[(b"room 2", 65_280)])?;
    let shared = [(&b"room 1"[..], 1 << 32), (b"room 2", 3), (b"caf\xE9", 0)];
    let three = tag(Version::Id3v24, Mode::Standard, "Third song", &shared)?;
    Ok(vec![
        ("march/archive/old.mp3".into(), file(&old)),
        ("march/first.mp3".into(), file(&one)),
        ("march/second.mp3".into(), file(&two)),
        ("march/third.mp3".into(), file(&three)),
        ("march/box.mp3".into(), file(&box_tag()?)),
        ("march/no-tag.mp3".into(), SOUND.to_vec()),
    ])
}

/// Songs that the advert team counts in too: one where its counter can be raised, one where it has no room to grow, and one
/// without it.
fn adverts() -> Result<Vec<(PathBuf, Vec<u8>)>, Refusal> {
    let room: (&[u8], &[u8]) = (b"room 1", &[0, 0, 1, 0x2C]);
    let both = laid_out("Both", &[room, (b"adverts", &[0, 0, 0, 12])])?;
    let full = laid_out("Full", &[room, (b"adverts", &[255])])?;
    let music = laid_out("Music alone", &[room])?;
    Ok(vec![
        ("adverts/both.mp3".into(), file(&both)),
        ("adverts/full.mp3".into(), file(&full)),
        ("adverts/music.mp3".into(), file(&music)),
    ])
}

/// A tag of the family of boxes that starts with a counter of twelve bytes, mostly zeros: here 720,000.
fn box_tag() -> Result<Vec<u8>, Refusal> {
    laid_out("Box song", &[(b"room 3", &[0, 0, 0, 0, 0, 0, 0, 0, 0, 0x0A, 0xFC, 0x80])])
}

/// A 2.3 tag with a title and popularimeters of these counter bytes. The library writes no zeros in front of a counter, so
/// that the popularimeters are laid out here.
fn laid_out(title: &str, users: &[(&[u8], &[u8])]) -> Result<Vec<u8>, Refusal> {
    let mut writer = Writer::new(Version::Id3v23).mode(Mode::Off);
    add_title(&mut writer, title)?;
    let mut tag = writer.finish(0)?;
    for (user, counter) in users {
        let size = (user.len() + 2 + counter.len()) as u8;
        tag.extend([b"POPM\0\0\0", &[size][..], b"\0\0", user, b"\0\0", counter].concat());
    }
    tag.extend([0; PADDING]);
    let len = tag.len();
    set_size(&mut tag, len);
    Ok(tag)
}

/// Has a tag's header say that the tag ends at this place.
fn set_size(tag: &mut [u8], end: usize) {
    let size = end - 10;
    assert!(size < 0x80, "a song is short");
    tag[9] = size as u8;
}

/// The id that an edition has for a frame.
fn id(version: Version, three: &[u8; 3], four: &[u8; 4]) -> Id {
    if version == Version::Id3v22 {
        three.into()
    } else {
        four.into()
    }
}

/// A tag with a title and popularimeters.
fn tag(version: Version, mode: Mode, title: &str, users: &[(&[u8], u64)]) -> Result<Vec<u8>, Refusal> {
    let mut writer = Writer::new(version).mode(mode);
    add_title(&mut writer, title)?;
    for &(user, counter) in users {
        add_popularimeter(&mut writer, user, counter)?;
    }
    writer.finish(PADDING)
}

fn add_title(writer: &mut Writer, title: &str) -> Result<usize, Refusal> {
    let content = Content::Text { encoding: Encoding::Latin1, text: title.as_bytes() };
    writer.add(id(writer.version(), b"TT2", b"TIT2"), &content)
}

fn add_popularimeter(writer: &mut Writer, user: &[u8], counter: u64) -> Result<usize, Refusal> {
    writer.add(id(writer.version(), b"POP", b"POPM"), &Content::Popularimeter { user, rating: 0, counter })
}

/// A tag with sound after it.
fn file(tag: &[u8]) -> Vec<u8> {
    [tag, &SOUND].concat()
}
