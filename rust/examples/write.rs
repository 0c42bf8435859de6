//! Writes a tag to a file: a title, a popularimeter, a lookup table, a chapter with a title of its own, and a table of
//! contents. `examples/write.c` is the same in C.
//!
//!     cargo run --example write -- FILE

use std::error::Error;
use streamvault::{Content, Encoding, Mode, Reference, Refusal, Table, Version, Writer};

fn main() -> Result<(), Box<dyn Error>> {
    let file = std::env::args_os().nth(1).ok_or("name the file to write")?;
    std::fs::write(file, tag()?)?;
    Ok(())
}

/// The tag.
pub fn tag() -> Result<Vec<u8>, Refusal> {
    let mut writer = Writer::new(Version::Id3v24).mode(Mode::Standard);
    writer.add(b"TIT2", &title("March"))?;
    writer.add(b"POPM", &Content::Popularimeter { user: "room 7", rating: 0, counter: 65_280 })?;
    add_table(&mut writer)?;
    add_chapter(&mut writer, "c1", "Part one")?;
    add_contents(&mut writer, "c1")?;
    writer.finish(16)
}

fn title(text: &str) -> Content<&str> {
    Content::Text { encoding: Encoding::Utf8, text }
}

/// Two references, each a deviation of bytes and one of milliseconds.
fn add_table(writer: &mut Writer) -> Result<usize, Refusal> {
    let table = Table { frames: 1, bytes: 417, millis: 26, bits_for_bytes: 4, bits_for_millis: 8 };
    let references = [Reference { bytes: 0xA, millis: 0x5C }, Reference { bytes: 0x3, millis: 0x01 }];
    writer.add_table(b"MLLT", &table, &references)
}

/// The subframes of a chapter are the frames that a second writer, of mode off, has collected.
fn add_chapter(writer: &mut Writer, element: &str, text: &str) -> Result<usize, Refusal> {
    let mut inner = Writer::new(writer.version());
    inner.add(b"TIT2", &title(text))?;
    let chapter = Content::Chapter {
        element: element.as_bytes(),
        start_time: 0,
        end_time: 90_000,
        start_offset: u32::MAX,
        end_offset: u32::MAX,
        run: inner.frames(),
    };
    writer.add(b"CHAP", &chapter)
}

/// A table of contents with one child, whose name is closed by a zero.
fn add_contents(writer: &mut Writer, child: &str) -> Result<usize, Refusal> {
    let children = format!("{child}\0");
    let contents = Content::Contents { element: "toc", top_level: true, ordered: true, children: &children, run: "" };
    writer.add(b"CTOC", &contents)
}
