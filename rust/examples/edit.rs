//! Sets the title in the tag at the front of a file, in place: it is replaced where there is one, added where there is none,
//! and removed where none is given. `examples/edit.c` is the same in C.
//!
//!     cargo run --example edit -- FILE [TITLE]
//!
//! Other frames move into the padding, or leave more of it, and the file keeps its length. A crash in the middle of the write
//! would leave them half moved: a program that must not lose a counter keeps a journal, as `streamvault raise` does.
//!
//! Exit status: 0 what was done is printed, 1 it was not done, and why is said.

use std::error::Error;
use std::fs::File;
use std::io::{Read, Seek, SeekFrom, Write};
use std::path::Path;
use streamvault::{append, header, remove, replace, Content, Encoding, Header, Id, Reader, Refusal, Version};

fn main() -> Result<(), Box<dyn Error>> {
    let words: Vec<String> = std::env::args().skip(1).collect();
    let (file, title) = match &words[..] {
        [file] => (file, None),
        [file, title] => (file, Some(title.as_str())),
        _ => return Err("name the file, and the title".into()),
    };
    println!("{}", edit_in(Path::new(file), title)?);
    Ok(())
}

/// Sets the title in a file, and says what was done. Nothing of the sound is read.
pub fn edit_in(path: &Path, title: Option<&str>) -> Result<&'static str, Box<dyn Error>> {
    let mut file = File::options().read(true).write(true).open(path)?;
    let before = read_tag(&mut file)?;
    let mut after = before.clone();
    let done = set_title(&mut after, title)?;
    let differs = |at: &usize| before[*at] != after[*at];
    if let Some(first) = (0..before.len()).find(differs) {
        let last = (first..before.len()).rfind(differs).unwrap_or(first);
        file.seek(SeekFrom::Start(first as u64))?;
        file.write_all(&after[first..=last])?;
    }
    Ok(done)
}

/// Sets the title in a tag. A refusal leaves it as it was.
pub fn set_title(tag: &mut [u8], title: Option<&str>) -> Result<&'static str, Refusal> {
    let version = header(tag)?.version;
    let id = if version == Version::Id3v22 { Id::from(b"TT2") } else { Id::from(b"TIT2") };
    let encoding = if version == Version::Id3v24 { Encoding::Utf8 } else { Encoding::Latin1 };
    let content = title.map(|text| Content::Text { encoding, text });
    match (number_of(tag, id)?, content) {
        (Some(number), Some(content)) => replace(tag, number, id, &content).map(|()| "replaced"),
        (None, Some(content)) => append(tag, id, &content).map(|()| "added"),
        (Some(number), None) => remove(tag, number).map(|()| "removed"),
        (None, None) => Ok("there is none"),
    }
}

/// The number of the first frame with this id, if there is one.
fn number_of(tag: &[u8], id: Id) -> Result<Option<u64>, Refusal> {
    let mut reader = Reader::open(tag, Vec::new())?;
    let mut number = 0;
    while let Some(frame) = reader.next_frame() {
        if frame?.id == id {
            return Ok(Some(number));
        }
        number += 1;
    }
    Ok(None)
}

/// The tag at the front of a file, as far as it is there.
fn read_tag(file: &mut File) -> Result<Vec<u8>, Box<dyn Error>> {
    let mut tag = Vec::new();
    file.take(Header::PEEK as u64).read_to_end(&mut tag)?;
    let wanted = header(&tag)?.tag_len();
    tag.truncate(wanted);
    file.take((wanted - tag.len()) as u64).read_to_end(&mut tag)?;
    Ok(tag)
}
