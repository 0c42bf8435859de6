//! Writing.
use crate::ask::{body_of, chapter_run, contents_run, encoding_of, failure, id_len, Failure};
use crate::caught;
use id3::frame::{
    Chapter, Frame, MpegLocationLookupTable, MpegLocationLookupTableReference, Popularimeter, TableOfContents, Unknown,
};
use id3::v1v2 as inner;
use id3::{Content, Encoder, Encoding, Tag, Version};
use std::io;

/// A writer's settings and its records.
#[derive(Clone, Debug, PartialEq, Eq)]
#[allow(missing_docs)]
pub struct List {
    pub version: Version,
    pub unsynchronisation: bool,
    pub padding: usize,
    pub file_altered: bool,
    pub records: Vec<Record>,
}

/// A record to be written.
#[derive(Clone, Debug, PartialEq, Eq)]
#[allow(missing_docs)]
pub struct Record {
    pub id: String,
    pub fields: Fields,
}

/// Its kind and fields; names are in bytes, texts undecoded.
#[derive(Clone, Debug, PartialEq, Eq)]
#[allow(missing_docs)]
pub enum Fields {
    Text { encoding: u8, bytes: Vec<u8> },
    Popularimeter { user: Vec<u8>, rating: u8, counter: u64 },
    Table { frames: u16, bytes: u32, millis: u32, bits_for_bytes: u8, bits_for_millis: u8, deviations: Vec<u32> },
    Chapter { element: Vec<u8>, times: [u32; 4], subs: Subs },
    Contents { element: Vec<u8>, top_level: bool, ordered: bool, children: Vec<Vec<u8>>, subs: Subs },
    Raw { body: Vec<u8> },
}

/// Subframes: records, or a run of encoded frames that the crate has to give back as it is.
#[derive(Clone, Debug, PartialEq, Eq)]
#[allow(missing_docs)]
pub enum Subs {
    Records(Vec<Record>),
    Run(Vec<u8>),
}

/// Why there is no tag.
#[derive(Clone, Debug, PartialEq, Eq)]
#[allow(missing_docs)]
pub enum Unwritten {
    /// The crate's types cannot hold the record, so there is nothing to ask.
    NotHeld(String),
    Refused(Failure),
    Panic(String),
}

/// Writes by the crate's `Encoder`. Frames go into the tag by `FromIterator`, which keeps all of them in their order.
pub fn write(
    version: Version,
    unsynchronisation: bool,
    padding: usize,
    file_altered: bool,
    records: &[Record],
) -> Result<Vec<u8>, Unwritten> {
    let answer = caught(|| {
        let frames = frames(version, records)?;
        let tag: Tag = frames.into_iter().collect();
        let mut out = Limited(Vec::new());
        Encoder::new()
            .version(version)
            .unsynchronisation(unsynchronisation)
            .padding(padding)
            .file_altered(file_altered)
            .encode(&tag, &mut out)
            .map_err(|err| match out.0.get(..10) {
                // only padding can be stopped by the limit: the header was written before
                Some(header) if matches!(err.kind, id3::ErrorKind::Io(_)) => {
                    let mut failure = failure(&err, 0);
                    failure.description = format!("over the harness's limit, after the header {}", crate::hex(header));
                    Unwritten::Refused(failure)
                }
                _ => Unwritten::Refused(failure(&err, 0)),
            })?;
        Ok(out.0)
    });
    answer.unwrap_or_else(|message| Err(Unwritten::Panic(message)))
}

/// Takes up to 64 MiB, so that a size which wraps does not fill the memory.
struct Limited(Vec<u8>);

impl io::Write for Limited {
    fn write(&mut self, bytes: &[u8]) -> io::Result<usize> {
        if self.0.len() + bytes.len() > 64 << 20 {
            return Err(io::Error::new(io::ErrorKind::OutOfMemory, "over the harness's limit"));
        }
        self.0.extend_from_slice(bytes);
        Ok(bytes.len())
    }

    fn flush(&mut self) -> io::Result<()> {
        Ok(())
    }
}

fn frames(version: Version, records: &[Record]) -> Result<Vec<Frame>, Unwritten> {
    records.iter().map(|record| frame(version, record)).collect()
}

fn not_held<T>(why: &str) -> Result<T, Unwritten> {
    Err(Unwritten::NotHeld(why.to_string()))
}

fn name(bytes: &[u8]) -> String {
    inner::decode_text(Encoding::Latin1, bytes).expect("every byte is a Latin-1 character")
}

fn frame(version: Version, record: &Record) -> Result<Frame, Unwritten> {
    let mut encoding = None;
    let content = match &record.fields {
        Fields::Text { encoding: byte, bytes } => {
            let Some(known) = encoding_of(*byte) else {
                return not_held("an encoding over 3");
            };
            let Ok(chars) = inner::decode_text(known, bytes) else {
                return not_held("a text that is not of its encoding");
            };
            if inner::encode_text(known, &chars) != *bytes {
                return not_held("a text that the crate would encode otherwise");
            }
            encoding = Some(known);
            Content::Text(chars)
        }
        Fields::Popularimeter { user, rating, counter } => {
            Content::Popularimeter(Popularimeter { user: name(user), rating: *rating, counter: *counter })
        }
        Fields::Table { frames, bytes, millis, bits_for_bytes, bits_for_millis, deviations } => {
            if deviations.len() % 2 != 0 {
                return not_held("a deviation without its pair");
            }
            Content::MpegLocationLookupTable(MpegLocationLookupTable {
                frames_between_reference: *frames,
                bytes_between_reference: *bytes,
                millis_between_reference: *millis,
                bits_for_bytes: *bits_for_bytes,
                bits_for_millis: *bits_for_millis,
                references: deviations
                    .chunks(2)
                    .map(|pair| MpegLocationLookupTableReference { deviate_bytes: pair[0], deviate_millis: pair[1] })
                    .collect(),
            })
        }
        Fields::Chapter { element, times, subs } => Content::Chapter(Chapter {
            element_id: name(element),
            start_time: times[0],
            end_time: times[1],
            start_offset: times[2],
            end_offset: times[3],
            frames: subframes(version, subs)?,
        }),
        Fields::Contents { element, top_level, ordered, children, subs } => Content::TableOfContents(TableOfContents {
            element_id: name(element),
            top_level: *top_level,
            ordered: *ordered,
            elements: children.iter().map(|child| name(child)).collect(),
            frames: subframes(version, subs)?,
        }),
        Fields::Raw { body } => Content::Unknown(Unknown { data: body.clone(), version }),
    };
    Ok(Frame::with_content(&record.id, content).set_encoding(encoding))
}

fn subframes(version: Version, subs: &Subs) -> Result<Vec<Frame>, Unwritten> {
    let run = match subs {
        Subs::Records(records) => return frames(version, records),
        Subs::Run(run) => run,
    };
    if crate::levels(run) > crate::MOST_LEVELS {
        return not_held("a run that may be too deep for the stack");
    }
    let (found, left) = frames_of(version, run)?;
    let mut again = Vec::new();
    for frame in &found {
        match inner::encoded(version, frame) {
            Ok(bytes) => again.extend(bytes),
            Err(_) => return not_held("a run that the crate does not encode"),
        }
    }
    if left != 0 || again != *run {
        return not_held("a run that the crate would encode otherwise");
    }
    Ok(found)
}

/// The frames of a run and how many bytes are left over. Each is of the crate's own kind where the crate gives back its bytes then
/// (a text with the encoding that it has there, which the crate forgets), and raw where not.
fn frames_of(version: Version, run: &[u8]) -> Result<(Vec<Frame>, usize), Unwritten> {
    if version == Version::Id3v22 && !run.is_empty() {
        return not_held("subframes in 2.2");
    }
    let mut rest = run;
    let mut found = Vec::new();
    loop {
        let before = rest;
        let answer = inner::frame(version, &mut rest);
        let bytes = &before[..before.len() - rest.len()];
        let typed = match answer {
            Ok(None) => return Ok((found, before.len())),
            Ok(Some((_, frame))) => kept(version, frame, &bytes[10..])?,
            Err(_) => None,
        };
        match typed {
            Some(frame) if inner::encoded(version, &frame).is_ok_and(|again| again == bytes) => found.push(frame),
            _ => found.push(raw(version, bytes)?),
        }
    }
}

fn raw(version: Version, bytes: &[u8]) -> Result<Frame, Unwritten> {
    let id = bytes.get(..id_len(version)).and_then(|id| std::str::from_utf8(id).ok());
    match (id, body_of(version, bytes)) {
        (Some(id), Some((_, data))) => Ok(Frame::with_content(id, Content::Unknown(Unknown { data, version }))),
        _ => not_held("a run that the crate refuses"),
    }
}

fn kept(version: Version, frame: Frame, body: &[u8]) -> Result<Option<Frame>, Unwritten> {
    Ok(match frame.content().clone() {
        Content::Text(_) => Some(frame.set_encoding(body.first().copied().and_then(encoding_of))),
        Content::Chapter(mut chapter) => {
            chapter.frames = frames_of(version, chapter_run(body).unwrap_or(&[]))?.0;
            Some(Frame::with_content("CHAP", Content::Chapter(chapter)))
        }
        Content::TableOfContents(mut contents) => {
            contents.frames = frames_of(version, contents_run(body).unwrap_or(&[]))?.0;
            Some(Frame::with_content("CTOC", Content::TableOfContents(contents)))
        }
        Content::Popularimeter(_) | Content::MpegLocationLookupTable(_) | Content::Unknown(_) => Some(frame),
        _ => None,
    })
}
