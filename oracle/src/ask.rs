//! Reading.
use crate::caught;
use id3::frame::{Chapter, Frame, MpegLocationLookupTable, TableOfContents};
use id3::v1v2 as inner;
use id3::{Content, Encoding, Error, ErrorKind, Version};
use std::io;

/// What the crate took a tag for.
#[derive(Clone, Debug, PartialEq, Eq)]
pub struct Reading {
    /// The header, or why it was refused.
    pub header: Result<Header, Failure>,
    /// The frames of the top level in order, each with its subframes.
    pub items: Vec<Item>,
    /// Where and how it stopped; nothing where the header was refused.
    pub stop: Option<Stop>,
    /// Where a second question to the crate does not fit the first one. Always empty; a line here is a fault of the harness.
    pub doubts: Vec<String>,
}

/// The header's fields.
#[derive(Clone, Debug, PartialEq, Eq)]
pub struct Header {
    /// 2, 3 or 4.
    pub edition: u8,
    /// The size as decoded.
    pub size: u32,
    /// The flag byte.
    pub flags: u8,
    /// The extended header's size, 0 without one.
    pub ext: u32,
    /// Where the first frame byte stands in the slice.
    pub start: usize,
    /// Where the slice was cut.
    pub end: usize,
}

/// One frame.
#[derive(Clone, Debug, PartialEq, Eq)]
pub struct Item {
    /// Its number among its siblings, after those of the chapters around it.
    pub path: Vec<usize>,
    /// Its place, counted from the first frame byte (after resynchronising), or from its chapter's first subframe byte.
    pub at: usize,
    /// The bytes that the crate took for it from the reader.
    pub took: usize,
    /// The bytes that the crate says it took: header and size field. More than `took` where the end cut the body.
    pub said: usize,
    /// The id as it stands in the tag.
    pub id: Vec<u8>,
    /// The id that the crate gives the frame: rewritten in 2.2.
    pub named: String,
    /// The flag bytes, 0 in 2.2.
    pub flags: u16,
    /// The body that the crate handed to its content decoder.
    pub body: Vec<u8>,
    /// What it took the body for.
    pub kind: Kind,
}

/// The kinds; names are in bytes, texts undecoded.
#[derive(Clone, Debug, PartialEq, Eq)]
#[allow(missing_docs)]
pub enum Kind {
    Text { encoding: u8, bytes: Vec<u8>, chars: String },
    Popularimeter { user: Vec<u8>, rating: u8, counter: u64 },
    Table { frames: u16, bytes: u32, millis: u32, bits_for_bytes: u8, bits_for_millis: u8, deviations: Vec<u32> },
    Chapter { element: Vec<u8>, times: [u32; 4], run: Vec<u8>, subs: Option<Vec<Item>> },
    Contents { element: Vec<u8>, top_level: bool, ordered: bool, children: Vec<Vec<u8>>, run: Vec<u8>, subs: Option<Vec<Item>> },
    /// `Content::Unknown`.
    Raw,
    /// A kind that the crate decodes itself and the port does not.
    Other(&'static str),
    /// The crate refuses the body; only where the reading goes on past it.
    Refused(Failure),
}

/// How a walk stopped. Places are counted as an item's are.
#[derive(Clone, Debug, PartialEq, Eq)]
#[allow(missing_docs)]
pub enum Stop {
    /// Quietly: no frame header, or a zero, or as many bytes as the header counts. So many bytes are left.
    End { at: usize, left: usize },
    /// By an error; `content` says that it came from the body and not from the frame's own header. So many bytes are left from there.
    Refused { at: usize, left: usize, id: Vec<u8>, flags: u16, content: bool, failure: Failure },
    Panic { at: usize, message: String },
    /// Not asked: chapters may be nested so deep that the crate's recursion would end the process. Not comparable.
    Stack { levels: usize },
}

/// An error of the crate.
#[derive(Clone, Debug, PartialEq, Eq)]
pub struct Failure {
    /// The error kind's name.
    pub kind: String,
    /// Its description.
    pub description: String,
    /// The refusal number of document 01 for this error, 0 where there is none.
    pub number: u8,
}

/// The stack that `big_stack` gives.
pub const BIG_STACK: usize = 512 << 20;

/// So many levels of chapters fit that stack with room to spare: the crate takes some 35 KB for a level that is flagged 0002.
pub const MOST_LEVELS: usize = 2000;

/// Subframes are listed one by one down to this depth, and below it only as their chapter's run.
const LISTED_DEPTH: usize = 12;

/// Runs work on a thread whose stack holds `MOST_LEVELS` levels.
pub fn big_stack<T: Send + 'static>(work: impl FnOnce() -> T + Send + 'static) -> T {
    std::thread::Builder::new()
        .stack_size(BIG_STACK)
        .spawn(work)
        .expect("a thread can be started")
        .join()
        .expect("panics of the crate are caught inside")
}

/// At most so many chapters lie one in another in these bytes.
pub fn levels(bytes: &[u8]) -> usize {
    bytes.windows(4).filter(|w| *w == b"CHAP" || *w == b"CTOC").count()
}

/// Reads a tag: the slice cut at the tag's end. To be called inside `big_stack`, where any bytes can be asked for.
pub fn read(tag: &[u8]) -> Reading {
    reading(tag, true, false)
}

/// The same, but where the crate refuses a body it is noted at the frame and the walk goes on after it, as if the id were unknown.
pub fn read_past(tag: &[u8]) -> Reading {
    reading(tag, true, true)
}

/// Reads without the cut, so that frames after the tag's end may be taken.
pub fn read_uncut(tag: &[u8]) -> Reading {
    reading(tag, false, false)
}

fn reading(tag: &[u8], cut: bool, past: bool) -> Reading {
    let end = if cut { cut_at(tag) } else { tag.len() };
    let slice = &tag[..end];
    let mut doubts = Vec::new();
    let mut rest = slice;
    let opened = match caught(|| inner::open(&mut rest)) {
        Ok(Ok(opened)) => opened,
        Ok(Err(err)) => {
            return Reading { header: Err(header_failure(&err)), items: Vec::new(), stop: None, doubts };
        }
        Err(message) => {
            let failure = Failure { kind: "Panic".to_string(), description: message, number: 0 };
            return Reading { header: Err(failure), items: Vec::new(), stop: None, doubts };
        }
    };
    let header = Header {
        edition: opened.version.minor(),
        size: opened.size,
        flags: opened.flags,
        ext: opened.ext,
        start: end - rest.len(),
        end,
    };

    // From here on as `decode_remaining` goes, with the frames kept as they come.
    let version = opened.version;
    let (bytes, limit) = match version {
        Version::Id3v22 => (&rest[..rest.len().min(clamped(opened.frame_bytes))], None),
        Version::Id3v23 | Version::Id3v24 => (rest, Some(opened.frame_bytes)),
    };
    let found = levels(bytes);
    if found > MOST_LEVELS {
        let stop = Some(Stop::Stack { levels: found });
        return Reading { header: Ok(header), items: Vec::new(), stop, doubts };
    }
    let whole = opened.flags & 0x80 != 0 && version != Version::Id3v24;
    let stream = if whole { inner::resynchronised(bytes) } else { bytes.to_vec() };
    let mut walk = Walk { version, past, doubts: &mut doubts };
    let (frames, stop) = walk.run(&stream, limit, &[]);
    let items = frames.into_iter().map(|(item, _)| item).collect();
    Reading { header: Ok(header), items, stop: Some(stop), doubts }
}

fn clamped(n: u64) -> usize {
    usize::try_from(n).unwrap_or(usize::MAX)
}

/// Ten bytes and the header's size as the crate decodes it, or where the slice ends. An extended header is not looked at.
fn cut_at(tag: &[u8]) -> usize {
    if tag.len() < 10 {
        return tag.len();
    }
    let mut ten = [0; 10];
    ten.copy_from_slice(&tag[..10]);
    ten[5] &= 0xBF;
    match inner::open(&mut &ten[..]) {
        Ok(opened) => tag.len().min(10 + opened.size as usize),
        Err(_) => tag.len(),
    }
}

struct Walk<'a> {
    version: Version,
    past: bool,
    doubts: &'a mut Vec<String>,
}

impl Walk<'_> {
    /// Takes frames from the stream until the crate has no more or the limit is counted up.
    fn run(&mut self, stream: &[u8], limit: Option<u64>, path: &[usize]) -> (Vec<(Item, Option<Frame>)>, Stop) {
        let version = self.version;
        let mut found = Vec::new();
        let mut at = 0;
        let mut counted = 0u64;
        loop {
            let left = stream.len() - at;
            if limit.is_some_and(|limit| counted >= limit) {
                return (found, Stop::End { at, left });
            }
            let mut rest = &stream[at..];
            let answer = match caught(|| inner::frame(version, &mut rest)) {
                Ok(answer) => answer,
                Err(message) => return (found, Stop::Panic { at, message }),
            };
            let took = left - rest.len();
            let bytes = &stream[at..at + took];
            let here: Vec<usize> = path.iter().copied().chain([found.len()]).collect();
            match answer {
                Ok(None) => return (found, Stop::End { at, left }),
                Ok(Some((said, frame))) => {
                    let body = match body_of(version, bytes) {
                        Some((_, body)) => body,
                        None => {
                            self.doubts.push(format!("no body at {at}"));
                            Vec::new()
                        }
                    };
                    let kind = self.kind(&frame, &body, &here);
                    let item = self.item(here, at, bytes, said, frame.id().to_string(), body, kind);
                    found.push((item, Some(frame)));
                    at += took;
                    counted += said as u64;
                }
                Err(err) => {
                    let id = bytes[..bytes.len().min(id_len(version))].to_vec();
                    let body = if inner::is_utf8(&id) { body_of(version, bytes) } else { None };
                    let content = body.is_some();
                    let mut failure = frame_failure(&err, content);
                    if let Some((_, body)) = &body {
                        self.number_inside(&id, body, &here, &mut failure);
                    }
                    match body {
                        Some((said, body)) if self.past => {
                            let item = self.item(here, at, bytes, said, String::new(), body, Kind::Refused(failure));
                            found.push((item, None));
                            at += took;
                            counted += said as u64;
                        }
                        _ => return (found, Stop::Refused { at, left, id, flags: self.flags(bytes), content, failure }),
                    }
                }
            }
        }
    }

    #[allow(clippy::too_many_arguments)]
    fn item(&self, path: Vec<usize>, at: usize, bytes: &[u8], said: usize, named: String, body: Vec<u8>, kind: Kind) -> Item {
        let flags = self.flags(bytes);
        let id = bytes[..id_len(self.version)].to_vec();
        Item { path, at, took: bytes.len(), said, id, named, flags, body, kind }
    }

    fn flags(&self, bytes: &[u8]) -> u16 {
        match self.version {
            Version::Id3v22 => 0,
            _ => u16::from_be_bytes([bytes[8], bytes[9]]),
        }
    }

    fn kind(&mut self, frame: &Frame, body: &[u8], path: &[usize]) -> Kind {
        match frame.content() {
            Content::Text(chars) => self.text(chars, body, path),
            Content::Popularimeter(p) => {
                Kind::Popularimeter { user: latin1(&p.user), rating: p.rating, counter: p.counter }
            }
            Content::MpegLocationLookupTable(table) => table_kind(table),
            Content::Chapter(chapter) => self.chapter(chapter, body, path),
            Content::TableOfContents(contents) => self.contents(contents, body, path),
            Content::Unknown(unknown) => {
                if unknown.data != body {
                    self.doubts.push(format!("another body at {path:?}"));
                }
                Kind::Raw
            }
            Content::ExtendedText(_) => Kind::Other("ExtendedText"),
            Content::Link(_) => Kind::Other("Link"),
            Content::ExtendedLink(_) => Kind::Other("ExtendedLink"),
            Content::Comment(_) => Kind::Other("Comment"),
            Content::Lyrics(_) => Kind::Other("Lyrics"),
            Content::SynchronisedLyrics(_) => Kind::Other("SynchronisedLyrics"),
            Content::Picture(_) => Kind::Other("Picture"),
            Content::EncapsulatedObject(_) => Kind::Other("EncapsulatedObject"),
            Content::Private(_) => Kind::Other("Private"),
            Content::UniqueFileIdentifier(_) => Kind::Other("UniqueFileIdentifier"),
            Content::InvolvedPeopleList(_) => Kind::Other("InvolvedPeopleList"),
            _ => Kind::Other("unlisted"),
        }
    }

    /// The crate hands out characters; the bytes are those that its own search ends at.
    fn text(&mut self, chars: &str, body: &[u8], path: &[usize]) -> Kind {
        let Some(encoding) = body.first().copied().and_then(encoding_of) else {
            self.doubts.push(format!("no encoding at {path:?}"));
            return Kind::Other("Text");
        };
        let end = inner::text_end(self.version, encoding, &body[1..]);
        let bytes = body[1..1 + end].to_vec();
        match inner::decode_text(encoding, &bytes) {
            // in some frames of 2.2 and 2.3 the crate puts a zero for each slash
            Ok(again) if again == chars || again.replace('/', "\0") == chars => {}
            _ => self.doubts.push(format!("another text at {path:?}")),
        }
        Kind::Text { encoding: body[0], bytes, chars: chars.to_string() }
    }

    fn chapter(&mut self, chapter: &Chapter, body: &[u8], path: &[usize]) -> Kind {
        let element = latin1(&chapter.element_id);
        let run = self.found_run(chapter_run(body), path);
        let subs = self.subs(&run, &chapter.frames, path);
        let times = [chapter.start_time, chapter.end_time, chapter.start_offset, chapter.end_offset];
        Kind::Chapter { element, times, run, subs }
    }

    fn contents(&mut self, contents: &TableOfContents, body: &[u8], path: &[usize]) -> Kind {
        let element = latin1(&contents.element_id);
        let children: Vec<Vec<u8>> = contents.elements.iter().map(|name| latin1(name)).collect();
        let run = self.found_run(contents_run(body), path);
        let subs = self.subs(&run, &contents.frames, path);
        Kind::Contents { element, top_level: contents.top_level, ordered: contents.ordered, children, run, subs }
    }

    fn found_run(&mut self, run: Option<&[u8]>, path: &[usize]) -> Vec<u8> {
        if run.is_none() {
            self.doubts.push(format!("no run at {path:?}"));
        }
        run.unwrap_or(&[]).to_vec()
    }

    /// A chapter is refused with the error of a subframe: the run is walked to it for its number.
    fn number_inside(&mut self, id: &[u8], body: &[u8], path: &[usize], failure: &mut Failure) {
        let Some(run) = run_of(id, body) else { return };
        if path.len() >= LISTED_DEPTH {
            return;
        }
        let past = std::mem::replace(&mut self.past, false);
        let (_, stop) = self.run(run, None, path);
        self.past = past;
        match stop {
            Stop::Refused { failure: inner, .. }
                if (&inner.kind, &inner.description) == (&failure.kind, &failure.description) =>
            {
                *failure = inner;
            }
            _ => self.doubts.push(format!("another refusal at {path:?}")),
        }
    }

    /// The run is walked as the crate walks it, and must give the frames that the crate found there.
    fn subs(&mut self, run: &[u8], frames: &[Frame], path: &[usize]) -> Option<Vec<Item>> {
        if path.len() >= LISTED_DEPTH {
            return None;
        }
        let (found, stop) = self.run(run, None, path);
        let same = found.iter().map(|(_, frame)| frame.as_ref()).eq(frames.iter().map(Some));
        if !same || !matches!(stop, Stop::End { .. }) {
            self.doubts.push(format!("other subframes at {path:?}"));
        }
        Some(found.into_iter().map(|(item, _)| item).collect())
    }
}

/// The size that is said and the body of a frame, whatever its id: the crate reads the same bytes under an id that it does not know.
pub(crate) fn body_of(version: Version, bytes: &[u8]) -> Option<(usize, Vec<u8>)> {
    let mut copy = bytes.to_vec();
    let n = id_len(version);
    if copy.len() < n {
        return None;
    }
    copy[..n].fill(b'Z');
    match caught(|| inner::frame(version, &mut &copy[..])) {
        Ok(Ok(Some((said, frame)))) => match frame.content() {
            Content::Unknown(unknown) => Some((said, unknown.data.clone())),
            _ => None,
        },
        _ => None,
    }
}

/// The run of subframes in the body of a chapter or a table of contents, where its own parts are all there.
pub fn run_of<'a>(id: &[u8], body: &'a [u8]) -> Option<&'a [u8]> {
    match id {
        b"CHAP" => chapter_run(body),
        b"CTOC" => contents_run(body),
        _ => None,
    }
}

/// Where the crate ends a text of an encoding, in bytes after the encoding byte.
pub fn text_end(version: Version, encoding: u8, data: &[u8]) -> Option<usize> {
    encoding_of(encoding).map(|encoding| inner::text_end(version, encoding, data))
}

/// After a name and its zero.
fn behind_name(bytes: &[u8]) -> Option<&[u8]> {
    bytes.get(inner::text_end(Version::Id3v23, Encoding::Latin1, bytes) + 1..)
}

/// The subframes of a body whose own parts are all there.
pub(crate) fn chapter_run(body: &[u8]) -> Option<&[u8]> {
    behind_name(body)?.get(16..)
}

pub(crate) fn contents_run(body: &[u8]) -> Option<&[u8]> {
    let rest = behind_name(body)?;
    let mut run = rest.get(2..)?;
    for _ in 0..rest[1] {
        run = behind_name(run)?;
    }
    Some(run)
}

fn table_kind(table: &MpegLocationLookupTable) -> Kind {
    Kind::Table {
        frames: table.frames_between_reference,
        bytes: table.bytes_between_reference,
        millis: table.millis_between_reference,
        bits_for_bytes: table.bits_for_bytes,
        bits_for_millis: table.bits_for_millis,
        deviations: table.references.iter().flat_map(|r| [r.deviate_bytes, r.deviate_millis]).collect(),
    }
}

pub(crate) fn id_len(version: Version) -> usize {
    match version {
        Version::Id3v22 => 3,
        _ => 4,
    }
}

pub(crate) fn encoding_of(byte: u8) -> Option<Encoding> {
    match byte {
        0 => Some(Encoding::Latin1),
        1 => Some(Encoding::UTF16),
        2 => Some(Encoding::UTF16BE),
        3 => Some(Encoding::UTF8),
        _ => None,
    }
}

pub(crate) fn latin1(text: &str) -> Vec<u8> {
    inner::encode_text(Encoding::Latin1, text)
}

fn kind_name(kind: &ErrorKind) -> String {
    match kind {
        ErrorKind::Io(err) => format!("Io:{:?}", err.kind()),
        ErrorKind::StringDecoding(_) => "StringDecoding".to_string(),
        ErrorKind::NoTag => "NoTag".to_string(),
        ErrorKind::Parsing => "Parsing".to_string(),
        ErrorKind::InvalidInput => "InvalidInput".to_string(),
        ErrorKind::UnsupportedFeature => "UnsupportedFeature".to_string(),
    }
}

pub(crate) fn failure(err: &Error, number: u8) -> Failure {
    Failure { kind: kind_name(&err.kind), description: err.description.clone(), number }
}

fn header_failure(err: &Error) -> Failure {
    let number = match &err.kind {
        ErrorKind::NoTag => 1,
        ErrorKind::UnsupportedFeature if err.description.starts_with("Unsupported id3 tag version") => 2,
        ErrorKind::Parsing if err.description.starts_with("unknown tag header flags") => 3,
        ErrorKind::UnsupportedFeature if err.description.starts_with("id3v2.2 compression") => 4,
        ErrorKind::Io(err) if err.kind() == io::ErrorKind::UnexpectedEof => 5,
        ErrorKind::Parsing if err.description.starts_with("Extended header") => 6,
        _ => 0,
    };
    failure(err, number)
}

/// The numbers, as document 01 gives them.
fn frame_failure(err: &Error, content: bool) -> Failure {
    let number = match (&err.kind, err.description.as_str()) {
        (ErrorKind::Io(err), _) if err.kind() == io::ErrorKind::UnexpectedEof => 5,
        (ErrorKind::UnsupportedFeature, "encryption is not supported") => 8,
        (ErrorKind::UnsupportedFeature, "grouping identity is not supported") => 9,
        (ErrorKind::StringDecoding(_), _) if !content => 7,
        (ErrorKind::Parsing, "Insufficient data to decode bytes") => if content { 11 } else { 10 },
        (ErrorKind::Parsing, "delimiter not found") => 11,
        (ErrorKind::Parsing, "unknown encoding") => 12,
        (ErrorKind::InvalidInput, text) if text.ends_with("must be > 0") => 30,
        _ => 0,
    };
    failure(err, number)
}
