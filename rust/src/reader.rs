//! Reading a tag.

use crate::record::Found;
use crate::state::State;
use crate::sys::*;
use crate::{calls, Frame, Record, Refusal, Version, Work};
use std::iter::FusedIterator;

/// The fields of a tag header.
#[derive(Clone, Copy, Debug, PartialEq, Eq, Hash)]
pub struct Header {
    /// The edition.
    pub version: Version,
    /// The flag byte.
    pub flags: u8,
    /// Bytes of the tag after its ten header bytes.
    pub size: u32,
    /// The size of the extended header, 0 without one.
    pub ext: u32,
}

impl Header {
    /// Bytes of the header itself.
    pub const LEN: usize = 10;

    /// As many bytes from a file's front as [`header`] ever looks at.
    pub const PEEK: usize = 16;

    /// Bytes of the whole tag, its header among them.
    pub fn tag_len(&self) -> usize {
        Header::LEN + self.size as usize
    }
}

/// The header at the front of a tag, or of a file. Only the first [`Header::PEEK`] bytes are looked at, so a file can be
/// asked how long its tag is before that is read.
///
/// ```
/// let header = streamvault::header(b"ID3\x04\0\0\0\0\x01\x7F and so on")?;
/// assert_eq!(header.version, streamvault::Version::Id3v24);
/// assert_eq!(header.tag_len(), 10 + 255);
/// # Ok::<(), streamvault::Refusal>(())
/// ```
pub fn header(tag: &[u8]) -> Result<Header, Refusal> {
    let mut words = [0; SV_HEADER_WORDS];
    Refusal::of(calls::header(tag, &mut words))?;
    Ok(Header {
        version: Version::of(words[SV_HEADER_VERSION]),
        flags: words[SV_HEADER_FLAGS] as u8,
        size: words[SV_HEADER_SIZE] as u32,
        ext: words[SV_HEADER_EXT] as u32,
    })
}

/// Reads the frames of a tag one by one.
///
/// It borrows the tag. A frame's bytes lie in the tag, or resynchronised in the work buffer, where the next step puts its
/// own: so [`next_frame`](Reader::next_frame) lends each frame until the next call, and nothing is copied.
///
/// ```
/// use streamvault::{Content, Reader};
///
/// let tag = b"ID3\x04\0\0\0\0\0\x12POPM\0\0\0\x08\0\0a\0\x05\x01\0\0\0\0";
/// let mut reader = Reader::open(tag, Vec::new())?;
/// while let Some(frame) = reader.next_frame() {
///     let frame = frame?;
///     if let Content::Popularimeter { user, counter, .. } = frame.content {
///         assert_eq!((user, counter), (&b"a"[..], 4_294_967_296));
///     }
/// }
/// # Ok::<(), streamvault::Refusal>(())
/// ```
///
/// A frame cannot be kept over the next step; [`Frame::to_record`] or [`Reader::records`] make records that can.
///
/// ```compile_fail
/// # let tag = b"ID3\x04\0\0\0\0\0\0";
/// let mut reader = streamvault::Reader::open(tag, Vec::new()).unwrap();
/// let first = reader.next_frame();
/// let second = reader.next_frame();
/// drop(first);
/// ```
#[derive(Clone, Debug)]
pub struct Reader<'t, W> {
    state: State<'t, W, SV_READER_WORDS>,
}

impl<'t, W: Work> Reader<'t, W> {
    /// Opens the tag at the front of `tag`; what follows the tag is not looked at. The work buffer is a slice or a
    /// `Vec<u8>`: see [`Work`].
    pub fn open(tag: &'t [u8], work: W) -> Result<Reader<'t, W>, Refusal> {
        State::open(tag, work, calls::open).map(|state| Reader { state })
    }

    /// The header of the tag.
    ///
    /// ```
    /// let tag = b"ID3\x03\0\0\0\0\0\x0CTIT2\0\0\0\x02\0\0\0A";
    /// let reader = streamvault::Reader::open(tag, Vec::new())?;
    /// assert_eq!(reader.header().size, 12);
    /// assert_eq!(reader.header().tag_len(), tag.len());
    /// # Ok::<(), streamvault::Refusal>(())
    /// ```
    pub fn header(&self) -> Header {
        self.state.header()
    }

    /// The edition of the tag.
    pub fn version(&self) -> Version {
        self.state.version()
    }

    /// The next frame of the top level. After the last one, and after a refusal was handed out, there is none.
    pub fn next_frame(&mut self) -> Option<Result<Frame<'_>, Refusal>> {
        step(&mut self.state)
    }

    /// The refusal that the reading ended with, if it did.
    pub fn refusal(&self) -> Option<Refusal> {
        self.state.refusal()
    }

    /// The remaining frames as records with bytes of their own. A refusal is the last item.
    ///
    /// ```
    /// let tag = b"ID3\x03\0\0\0\0\0\x0CTIT2\0\0\0\x02\0\0\0A";
    /// let records: Result<Vec<_>, _> = streamvault::Reader::open(tag, Vec::new())?.records().collect();
    /// assert_eq!(records?.len(), 1);
    /// # Ok::<(), streamvault::Refusal>(())
    /// ```
    pub fn records(self) -> Records<'t, W> {
        Records { reader: self }
    }
}

/// The next frame of those that a state goes through.
pub(crate) fn step<'s, W: Work>(state: &'s mut State<'_, W, SV_READER_WORDS>) -> Option<Result<Frame<'s>, Refusal>> {
    let mut words = [0; SV_RECORD_WORDS];
    let next = state.next(|tag, work, reader| calls::step(tag, work, reader, &mut words))?;
    Some(next.map(|()| Found { words, buffer: state.buffer(words[SV_RECORD_IN_WORK]) }.frame()))
}

/// The frames of a tag as records: what [`Reader::records`] gives.
#[derive(Clone, Debug)]
pub struct Records<'t, W> {
    reader: Reader<'t, W>,
}

impl<W: Work> Iterator for Records<'_, W> {
    type Item = Result<Record, Refusal>;

    fn next(&mut self) -> Option<Self::Item> {
        let next = self.reader.next_frame()?;
        Some(next.map(|frame| frame.to_record()))
    }
}

impl<W: Work> FusedIterator for Records<'_, W> {}

impl<'t, W: Work> IntoIterator for Reader<'t, W> {
    type Item = Result<Record, Refusal>;
    type IntoIter = Records<'t, W>;

    fn into_iter(self) -> Records<'t, W> {
        self.records()
    }
}

/// All frames of a tag as records.
///
/// ```
/// let records = streamvault::read(b"ID3\x03\0\0\0\0\0\x0CTIT2\0\0\0\x02\0\0\0A")?;
/// assert_eq!(records[0].id.as_bytes(), b"TIT2");
/// # Ok::<(), streamvault::Refusal>(())
/// ```
pub fn read(tag: &[u8]) -> Result<Vec<Record>, Refusal> {
    Reader::open(tag, Vec::new())?.records().collect()
}
