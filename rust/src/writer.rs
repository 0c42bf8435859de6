//! Writing a tag.

use crate::record::Handed;
use crate::sys::*;
use crate::{calls, Content, Frame, Header, Id, Mode, Record, Reference, Refusal, Table, Version};

/// Writes records to a tag. It owns the buffer that it collects frames in, and lets it grow.
///
/// ```
/// use streamvault::{read, Content, Mode, Version, Writer};
///
/// let mut writer = Writer::new(Version::Id3v24).mode(Mode::Standard);
/// writer.add(b"POPM", &Content::Popularimeter { user: b"a@b.example", rating: 5, counter: 65_280 })?;
/// let tag = writer.finish(1)?;
///
/// let records = read(&tag)?;
/// assert_eq!(
///     records[0].content,
///     Content::Popularimeter { user: b"a@b.example".to_vec(), rating: 5, counter: 65_280 }
/// );
/// # Ok::<(), streamvault::Refusal>(())
/// ```
///
/// A refused call leaves the writer as it was.
///
/// [`mode`](Writer::mode) and [`altered`](Writer::altered) are for a writer that has no frame yet: version, mode and mark
/// stay as they were begun. A writer that is told another after a frame was added is none any more, and every further
/// call is refused with [`Refusal::UNKNOWN_VERSION`].
///
/// ```
/// use streamvault::{Content, Mode, Refusal, Version, Writer};
///
/// let mut writer = Writer::new(Version::Id3v24);
/// writer.add(b"PRIV", &Content::Raw { body: b"x" })?;
/// let writer = writer.mode(Mode::Standard);
/// assert_eq!(writer.finish(0), Err(Refusal::UNKNOWN_VERSION));
/// # Ok::<(), streamvault::Refusal>(())
/// ```
#[derive(Clone, Debug)]
pub struct Writer {
    words: [u64; SV_WRITER_WORDS],
    buffer: Vec<u8>,
    /// Whether a frame was accepted, be it one that was left out.
    added: bool,
}

/// A mode that is none.
const NO_MODE: u64 = u64::MAX;

impl Writer {
    /// Begins a writer with mode [`Off`](Mode::Off), for a file that is not altered.
    pub fn new(version: Version) -> Writer {
        let words = begun(|words| calls::begin_plain(version.edition().into(), words));
        Writer { words, buffer: Vec::new(), added: false }
    }

    /// The same with another mode, before the first frame.
    #[must_use]
    pub fn mode(self, mode: Mode) -> Writer {
        let altered = self.words[SV_WRITER_ALTERED];
        self.begun_again(mode.word(), altered)
    }

    /// The same for a file that is altered, or that is not, before the first frame. Frames that an altered file loses
    /// (MLLT, TLEN and nine more) are accepted and left out.
    #[must_use]
    pub fn altered(self, altered: bool) -> Writer {
        let mode = self.words[SV_WRITER_MODE];
        self.begun_again(mode, u64::from(altered))
    }

    /// The same begun with these words. After a frame was added the mode is then none, which the library refuses.
    fn begun_again(mut self, mode: u64, altered: u64) -> Writer {
        if self.added {
            self.words[SV_WRITER_MODE] = NO_MODE;
        } else {
            let edition = self.words[SV_WRITER_VERSION];
            self.words = begun(|words| calls::begin(edition, mode, altered, words));
        }
        self
    }

    /// The edition that it writes.
    pub fn version(&self) -> Version {
        Version::of(self.words[SV_WRITER_VERSION])
    }

    /// Bytes of the frames that were added.
    pub fn used(&self) -> usize {
        self.words[SV_WRITER_USED] as usize
    }

    /// The frames that were added, one after the other, as they are collected: not yet unsynchronised in 2.2 and 2.3. Those
    /// of a writer with mode off are a run of subframes for a chapter or a table of contents.
    ///
    /// ```
    /// use streamvault::{Content, Encoding, Version, Writer};
    ///
    /// let mut inner = Writer::new(Version::Id3v24);
    /// inner.add(b"TIT2", &Content::Text { encoding: Encoding::Utf8, text: "One" })?;
    /// let mut writer = Writer::new(Version::Id3v24);
    /// let chapter = Content::Chapter {
    ///     element: &b"c1"[..],
    ///     start_time: 0,
    ///     end_time: 90_000,
    ///     start_offset: u32::MAX,
    ///     end_offset: u32::MAX,
    ///     run: inner.frames(),
    /// };
    /// writer.add(b"CHAP", &chapter)?;
    /// # Ok::<(), streamvault::Refusal>(())
    /// ```
    pub fn frames(&self) -> &[u8] {
        &self.buffer[..self.used()]
    }

    /// Adds a frame, and gives the bytes that it took: 0 where the frame was left out. The references of a table are
    /// given packed, as they were read; [`add_table`](Writer::add_table) packs them.
    pub fn add<B: AsRef<[u8]>>(&mut self, id: impl Into<Id>, content: &Content<B>) -> Result<usize, Refusal> {
        self.append(&Handed::new(id.into(), false, false, content.borrowed()))
    }

    /// Adds a record.
    pub fn add_record(&mut self, record: &Record) -> Result<usize, Refusal> {
        let content = record.content.borrowed();
        self.append(&Handed::new(record.id, record.short, record.compressed, content))
    }

    /// Adds a frame as it was read, without a copy in between.
    ///
    /// ```
    /// use streamvault::{Reader, Version, Writer};
    ///
    /// let tag = b"ID3\x04\0\0\0\0\0\x12POPM\0\0\0\x08\0\0a\0\x05\x01\0\0\0\0";
    /// let mut reader = Reader::open(tag, Vec::new())?;
    /// let mut writer = Writer::new(Version::Id3v24);
    /// while let Some(frame) = reader.next_frame() {
    ///     writer.add_frame(&frame?)?;
    /// }
    /// assert_eq!(writer.finish(0)?, tag);
    /// # Ok::<(), streamvault::Refusal>(())
    /// ```
    pub fn add_frame(&mut self, frame: &Frame<'_>) -> Result<usize, Refusal> {
        self.append(&Handed::new(frame.id, frame.short, frame.compressed, frame.content))
    }

    /// Adds a lookup table with these references.
    pub fn add_table(&mut self, id: impl Into<Id>, table: &Table, references: &[Reference]) -> Result<usize, Refusal> {
        self.append(&Handed::table(id.into(), table, references))
    }

    /// The tag: header, frames, and so many zeros.
    ///
    /// That a tag is too long is said before there is room for it, so none is made then. Frames take at most twice as
    /// many bytes unsynchronised.
    pub fn finish(&self, padding: usize) -> Result<Vec<u8>, Refusal> {
        let mut tag = Vec::new();
        let mut answer = self.finish_in(padding, &mut tag);
        for frames in [self.used(), 2 * self.used()] {
            if answer.is_err_and(|refusal| refusal == Refusal::NO_ROOM) {
                tag.resize(Header::LEN + frames + padding, 0);
                answer = self.finish_in(padding, &mut tag);
            }
        }
        tag.truncate(answer?);
        Ok(tag)
    }

    /// Writes the tag to the front of a buffer, and gives its length.
    pub fn finish_in(&self, padding: usize, output: &mut [u8]) -> Result<usize, Refusal> {
        let mut count = [0];
        let padding = padding as u64;
        let answer = calls::finish(padding, &self.buffer, output, &self.words, &mut count);
        Refusal::of(answer).map(|()| count[0] as usize)
    }

    /// Appends a record, with a longer buffer for as long as it says that there is no room.
    fn append(&mut self, handed: &Handed<'_>) -> Result<usize, Refusal> {
        let mut count = [0];
        loop {
            let given = handed.given();
            let answer = calls::add(given, &mut self.buffer, &mut self.words, &mut count);
            if answer != SV_NO_ROOM {
                self.added |= answer == 0;
                return Refusal::of(answer).map(|()| count[0] as usize);
            }
            let longer = (self.used() + handed.len() + 64).max(2 * self.buffer.len());
            self.buffer.resize(longer, 0);
        }
    }
}

/// The words of a writer that this call begins.
fn begun(begin: impl FnOnce(&mut [u64]) -> u32) -> [u64; SV_WRITER_WORDS] {
    let mut words = [0; SV_WRITER_WORDS];
    assert_eq!(begin(&mut words), 0, "every version, mode and mark is accepted");
    words
}
