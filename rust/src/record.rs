//! Frames that were read, and records that are kept or written.

use crate::calls::{self, Given};
use crate::sys::*;
use crate::{Encoding, Id, Kind, Refusal, Subframes, Version};
use std::hash::{Hash, Hasher};

/// What a frame holds, by its kind.
///
/// `B` is how its bytes are held: `&[u8]` in a [`Frame`], which borrows them, and `Vec<u8>` in a [`Record`], which owns
/// them. A [`Writer`](crate::Writer) takes either.
///
/// Contents are equal where their fields are. The references of tables are equal where their deviations are: bits that
/// are left over after the last whole reference say nothing, and are not written either.
///
/// More kinds may come, so that a `match` outside this crate needs an arm for others.
///
/// ```compile_fail
/// fn is_raw(content: &streamvault::Content<&[u8]>) -> bool {
///     use streamvault::Content::*;
///     match content {
///         Text { .. } | Popularimeter { .. } | Table { .. } | Chapter { .. } | Contents { .. } => false,
///         Raw { .. } => true,
///     }
/// }
/// ```
#[derive(Clone, Copy, Debug)]
#[non_exhaustive]
pub enum Content<B> {
    /// A text, undecoded, without its closing zeros.
    Text {
        /// How the text is encoded.
        encoding: Encoding,
        /// The text's bytes.
        text: B,
    },
    /// A popularimeter.
    Popularimeter {
        /// Whose counter it is, often an e-mail address.
        user: B,
        /// The rating.
        rating: u8,
        /// The counter. When it is read it may have any number of bytes; what does not fit 64 bits is refused with
        /// [`Refusal::COUNTER_TOO_LARGE`]. It is written in as many bytes as it needs.
        counter: u64,
    },
    /// A lookup table.
    Table {
        /// Its steps and widths.
        table: Table,
        /// Its references, packed; [`references`] unpacks them.
        packed: B,
    },
    /// A chapter.
    Chapter {
        /// The element id.
        element: B,
        /// Where it starts, in milliseconds.
        start_time: u32,
        /// Where it ends, in milliseconds.
        end_time: u32,
        /// The offset of its first byte.
        start_offset: u32,
        /// The offset after its last byte.
        end_offset: u32,
        /// Its subframes, one run of encoded frames.
        run: B,
    },
    /// A table of contents.
    Contents {
        /// The element id.
        element: B,
        /// Whether it is the topmost.
        top_level: bool,
        /// Whether its children are in order.
        ordered: bool,
        /// The element ids of its children, each closed by a zero.
        children: B,
        /// Its subframes, one run of encoded frames.
        run: B,
    },
    /// A frame of any other id, or a compressed one.
    Raw {
        /// The body as it is stored.
        body: B,
    },
}

/// The steps of a lookup table and the widths of its deviations.
#[derive(Clone, Copy, Debug, Default, PartialEq, Eq, Hash)]
pub struct Table {
    /// MPEG frames between two references.
    pub frames: u16,
    /// Bytes between two references; below 2^24 when written.
    pub bytes: u32,
    /// Milliseconds between two references; below 2^24 when written.
    pub millis: u32,
    /// Bits of a deviation of bytes, 1 to 32.
    pub bits_for_bytes: u8,
    /// Bits of a deviation of milliseconds, 1 to 32.
    pub bits_for_millis: u8,
}

/// A reference of a lookup table: how far it deviates from the steps.
#[derive(Clone, Copy, Debug, Default, PartialEq, Eq, Hash)]
pub struct Reference {
    /// The deviation of bytes.
    pub bytes: u32,
    /// The deviation of milliseconds.
    pub millis: u32,
}

impl<B> Content<B> {
    /// Which kind it is.
    pub fn kind(&self) -> Kind {
        match self {
            Content::Text { .. } => Kind::Text,
            Content::Popularimeter { .. } => Kind::Popularimeter,
            Content::Table { .. } => Kind::Table,
            Content::Chapter { .. } => Kind::Chapter,
            Content::Contents { .. } => Kind::Contents,
            Content::Raw { .. } => Kind::Raw,
        }
    }

    /// The same with its bytes held in another way.
    pub fn map<C>(self, mut hold: impl FnMut(B) -> C) -> Content<C> {
        match self {
            Content::Text { encoding, text } => Content::Text { encoding, text: hold(text) },
            Content::Popularimeter { user, rating, counter } => {
                Content::Popularimeter { user: hold(user), rating, counter }
            }
            Content::Table { table, packed } => Content::Table { table, packed: hold(packed) },
            Content::Chapter { element, start_time, end_time, start_offset, end_offset, run } => {
                let (element, run) = (hold(element), hold(run));
                Content::Chapter { element, start_time, end_time, start_offset, end_offset, run }
            }
            Content::Contents { element, top_level, ordered, children, run } => {
                let (element, children, run) = (hold(element), hold(children), hold(run));
                Content::Contents { element, top_level, ordered, children, run }
            }
            Content::Raw { body } => Content::Raw { body: hold(body) },
        }
    }
}

impl<B: AsRef<[u8]>> Content<B> {
    /// The same, borrowing its bytes.
    pub fn borrowed(&self) -> Content<&[u8]> {
        match self {
            Content::Text { encoding, text } => Content::Text { encoding: *encoding, text: text.as_ref() },
            Content::Popularimeter { user, rating, counter } => {
                Content::Popularimeter { user: user.as_ref(), rating: *rating, counter: *counter }
            }
            Content::Table { table, packed } => Content::Table { table: *table, packed: packed.as_ref() },
            Content::Chapter { element, start_time, end_time, start_offset, end_offset, run } => Content::Chapter {
                element: element.as_ref(),
                start_time: *start_time,
                end_time: *end_time,
                start_offset: *start_offset,
                end_offset: *end_offset,
                run: run.as_ref(),
            },
            Content::Contents { element, top_level, ordered, children, run } => Content::Contents {
                element: element.as_ref(),
                top_level: *top_level,
                ordered: *ordered,
                children: children.as_ref(),
                run: run.as_ref(),
            },
            Content::Raw { body } => Content::Raw { body: body.as_ref() },
        }
    }

    /// The subframes of a chapter or of a table of contents, as records; none of any other kind. The version is that of
    /// the tag that it was read from, or is written to.
    ///
    /// ```
    /// use streamvault::{read, Version};
    ///
    /// let tag = b"ID3\x04\0\0\0\0\0\x27CHAP\0\0\0\x1D\0\0\0\
    ///     \0\0\0\0\0\0\0\0\0\0\0\0\0\0\0\0TIT2\0\0\0\x02\0\0\0A";
    /// let chapter = &read(tag)?[0];
    /// for sub in chapter.content.subframes(Version::Id3v24) {
    ///     assert_eq!(sub?.id.as_bytes(), b"TIT2");
    /// }
    /// # Ok::<(), streamvault::Refusal>(())
    /// ```
    pub fn subframes(&self, version: Version) -> Subframes<'_> {
        match self.borrowed() {
            Content::Chapter { run, .. } | Content::Contents { run, .. } => Subframes::new(version, run),
            _ => Subframes::new(version, &[]),
        }
    }

    /// What is compared: all that is handed to the C interface, and of a table the bits of its references.
    fn compared(&self) -> impl Eq + Hash + '_ {
        let content = self.borrowed();
        let mut handed = Handed::empty(Id::from_number(0), content.kind());
        handed.put(content);
        let bits = match content {
            Content::Table { table, packed } => table.bits(packed),
            _ => Bits::default(),
        };
        (handed.words, handed.name, handed.names, handed.rest, bits)
    }
}

impl<B: AsRef<[u8]>> PartialEq for Content<B> {
    fn eq(&self, other: &Content<B>) -> bool {
        self.compared() == other.compared()
    }
}

impl<B: AsRef<[u8]>> Eq for Content<B> {}

impl<B: AsRef<[u8]>> Hash for Content<B> {
    fn hash<H: Hasher>(&self, state: &mut H) {
        self.compared().hash(state);
    }
}

/// A frame as it was read, of the top level or of a run. Its bytes are parts of the tag or the run, or of the reader's
/// work buffer, which the next step may change.
#[derive(Clone, Copy, Debug, PartialEq, Eq)]
pub struct Frame<'a> {
    /// The id.
    pub id: Id,
    /// The place of the frame's header, counted from the first frame byte, after resynchronising.
    pub at: usize,
    /// Whether the tag's end cuts the body. Do not count what a short frame says.
    pub short: bool,
    /// Whether the body is compressed, and so raw.
    pub compressed: bool,
    /// The whole body, resynchronised.
    pub body: &'a [u8],
    /// The same by its kind.
    pub content: Content<&'a [u8]>,
}

impl Frame<'_> {
    /// Which kind it is.
    pub fn kind(&self) -> Kind {
        self.content.kind()
    }

    /// The frame apart from its place, with bytes of its own.
    pub fn to_record(&self) -> Record {
        Record {
            id: self.id,
            short: self.short,
            compressed: self.compressed,
            content: self.content.map(<[u8]>::to_vec),
        }
    }
}

/// A frame with bytes of its own and without its place. What was written and what is read are equal as records:
/// [`Content`] says when contents are equal.
#[derive(Clone, Debug, PartialEq, Eq, Hash)]
pub struct Record {
    /// The id.
    pub id: Id,
    /// Whether the tag's end cut the body. Such a record is not written.
    pub short: bool,
    /// Whether the body is compressed. Such a record is not written.
    pub compressed: bool,
    /// What it holds.
    pub content: Content<Vec<u8>>,
}

impl Record {
    /// A record to be written.
    pub fn new(id: impl Into<Id>, content: Content<Vec<u8>>) -> Record {
        Record { id: id.into(), short: false, compressed: false, content }
    }

    /// Which kind it is.
    pub fn kind(&self) -> Kind {
        self.content.kind()
    }
}

/// The references that the packed bytes of a lookup table hold: as many as fit whole. Widths that are not 1 to 32 are
/// refused.
///
/// ```
/// use streamvault::{references, Reference, Table};
///
/// let table = Table { bits_for_bytes: 4, bits_for_millis: 8, ..Table::default() };
/// let found = references(&table, &[0xA5, 0xC3, 0x01])?;
/// let first = Reference { bytes: 0xA, millis: 0x5C };
/// let second = Reference { bytes: 0x3, millis: 0x01 };
/// assert_eq!(found, [first, second]);
/// # Ok::<(), streamvault::Refusal>(())
/// ```
pub fn references(table: &Table, packed: &[u8]) -> Result<Vec<Reference>, Refusal> {
    let numbers = deviations(table, packed)?;
    let pairs = numbers.chunks_exact(2);
    Ok(pairs.map(|pair| Reference { bytes: pair[0], millis: pair[1] }).collect())
}

/// The same as numbers two by two.
pub(crate) fn deviations(table: &Table, packed: &[u8]) -> Result<Vec<u32>, Refusal> {
    let mut words = [0; SV_RECORD_WORDS];
    words[SV_RECORD_KIND] = Kind::Table.word();
    table.put(&mut words);
    let mut numbers = vec![0; 2 * table.references_in(packed.len())];
    let mut count = [0];
    Refusal::of(calls::references(&words, packed, &mut numbers, &mut count))?;
    numbers.truncate(count[0] as usize);
    Ok(numbers)
}

impl Table {
    /// How many bits a reference has.
    fn width(&self) -> usize {
        usize::from(self.bits_for_bytes) + usize::from(self.bits_for_millis)
    }

    /// How many references `len` packed bytes hold whole.
    fn references_in(&self, len: usize) -> usize {
        len.saturating_mul(8).checked_div(self.width()).unwrap_or(0)
    }

    /// Whether its references can be unpacked: each width is 1 to 32.
    fn unpacks(&self) -> bool {
        [self.bits_for_bytes, self.bits_for_millis].iter().all(|width| (1..=32).contains(width))
    }

    /// The bits of the references that packed bytes hold whole; all bits where they cannot be unpacked.
    fn bits<'a>(&self, packed: &'a [u8]) -> Bits<'a> {
        if !self.unpacks() {
            return Bits { count: packed.len().saturating_mul(8), bytes: packed, last: 0 };
        }
        let count = self.references_in(packed.len()) * self.width();
        let (bytes, behind) = packed.split_at(count / 8);
        let others = 0xFF_u8 >> (count % 8);
        Bits { count, bytes, last: behind.first().map_or(0, |last| last & !others) }
    }

    /// Puts the steps and the widths into the words of a record.
    fn put(&self, words: &mut [u64; SV_RECORD_WORDS]) {
        words[SV_TABLE_FRAMES] = u64::from(self.frames);
        words[SV_TABLE_BYTES] = u64::from(self.bytes);
        words[SV_TABLE_MILLIS] = u64::from(self.millis);
        words[SV_TABLE_BITS_FOR_BYTES] = u64::from(self.bits_for_bytes);
        words[SV_TABLE_BITS_FOR_MILLIS] = u64::from(self.bits_for_millis);
    }
}

/// Packed bits.
#[derive(Default, PartialEq, Eq, Hash)]
struct Bits<'a> {
    /// How many there are.
    count: usize,
    /// The bytes that they fill.
    bytes: &'a [u8],
    /// The byte after those, with zeros in place of other bits.
    last: u8,
}

// ---- from words

/// The words of a record that a step left, with the buffer that its parts lie in.
pub(crate) struct Found<'a> {
    pub(crate) words: [u64; SV_RECORD_WORDS],
    pub(crate) buffer: &'a [u8],
}

impl<'a> Found<'a> {
    /// The part whose first byte and length stand at these words. That it lies in the buffer is the step's contract.
    fn part(&self, start: usize, len: usize) -> &'a [u8] {
        let (start, len) = (self.words[start] as usize, self.words[len] as usize);
        &self.buffer[start..][..len]
    }

    fn name(&self) -> &'a [u8] {
        self.part(SV_RECORD_NAME_START, SV_RECORD_NAME_LEN)
    }

    fn rest(&self) -> &'a [u8] {
        self.part(SV_RECORD_REST_START, SV_RECORD_REST_LEN)
    }

    /// A number of a field, which fits its type by the step's contract.
    fn number<T: TryFrom<u64>>(&self, word: usize) -> T {
        let fits = T::try_from(self.words[word]).ok();
        fits.expect("an accepted step leaves numbers that fit their fields")
    }

    fn flag(&self, word: usize) -> bool {
        self.words[word] != 0
    }

    /// The frame that the words say.
    pub(crate) fn frame(&self) -> Frame<'a> {
        Frame {
            id: Id::of(self.words[SV_RECORD_ID]),
            at: self.words[SV_RECORD_AT] as usize,
            short: self.flag(SV_RECORD_SHORT),
            compressed: self.flag(SV_RECORD_COMPRESSED),
            body: self.part(SV_RECORD_BODY_START, SV_RECORD_BODY_LEN),
            content: self.content(),
        }
    }

    fn content(&self) -> Content<&'a [u8]> {
        match Kind::of(self.words[SV_RECORD_KIND]) {
            Kind::Text => Content::Text { encoding: Encoding::of(self.words[SV_TEXT_ENCODING]), text: self.rest() },
            Kind::Popularimeter => Content::Popularimeter {
                user: self.name(),
                rating: self.number(SV_POPULARIMETER_RATING),
                counter: self.number(SV_POPULARIMETER_COUNTER),
            },
            Kind::Table => Content::Table { table: self.table(), packed: self.rest() },
            Kind::Chapter => self.chapter(),
            Kind::Contents => Content::Contents {
                element: self.name(),
                top_level: self.flag(SV_CONTENTS_TOP_LEVEL),
                ordered: self.flag(SV_CONTENTS_ORDERED),
                children: self.part(SV_RECORD_NAMES_START, SV_RECORD_NAMES_LEN),
                run: self.rest(),
            },
            Kind::Raw => Content::Raw { body: self.rest() },
        }
    }

    fn table(&self) -> Table {
        Table {
            frames: self.number(SV_TABLE_FRAMES),
            bytes: self.number(SV_TABLE_BYTES),
            millis: self.number(SV_TABLE_MILLIS),
            bits_for_bytes: self.number(SV_TABLE_BITS_FOR_BYTES),
            bits_for_millis: self.number(SV_TABLE_BITS_FOR_MILLIS),
        }
    }

    fn chapter(&self) -> Content<&'a [u8]> {
        Content::Chapter {
            element: self.name(),
            start_time: self.number(SV_CHAPTER_START_TIME),
            end_time: self.number(SV_CHAPTER_END_TIME),
            start_offset: self.number(SV_CHAPTER_START_OFFSET),
            end_offset: self.number(SV_CHAPTER_END_OFFSET),
            run: self.rest(),
        }
    }
}

// ---- to words

/// A record as it is handed to the C interface.
pub(crate) struct Handed<'a> {
    words: [u64; SV_RECORD_WORDS],
    name: &'a [u8],
    names: &'a [u8],
    rest: &'a [u8],
    deviations: Vec<u32>,
}

impl<'a> Handed<'a> {
    /// A record with these marks. The references of a table that is given packed are unpacked. Where its widths do not
    /// let them none are handed on: the library refuses such a table, and says which of its faults comes first.
    pub(crate) fn new(id: Id, short: bool, compressed: bool, content: Content<&'a [u8]>) -> Handed<'a> {
        let mut handed = Handed::empty(id, content.kind());
        handed.words[SV_RECORD_SHORT] = u64::from(short);
        handed.words[SV_RECORD_COMPRESSED] = u64::from(compressed);
        match content {
            Content::Table { table, packed } if table.unpacks() => {
                handed.deviations = deviations(&table, packed).expect("widths from 1 to 32 are unpacked");
            }
            _ => {}
        }
        handed.put(content);
        handed
    }

    /// A lookup table with these references.
    pub(crate) fn table(id: Id, table: &Table, references: &[Reference]) -> Handed<'a> {
        let mut handed = Handed::empty(id, Kind::Table);
        table.put(&mut handed.words);
        handed.deviations = references.iter().flat_map(|r| [r.bytes, r.millis]).collect();
        handed
    }

    fn empty(id: Id, kind: Kind) -> Handed<'a> {
        let mut words = [0; SV_RECORD_WORDS];
        words[SV_RECORD_KIND] = kind.word();
        words[SV_RECORD_ID] = u64::from(id.number());
        Handed { words, name: &[], names: &[], rest: &[], deviations: Vec::new() }
    }

    /// Puts the numbers and the bytes of a content.
    fn put(&mut self, content: Content<&'a [u8]>) {
        let words = &mut self.words;
        match content {
            Content::Text { encoding, text } => {
                words[SV_TEXT_ENCODING] = u64::from(encoding.number());
                self.rest = text;
            }
            Content::Popularimeter { user, rating, counter } => {
                words[SV_POPULARIMETER_RATING] = u64::from(rating);
                words[SV_POPULARIMETER_COUNTER] = counter;
                self.name = user;
            }
            Content::Table { table, packed: _ } => table.put(words),
            Content::Chapter { element, start_time, end_time, start_offset, end_offset, run } => {
                words[SV_CHAPTER_START_TIME] = u64::from(start_time);
                words[SV_CHAPTER_END_TIME] = u64::from(end_time);
                words[SV_CHAPTER_START_OFFSET] = u64::from(start_offset);
                words[SV_CHAPTER_END_OFFSET] = u64::from(end_offset);
                self.name = element;
                self.rest = run;
            }
            Content::Contents { element, top_level, ordered, children, run } => {
                words[SV_CONTENTS_TOP_LEVEL] = u64::from(top_level);
                words[SV_CONTENTS_ORDERED] = u64::from(ordered);
                self.name = element;
                self.names = children;
                self.rest = run;
            }
            Content::Raw { body } => self.rest = body,
        }
    }

    /// The slices for a call.
    pub(crate) fn given(&self) -> Given<'_> {
        Given { record: &self.words, name: self.name, names: self.names, rest: self.rest, deviations: &self.deviations }
    }

    /// How many bytes were handed in: what the frame has at least, less its numbers.
    pub(crate) fn len(&self) -> usize {
        self.name.len() + self.names.len() + self.rest.len() + self.deviations.len()
    }
}
