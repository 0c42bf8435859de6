//! What the new library is asked and what it answers, as plain values.

/// What the library took a tag for.
#[derive(Clone, Debug, PartialEq, Eq)]
pub struct Seen {
    /// The header, or its refusal.
    pub header: Result<Header, u32>,
    /// The frames of the top level in order.
    pub frames: Vec<Frame>,
    /// How the steps ended; of no meaning where the header was refused.
    pub stop: Stop,
}

/// The header's words.
#[derive(Clone, Copy, Debug, PartialEq, Eq)]
#[allow(missing_docs)]
pub struct Header {
    pub edition: u64,
    pub flags: u64,
    pub size: u64,
    pub ext: u64,
}

/// A record, its parts taken out of the buffers.
#[derive(Clone, Debug, PartialEq, Eq)]
#[allow(missing_docs)]
pub struct Frame {
    pub at: usize,
    /// How far the reader moved.
    pub took: usize,
    pub id: u64,
    pub short: bool,
    pub compressed: bool,
    pub kind: u64,
    pub numbers: [u64; 5],
    pub body: Vec<u8>,
    pub name: Vec<u8>,
    pub names: Vec<u8>,
    pub rest: Vec<u8>,
    pub deviations: Vec<u32>,
}

/// The end, or a refusal, and the reader's place then.
#[derive(Clone, Copy, Debug, PartialEq, Eq)]
#[allow(missing_docs)]
pub enum Stop {
    End { at: usize },
    Refused { at: usize, number: u32 },
}

/// A counter to be raised: the tag and what follows it, the user, the amount.
#[derive(Clone, Debug, Default, PartialEq, Eq)]
#[allow(missing_docs)]
pub struct Raise {
    pub tag: Vec<u8>,
    pub user: Vec<u8>,
    pub amount: u64,
}

/// A tag to be edited: the tag and what follows it, and the change. A record is given as the library takes it, or in another form.
#[derive(Clone, Debug, PartialEq, Eq)]
#[allow(missing_docs)]
pub struct Edit<R> {
    pub tag: Vec<u8>,
    pub change: Change<R>,
}

/// A frame of the top level is replaced or removed by its number, or added after the last; or a user's counter is lifted by an amount.
#[derive(Clone, Debug, PartialEq, Eq)]
#[allow(missing_docs)]
pub enum Change<R> {
    Replace(u64, R),
    Remove(u64),
    Append(R),
    Lift(Vec<u8>, u64),
}

impl<R> Change<R> {
    /// The same with its record in another form.
    pub fn map<S>(self, to: impl FnOnce(R) -> S) -> Change<S> {
        match self {
            Change::Replace(number, record) => Change::Replace(number, to(record)),
            Change::Remove(number) => Change::Remove(number),
            Change::Append(record) => Change::Append(to(record)),
            Change::Lift(user, amount) => Change::Lift(user, amount),
        }
    }
}

/// What became of a tag to be raised or edited.
#[derive(Clone, Debug, Default, PartialEq, Eq)]
pub struct Changed {
    /// The refusal or 0.
    pub number: u32,
    /// The new counter, 0 where there is none.
    pub counter: u64,
    /// The lent bytes afterwards.
    pub tag: Vec<u8>,
    /// The word of a refused raise, the words after the one that it has, and the bytes after the lent ones are as they were.
    pub clean: bool,
    /// What reading the tag is refused with where no work buffer is lent, or 0.
    pub roomless: u32,
}

/// A tag to be written: the writer, the lengths of both buffers, the records, the padding.
#[derive(Clone, Debug, Default, PartialEq, Eq)]
#[allow(missing_docs)]
pub struct Order {
    pub edition: u8,
    pub mode: u64,
    pub altered: bool,
    pub room: usize,
    pub entries: Vec<Entry>,
    pub padding: u64,
    pub output: usize,
}

/// A record to be written, without marks.
#[derive(Clone, Debug, Default, PartialEq, Eq)]
#[allow(missing_docs)]
pub struct Entry {
    pub kind: u64,
    pub id: u64,
    pub numbers: [u64; 5],
    pub name: Vec<u8>,
    pub names: Vec<u8>,
    pub rest: Vec<u8>,
    pub deviations: Vec<u32>,
}

/// What became of it.
#[derive(Clone, Debug, Default, PartialEq, Eq)]
pub struct Written {
    /// For each record the refusal or 0, and the count.
    pub added: Vec<(u32, usize)>,
    /// The frames: the collecting buffer as far as it was used.
    pub frames: Vec<u8>,
    /// The refusal of finishing or 0.
    pub finished: u32,
    /// The output as far as its count.
    pub tag: Vec<u8>,
    /// No call changed a byte, or a count, that it should have left alone.
    pub clean: bool,
}
