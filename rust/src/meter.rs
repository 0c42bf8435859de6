//! Reading the counters of a tag and nothing else.

use crate::state::State;
use crate::sys::*;
use crate::{calls, Header, Refusal, Version, Work};

/// A popularimeter as a [`Meter`] lends it.
#[derive(Clone, Copy, Debug, PartialEq, Eq, Hash)]
pub struct Popularimeter<'a> {
    /// Whose counter it is, often an e-mail address.
    pub user: &'a [u8],
    /// The rating.
    pub rating: u8,
    /// The counter, of any number of bytes; what does not fit 64 bits is refused with [`Refusal::COUNTER_TOO_LARGE`].
    pub counter: u64,
    /// The number of its frame, from 0: every frame of the top level counts, of whatever kind.
    pub frame: u64,
}

/// How far a [`Meter`] has come, and once it has no more: how its tag ended, and whether counters may be missing.
#[derive(Clone, Copy, Debug, PartialEq, Eq, Hash)]
pub struct Ending {
    /// The refusal that it ended with, if it did.
    pub refusal: Option<Refusal>,
    /// Frames that it passed, of whatever kind.
    pub frames: u64,
    /// Whether one of them was short: the tag's end cuts it.
    pub short: bool,
    /// Whether one of them was a compressed frame under a popularimeter's id.
    pub compressed: bool,
    /// Whether the tag has fewer bytes than its header says.
    pub missing: bool,
}

impl Ending {
    /// Whether every popularimeter of the top level was shown, if the meter has no more. What stands after the end of
    /// the frames is none; [`Meter::rest`] lends it.
    pub fn is_whole(&self) -> bool {
        self.refusal.is_none() && !self.short && !self.compressed && !self.missing
    }
}

/// Reads the popularimeters of a tag one by one, and passes over all else.
///
/// It shows the whole popularimeters of the top level that a [`Reader`](crate::Reader) shows, and refuses what a reader
/// refuses. Nothing of a short frame is shown, nor of a compressed one, nor of those inside chapters.
/// [`ending`](Meter::ending) then says whether counters may be missing.
///
/// ```
/// use streamvault::Meter;
///
/// let tag = b"ID3\x04\0\0\0\0\0\x12POPM\0\0\0\x08\0\0a\0\x05\x01\0\0\0\0";
/// let mut meter = Meter::open(tag, Vec::new())?;
/// while let Some(found) = meter.next_popularimeter() {
///     let found = found?;
///     assert_eq!((found.user, found.rating, found.counter, found.frame), (&b"a"[..], 5, 4_294_967_296, 0));
/// }
/// assert!(meter.ending().is_whole());
///
/// // the same, cut: nothing is shown, and the ending says why
/// let mut meter = Meter::open(&tag[..25], Vec::new())?;
/// assert!(meter.next_popularimeter().is_none());
/// assert!(meter.ending().short && meter.ending().missing);
/// # Ok::<(), streamvault::Refusal>(())
/// ```
///
/// A user lies in the tag, or resynchronised in the work buffer, and is lent until the next call.
///
/// ```compile_fail
/// # let tag = b"ID3\x04\0\0\0\0\0\0";
/// let mut meter = streamvault::Meter::open(tag, Vec::new()).unwrap();
/// let first = meter.next_popularimeter();
/// let second = meter.next_popularimeter();
/// drop(first);
/// ```
#[derive(Clone, Debug)]
pub struct Meter<'t, W> {
    state: State<'t, W, SV_METER_WORDS>,
}

impl<'t, W: Work> Meter<'t, W> {
    /// Opens the tag at the front of `tag`; what follows the tag is not looked at. The work buffer is a slice or a
    /// `Vec<u8>`: see [`Work`].
    pub fn open(tag: &'t [u8], work: W) -> Result<Meter<'t, W>, Refusal> {
        State::open(tag, work, calls::meter_open).map(|state| Meter { state })
    }

    /// The header of the tag.
    pub fn header(&self) -> Header {
        self.state.header()
    }

    /// The edition of the tag.
    pub fn version(&self) -> Version {
        self.state.version()
    }

    /// The next whole popularimeter of the top level. After the last one, and after a refusal was handed out, there is
    /// none.
    pub fn next_popularimeter(&mut self) -> Option<Result<Popularimeter<'_>, Refusal>> {
        let mut words = [0; SV_METERED_WORDS];
        let next = self.state.next(|tag, work, meter| calls::meter_next(tag, work, meter, &mut words))?;
        Some(next.map(|()| found(&words, self.state.buffer(words[SV_METERED_IN_WORK]))))
    }

    /// How the tag ended, as far as it was gone through.
    pub fn ending(&self) -> Ending {
        let words = self.state.words();
        Ending {
            refusal: self.state.refusal(),
            frames: words[SV_METER_FRAMES],
            short: words[SV_METER_SHORT] != 0,
            compressed: words[SV_METER_COMPRESSED] != 0,
            missing: words[SV_METER_MISSING] != 0,
        }
    }

    /// The bytes of the tag after the end of its frames, once the meter has no more: padding as a rule. Before that, and
    /// after a refusal, it is empty.
    ///
    /// Frames end before a zero byte, or where fewer bytes are left than a frame header has. What stands after that is no
    /// frame, and neither a reader nor a meter looks at it. A tag that something else wrote wrongly can still have a
    /// popularimeter there.
    ///
    /// ```
    /// use streamvault::Meter;
    ///
    /// let tag = b"ID3\x04\0\0\0\0\0\x12\0\0POPM\0\0\0\x06\0\0a\0\x05\x01\0\0";
    /// let mut meter = Meter::open(tag, Vec::new())?;
    /// assert!(meter.rest().is_empty());
    /// assert!(meter.next_popularimeter().is_none());
    /// assert!(meter.ending().is_whole());
    /// assert_eq!(meter.rest(), &tag[10..]);
    /// # Ok::<(), streamvault::Refusal>(())
    /// ```
    pub fn rest(&self) -> &[u8] {
        let words = self.state.words();
        if words[SV_METER_STOP] != SV_STOP_ENDED {
            return &[];
        }
        let (at, end) = (words[SV_METER_AT] as usize, words[SV_METER_END] as usize);
        &self.state.buffer(words[SV_METER_IN_WORK])[at..end]
    }
}

/// The popularimeter that the words say, its user in this buffer.
fn found<'a>(words: &[u64; SV_METERED_WORDS], buffer: &'a [u8]) -> Popularimeter<'a> {
    let (start, len) = (words[SV_METERED_USER_START] as usize, words[SV_METERED_USER_LEN] as usize);
    Popularimeter {
        user: &buffer[start..][..len],
        rating: words[SV_METERED_RATING] as u8,
        counter: words[SV_METERED_COUNTER],
        frame: words[SV_METERED_FRAME],
    }
}
