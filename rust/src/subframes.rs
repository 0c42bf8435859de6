//! The subframes of chapters and tables of contents.

use crate::reader::step;
use crate::state::State;
use crate::sys::*;
use crate::{Frame, Record, Refusal, Version};
use std::iter::FusedIterator;

/// Reads the frames of a run one by one: the subframes of a chapter or of a table of contents.
///
/// As an iterator it gives records with bytes of their own, a refusal as the last item.
/// [`next_frame`](Subframes::next_frame) lends each frame instead and copies nothing. A subframe can be a chapter again,
/// with subframes of its own.
///
/// The library walks the run as it walks the frames of a tag, in the same bytes: [`Frame::at`] is then the place in the
/// run, and depth is counted from the run on. A chapter that was read was walked whole, so that none of its subframes is
/// refused. The run of a content that was made otherwise can be refused, and what is read here can lie one level too deep
/// for a [`Writer`](crate::Writer).
///
/// Memory is only taken for 2.4 subframes that are unsynchronised by themselves, as the work buffer of a
/// [`Reader`](crate::Reader) that is a `Vec<u8>`.
///
/// ```
/// use streamvault::{Content, Subframes, Version};
///
/// let mut subframes = Subframes::new(Version::Id3v23, b"POPM\0\0\0\x04\0\0a\0\x05\x07");
/// while let Some(frame) = subframes.next_frame() {
///     assert_eq!(frame?.content, Content::Popularimeter { user: &b"a"[..], rating: 5, counter: 7 });
/// }
/// # Ok::<(), streamvault::Refusal>(())
/// ```
#[derive(Clone, Debug)]
pub struct Subframes<'r> {
    state: State<'r, Vec<u8>, SV_READER_WORDS>,
}

impl<'r> Subframes<'r> {
    /// The frames of this run, encoded as in a tag of this version.
    pub fn new(version: Version, run: &'r [u8]) -> Subframes<'r> {
        let mut words = [0; SV_READER_WORDS];
        words[SV_READER_VERSION] = u64::from(version.edition());
        words[SV_READER_END] = run.len() as u64;
        words[SV_READER_STOP] = SV_STOP_RUNNING;
        Subframes { state: State::with_words(run, Vec::new(), words) }
    }

    /// The next subframe. After the last one, and after a refusal was handed out, there is none.
    pub fn next_frame(&mut self) -> Option<Result<Frame<'_>, Refusal>> {
        step(&mut self.state)
    }

    /// The refusal that the reading ended with, if it did.
    pub fn refusal(&self) -> Option<Refusal> {
        self.state.refusal()
    }
}

impl Iterator for Subframes<'_> {
    type Item = Result<Record, Refusal>;

    fn next(&mut self) -> Option<Self::Item> {
        let next = self.next_frame()?;
        Some(next.map(|frame| frame.to_record()))
    }
}

impl FusedIterator for Subframes<'_> {}
