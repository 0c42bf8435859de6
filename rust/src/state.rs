//! What a reader and a meter have in common.

use crate::sys::*;
use crate::work::{Work, MOST_DEPTH};
use crate::{header, Header, Refusal, Version};

/// A tag that is gone through, a work buffer, and the `N` words between calls, of which the first seven are a reader's.
#[derive(Clone, Debug)]
pub(crate) struct State<'t, W, const N: usize> {
    tag: &'t [u8],
    work: W,
    words: [u64; N],
    done: bool,
}

impl<'t, W: Work, const N: usize> State<'t, W, N> {
    /// Opens a tag by this call.
    pub fn open(tag: &'t [u8], work: W, call: fn(&[u8], &mut [u8], &mut [u64]) -> u32) -> Result<Self, Refusal> {
        let mut state = State { tag, work, words: [0; N], done: false };
        let answer = state.with_room(call);
        Refusal::of(answer).map(|()| state)
    }

    /// Goes through these bytes by words that no opening left.
    pub fn with_words(tag: &'t [u8], work: W, words: [u64; N]) -> Self {
        State { tag, work, words, done: false }
    }

    /// Goes on by this call. After the end, and after a refusal was handed out, there is nothing more.
    pub fn next(&mut self, call: impl FnMut(&[u8], &mut [u8], &mut [u64]) -> u32) -> Option<Result<(), Refusal>> {
        if self.done {
            return None;
        }
        let answer = self.with_room(call);
        self.done = answer != 0;
        (answer != SV_END).then(|| Refusal::of(answer))
    }

    /// The words as they are now.
    pub fn words(&self) -> &[u64; N] {
        &self.words
    }

    /// The header of the tag that was opened.
    pub fn header(&self) -> Header {
        header(self.tag).expect("a tag that was opened has a header")
    }

    /// The edition of the tag.
    pub fn version(&self) -> Version {
        Version::of(self.words[SV_READER_VERSION])
    }

    /// The refusal that it ended with, if it did.
    pub fn refusal(&self) -> Option<Refusal> {
        let refused = self.words[SV_READER_STOP] == SV_STOP_REFUSED;
        refused.then(|| Refusal::new(self.words[SV_READER_NUMBER] as u32))
    }

    /// The buffer that a found part lies in, by its word `in_work`.
    pub fn buffer(&self, in_work: u64) -> &[u8] {
        if in_work != 0 {
            self.work.bytes()
        } else {
            self.tag
        }
    }

    /// Makes a call, again with more room for as long as the work buffer was too small and grows. A refused call leaves
    /// the tag as it was, and the work buffer too where the frames lie in it, so it can be made again.
    fn with_room(&mut self, mut call: impl FnMut(&[u8], &mut [u8], &mut [u64]) -> u32) -> u32 {
        let before = self.words;
        let most = self.tag.len().saturating_mul(MOST_DEPTH);
        loop {
            let answer = call(self.tag, self.work.bytes_mut(), &mut self.words);
            if answer != SV_WORK_TOO_SMALL || !self.work.grow(most) {
                return answer;
            }
            self.words = before;
        }
    }
}
